#!/usr/bin/env python3
"""tools/ways.py: how many ways go down from each crate of crates.txt, and what going down them costs the gate.

A way goes from a crate to a library that its line names, and on from there. rt goes down every way: for the sum of all
that a library is made from, before its proof and behind it, it reads the files of each crate that a way comes to; and
before the first proof of all it asks what stands below, once for each file of code and for each name that clauses import.
The ten libraries are told for which the most files are read, each with the library that most of these are read through;
then all crates, with the files that are read for the libraries among them. A library of the kit is no crate here, and has
no ways.

A crate that a line names and no file of the line's crate does is told too, and then the status is 1.
"""
import pathlib
import re
import sys

TOP = pathlib.Path(__file__).resolve().parent.parent
DEAREST = 10


def lines_of(path):
    """Each crate with the crates that its line names."""
    named = {}
    for line in path.read_text().splitlines():
        head, colon, libraries = line.partition("#")[0].partition(":")
        if colon:
            named[head.split()[0]] = libraries.split()
    return {crate: [it for it in libraries if it in named] for crate, libraries in named.items()}


def files_of(crate, *kinds):
    """The files of a crate that rt reads."""
    found = (path for kind in kinds for path in (TOP / "crates" / crate / kind).rglob("*"))
    return [path for path in found if path.suffix in (".rt", ".antt")]


def is_library(crate):
    """Whether rt makes a library of the crate, which others can stand on."""
    line = re.search(rf"(?m)^{crate}( staticlib)?:", (TOP / "crates.txt").read_text())
    return not line[1] and (TOP / "crates" / crate / "src" / "lib.rt").exists()


def gone_down(lines, own):
    """For each crate what all ways down from it come to, where `own` is what each crate has itself."""
    sums = {}

    def total(crate):
        if crate not in sums:
            sums[crate] = own[crate] + sum(total(it) for it in lines[crate])
        return sums[crate]

    return {crate: total(crate) for crate in lines}


def times_of(crate):
    """How often rt asks what stands below: once a file of code, and once a name that its clauses import."""
    code = [path.read_text() for path in files_of(crate, "src")]
    imports = [found for text in code for found in re.findall(r"ghost use ([^;]*);", text)]
    return len(code) + sum(1 + found.count(",") for found in imports)


def unnamed_in(crate, libraries):
    """The crates of its line that no file of the crate names."""
    text = "\n".join(path.read_text() for path in files_of(crate, "src", "specs", "proofs"))
    return [it for it in libraries if not re.search(rf"\bRattle\.{it}\.|\b{it}::|\buse {it}\b", text)]


def main():
    lines = lines_of(TOP / "crates.txt")
    ways = gone_down(lines, dict.fromkeys(lines, 1))
    read = gone_down(lines, {it: len(files_of(it, "src", "specs", "proofs")) for it in lines})
    asked = {it: ways[it] * times_of(it) for it in lines}
    libraries = [it for it in lines if is_library(it)]
    for crate in sorted(libraries, key=lambda it: -read[it])[:DEAREST]:
        through = max(lines[crate], key=read.get, default="nothing")
        print(f"{crate}: {ways[crate]:,} ways, {read[crate]:,} files read, most through {through}, {asked[crate]:,} steps")
    files = sum(read[it] for it in libraries)
    print(f"in all {sum(ways.values()):,} ways, {files:,} files read, {sum(asked.values()):,} steps")
    idle = [(crate, it) for crate in lines for it in unnamed_in(crate, lines[crate])]
    for crate, library in idle:
        print(f"{crate} lists {library}, which none of its files names", file=sys.stderr)
    return 1 if idle else 0


if __name__ == "__main__":
    sys.exit(main())
