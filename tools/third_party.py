#!/usr/bin/env python3
"""tools/third_party.py [--check|--found]: which crates of the Rattle kit are compiled into what this repository builds.

What is built are the programs, and the static library for C. A line of crates.txt names the crates that a crate uses; what a
crate of the kit uses stands in the file `format` of its rlib, from which rt takes it too; and each uses std. A crate counts
where a way of such lines leads to it. Which Rust crate it follows is what its README.md in the kit says; its licence, and whose
copyright it is, is what the files LICENSE* beside that say.

The kit is the folder of the page that `rt doc` names, or the one that the environment variable RATTLE_KIT names. Without
words the part of THIRD-PARTY.md between its two marks is printed. With --check that part is held to it: each line that is
missing there or too many is named, and so is a licence text that the page lacks; then the status is 1. With --found the crates
are told of which a function stands in the symbols of what is built, as LLVM compiled it, or as Rattle's own compiler did, which
leaves more functions by themselves. Where there is no kit, or it has not what is looked for, the status is 2.
"""
import argparse
import os
import pathlib
import re
import subprocess
import sys

TOP = pathlib.Path(__file__).resolve().parent.parent
PAGE = TOP / "THIRD-PARTY.md"
MARKS = ("<!-- What tools/third_party.py prints: -->\n", "<!-- So far. -->\n")
# A text that has these words is that licence.
LICENCES = {
    "Permission is hereby granted, free of charge, to any person obtaining a copy of this software": "MIT",
    "Apache License Version 2.0": "Apache-2.0",
    "UNICODE LICENSE V3": "Unicode-3.0",
}
# Those whose text goes with what is built: where Apache-2.0 is offered, so is MIT, which is taken.
CARRIED = ("MIT", "Unicode-3.0")


class Unfit(Exception):
    """What the kit or the repository lacks."""


def kit():
    """The folder of the kit."""
    named = os.environ.get("RATTLE_KIT")
    if not named:
        try:
            said = subprocess.run(["rt", "doc"], stdout=subprocess.PIPE, check=True, encoding="utf-8").stdout
        except (OSError, subprocess.CalledProcessError) as fault:
            raise Unfit(f"rt doc names no kit, and neither does RATTLE_KIT: {fault}") from fault
        named = os.path.dirname(said.strip())
    if not os.path.isdir(os.path.join(named, "rlibs")):
        raise Unfit(f"{named} is no kit: it has no folder rlibs")
    return pathlib.Path(named)


def lines_of(path):
    """Each crate of crates.txt with the crates that its line names, and those that are static libraries."""
    named, archives = {}, []
    for line in path.read_text(encoding="utf-8").splitlines():
        head, colon, uses = line.partition("#")[0].partition(":")
        if colon:
            crate, *kind = head.split()
            named[crate] = ["std", *uses.split()]
            archives += [crate] if kind == ["staticlib"] else []
    return named, archives


def built(named, archives):
    """What is built, by the crate that it is built of: the programs, then the archives."""
    programs = [it for it in named if (TOP / "crates" / it / "src" / "main.rt").exists()]
    return {**{it: it for it in programs}, **{it: f"lib{it}.a" for it in archives}}


class Crates:
    """The crates of the repository and of the kit."""

    def __init__(self, folder, named):
        self.folder, self.named = folder, named

    def uses(self, crate):
        """The crates that one uses."""
        if crate in self.named:
            return self.named[crate]
        file = self.folder / "rlibs" / f"{crate}.rlib" / "format"
        if not file.is_file():
            raise Unfit(f"the kit has no crate {crate}")
        return re.findall(r"(?m)^dep (\w+)$", file.read_text(encoding="utf-8"))

    def below(self, crate):
        """The crates of the kit to which a way leads from this one."""
        found, ahead = set(), [crate]
        while ahead:
            it = ahead.pop()
            if it not in found:
                found.add(it)
                ahead += self.uses(it)
        return found - self.named.keys()

    def texts(self, crate):
        """The licence texts beside a crate, each with the licence that it is."""
        texts = {}
        for file in sorted((self.folder / "rattle" / crate).glob("LICENSE*")):
            text = file.read_text(encoding="utf-8")
            names = [name for words, name in LICENCES.items() if words in flat(text)]
            if len(names) != 1:
                raise Unfit(f"{crate}/{file.name} is no licence that this script knows")
            texts[names[0]] = text
        return texts

    def follows(self, crate):
        """The Rust crates that a crate says it follows, with their versions; of a table of Unicode the version of that."""
        place = self.folder / "rattle" / crate
        page = place / "README.md"
        text = page.read_text(encoding="utf-8") if page.is_file() else ""
        found = re.findall(r"([a-z][a-z0-9_-]+)`? (\d+\.\d+\.\d+)\b", text)
        found = [(crate if name == "version" else name, number) for name, number in found]
        if not found:
            data = re.search(r"from the data of Unicode (\d+\.\d+\.\d+)", (place / "src" / "lib.rt").read_text(encoding="utf-8"))
            return f"Unicode {data[1]}" if data else "none that it names"
        return ", ".join(dict.fromkeys(f"`{name}` {number}" for name, number in found))


def flat(text):
    """A text with one space wherever it has some."""
    return " ".join(text.split())


def said(names):
    """The licences by their names: of the two that are offered together either may be taken."""
    offered = " OR ".join(it for it in ("MIT", "Apache-2.0") if it in names)
    others = sorted(it for it in names if it not in offered)
    if others and " OR " in offered:
        offered = f"({offered})"
    return " AND ".join(it for it in (offered, *others) if it)


def is_holder(line):
    """Whether a line of a licence text says whose copyright it is."""
    return re.match(r"Copyright (\(c\)|©) ", line) is not None


def holders(text):
    """The lines that say whose copyright it is."""
    return [it.strip() for it in text.splitlines() if is_holder(it.strip())]


def permission(text):
    """A licence text without these, and without a title that it may have."""
    lines = [it.strip() for it in text.splitlines()]
    return flat("\n".join(it for it in lines if not is_holder(it) and it != "The MIT License (MIT)"))


class Part:
    """The part of the page between its marks, and the licence texts that the page has to have."""

    def __init__(self, crates, products):
        self.crates, self.products = crates, products
        self.reached = {crate: crates.below(crate) for crate in products}
        self.texts = {it: crates.texts(it) for it in sorted(set().union(*self.reached.values()))}

    def table(self):
        """A row for each crate that has a licence text."""
        lines = [f"| Crate | Follows | Licence | {' | '.join(self.products.values())} |", "|---" * (3 + len(self.products)) + "|"]
        for it in self.texts:
            if self.texts[it]:
                marks = " | ".join("yes" if it in below else "no" for below in self.reached.values())
                lines.append(f"| `{it}` | {self.crates.follows(it)} | {said(self.texts[it])} | {marks} |")
        return lines

    def without(self):
        """The crates that have none, which are in all that is built."""
        names = [it for it in self.texts if not self.texts[it]]
        for it in names:
            if not all(it in below for below in self.reached.values()):
                raise Unfit(f"{it} has no licence text, and is not in all that is built, as the page says")
        return "Without a licence text in the kit, and in all of them: " + ", ".join(f"`{it}`" for it in names) + "."

    def copyright(self, licence):
        """A line for each holder of what is under this licence."""
        of = {}
        for it, texts in self.texts.items():
            if licence in texts:
                of.setdefault("; ".join(holders(texts[licence])) or "the text says no holder", []).append(f"`{it}`")
        return [f"- {line}: {', '.join(names)}" for line, names in of.items()]

    def lines(self):
        """All of it."""
        lists = [[f"Copyright, where the licence is {it}:", "", *self.copyright(it)] for it in CARRIED]
        return [*self.table(), "", self.without(), "", *lists[0], "", *lists[1]]

    def permissions(self):
        """The texts of the licences that want to be carried, and a crate of each."""
        return {permission(texts[it]): (it, crate) for crate, texts in self.texts.items() for it in CARRIED if it in texts}


def check(part):
    """What is wrong with the page: a line for each."""
    page = PAGE.read_text(encoding="utf-8")
    _, begun, rest = page.partition(MARKS[0])
    between, ended, _ = rest.partition(MARKS[1])
    if not begun or not ended:
        return [f"it lacks a mark: {MARKS[0] if not begun else MARKS[1]}".strip()]
    there, wanted = between.splitlines(), part.lines()
    wrong = [f"it lacks: {it}" for it in wanted if it not in there]
    wrong += [f"it has, and should not: {it}" for it in there if it not in wanted]
    if not wrong and there != wanted:
        wrong = ["its lines stand in another order, or twice"]
    carried = permission(page)
    for text, (licence, crate) in part.permissions().items():
        if text not in carried:
            wrong.append(f"it lacks the text of {licence}, as it lies beside {crate}")
    return wrong


def found(product):
    """The crates of which a program or an archive has a function under a name of its own."""
    names = subprocess.run(["nm", "-C", str(product)], stdout=subprocess.PIPE, check=True, encoding="utf-8").stdout
    return set(re.findall(r"(?m)^[0-9a-f]+ [tTwW] (\w+)::", names))


def print_found(part):
    """Prints what is found in each that is built."""
    for crate, name in part.products.items():
        place = TOP / "crates" / crate / "out"
        files = [it for it in (place / name, place / f"{name}.by-rattle") if it.is_file()]
        crates = sorted(set().union(*map(found, files)) & part.reached[crate])
        print(f"{name}, in {len(files)} files: {', '.join(crates) or 'none'}")


def main():
    parser = argparse.ArgumentParser(description=__doc__.split("\n", 1)[0])
    parser.add_argument("--check", action="store_true")
    parser.add_argument("--found", action="store_true")
    words = parser.parse_args()
    try:
        named, archives = lines_of(TOP / "crates.txt")
        part = Part(Crates(kit(), named), built(named, archives))
        if words.found:
            print_found(part)
            return 0
        if not words.check:
            print("\n".join(part.lines()))
            return 0
        wrong = check(part)
    except (OSError, subprocess.CalledProcessError, Unfit) as fault:
        print(f"third_party: {fault}", file=sys.stderr)
        return 2
    for it in wrong:
        print(f"third_party: {PAGE.name}: {it}", file=sys.stderr)
    if not wrong:
        print(f"third_party: {len(part.texts)} crates of the kit are compiled in, as {PAGE.name} says")
    return 1 if wrong else 0


if __name__ == "__main__":
    sys.exit(main())
