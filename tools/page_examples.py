#!/usr/bin/env python3
"""tools/page_examples.py [--program PATH] [--check]: the examples that docs/page/ shows, in docs/page/examples.js.

Each script of examples/ and of its folders is run by the program, by default crates/cepage/out/cepage, with the words of
NAME.words beside it, once without `--trace` and once with it. The trace less its lines `~` has to be the transcript, so
docs/page/examples.js has the trace alone; the page takes the lines `~` out where it shows the transcript. The file sets
one variable, `Cepage.examples`, a row an example: its name, its words without `--trace`, the status with which the
program ended, the script and the trace. A byte that is no UTF-8 stands in a script as U+FFFD.

With --check nothing is written: where docs/page/examples.js is not what would be written, the first example that differs
is named, and the status is 1. Where the program can't be run, or ends with a status other than 0, 1 and 3, or its two
runs disagree, the status is 2.
"""
import argparse
import json
import pathlib
import subprocess
import sys

TOP = pathlib.Path(__file__).resolve().parent.parent
EXAMPLES = TOP / "examples"
FILE = TOP / "docs" / "page" / "examples.js"
HEAD = """// The scripts of examples/, with the words, the status and the trace of each, as the program cepage gave them.
// tools/page_examples.py writes this file.
"use strict";
globalThis.Cepage ??= {};
Cepage.examples = [
"""
TAIL = "];\n"


class Unfit(Exception):
    """What the program did that no example may have."""


def scripts():
    """The scripts, those of the folder itself first."""
    return sorted(EXAMPLES.glob("*.script")) + sorted(EXAMPLES.glob("*/*.script"))


def words_of(script):
    """The words beside a script, one a line, but for `--trace`."""
    file = script.with_suffix(".words")
    if not file.is_file():
        return []
    return [word for word in file.read_text(encoding="utf-8").split("\n")[:-1] if word != "--trace"]


def run(program, script, words):
    """What the program writes of a script, and its status."""
    with script.open("rb") as source:
        ended = subprocess.run([program, *words], stdin=source, stdout=subprocess.PIPE, check=False)
    if ended.returncode not in (0, 1, 3):
        raise Unfit(f"{script.relative_to(TOP)}: the program ended with status {ended.returncode}")
    return ended.stdout, ended.returncode


def without_trace(trace):
    """The lines of a trace that are those of the transcript."""
    return b"".join(line for line in trace.splitlines(keepends=True) if not line.startswith(b"~"))


def row(program, script):
    """The line of the file that is an example."""
    words = words_of(script)
    transcript, status = run(program, script, words)
    trace, traced_status = run(program, script, ["--trace", *words])
    if without_trace(trace) != transcript or status != traced_status:
        raise Unfit(f"{script.relative_to(TOP)}: the trace changes the transcript")
    return json.dumps({
        "name": str(script.relative_to(EXAMPLES).with_suffix("")),
        "words": words,
        "status": status,
        "script": script.read_bytes().decode("utf-8", "replace"),
        "trace": trace.decode("utf-8"),
    }, separators=(",", ":")) + ",\n"


def name_of(line):
    """The name of the example that a line of the file is, or None."""
    try:
        return json.loads(line.rstrip(",\n"))["name"]
    except (ValueError, TypeError, KeyError):
        return None


def difference(rows):
    """Where the file is not what it should be: None where it is."""
    if not FILE.is_file():
        return "there is no such file"
    text = FILE.read_bytes().decode("utf-8", "replace")
    if text == HEAD + "".join(rows) + TAIL:
        return None
    there = {name_of(line): line for line in text.splitlines(keepends=True)}
    for wanted in rows:
        if there.get(name_of(wanted)) != wanted:
            return f"the example {name_of(wanted)} differs"
    wanted_names = {name_of(wanted) for wanted in rows}
    left = [name for name in there if name is not None and name not in wanted_names]
    return f"there is no example {left[0]} any more" if left else "the lines around the examples differ"


def main():
    parser = argparse.ArgumentParser(description=__doc__.split("\n", 1)[0], add_help=True)
    parser.add_argument("--program", default=str(TOP / "crates" / "cepage" / "out" / "cepage"))
    parser.add_argument("--check", action="store_true")
    words = parser.parse_args()
    try:
        rows = [row(words.program, script) for script in scripts()]
    except (OSError, Unfit) as fault:
        print(f"page_examples: {fault}", file=sys.stderr)
        return 2
    if not words.check:
        FILE.write_text(HEAD + "".join(rows) + TAIL, encoding="utf-8", newline="\n")
        print(f"page_examples: {len(rows)} examples, {FILE.stat().st_size} bytes")
        return 0
    found = difference(rows)
    if found is None:
        return 0
    print(f"page_examples: docs/page/examples.js is stale: {found}. Make it by tools/page_examples.py", file=sys.stderr)
    return 1


if __name__ == "__main__":
    sys.exit(main())
