#!/usr/bin/env python3
"""compare.py LIST CASES LINES [LIBRARY]: runs each case of the list, by the library where one is named, and else by the program
that CEPAGE names. A row of the list has its name, its status, its script and its words, with tabs between them; the bytes have to
be those of CASES/NAME. Writes to LINES what the reader makes of each transcript, for the other languages to be held against.
"""
import pathlib
import sys

from cepage import run


def options_of(words):
    """The options that words say."""
    said = {}
    words = iter(words)
    for word in words:
        said[word[2:]] = True if word == "--trace" else next(words)
    return {**said, **({"fuel": int(said["fuel"])} if "fuel" in said else {})}


def told(line):
    """The number of its command, its kind, and what a form sent."""
    entries = getattr(line, "entries", None)
    sent = "" if entries is None else " sent" + "".join(f" {name.encode().hex()}={value.encode().hex()}" for name, value in entries)
    return f"{line.command or 0} {line.kind}{sent}\n"


def wrong(row, cases, library, lines):
    """What is wrong with a case, or None."""
    name, status, script, *words = row.split("\t")
    came = run(pathlib.Path(script).read_bytes(), library=library or False, **options_of(words))
    lines.write(f"{name}\n" + "".join(told(line) for line in came.lines))
    if came.status != int(status):
        return f"{name}: the status is {came.status}"
    if came.bytes != pathlib.Path(cases, name).read_bytes():
        return f"{name}: the transcript differs"
    others = [line.text for line in came.lines if line.kind == "other"]
    return f"{name}: a line is not known: {others[0]}" if others else None


def main(rows, cases, lines, library=None):
    rows = pathlib.Path(rows).read_text(encoding="utf-8").split("\n")[:-1]
    with open(lines, "w", encoding="utf-8") as out:
        failed = [why for row in rows for why in [wrong(row, cases, library, out)] if why]
    print("\n".join([*failed, f"python, {'library' if library else 'program'}: {len(rows)} runs, {len(failed)} differ"]))
    return bool(failed) or not rows


sys.exit(main(*sys.argv[1:]))
