#!/usr/bin/env python3
"""tools/fuel_tables.py [--program PATH] [--check]: the two tables of docs/checking.md that say what fuel buys.

Each row has a script here. For what a session has room for, a script does so many of a thing. It is run by the program,
by default crates/cepage/out/cepage, with as little fuel as takes it to its end: what more of them want is the units
each. How many there are is what 20,000 units buy behind the lines that begin the script; that many are run to their end
with that fuel, and one more is not. For how deep callbacks and constructors stand, the script calls itself to the end
of 20,000 units, and the lines `call` or `construct` are counted; the units for each step come of half as much fuel.

The file's rows get these numbers. With --check nothing is written: each row that says another number is named, and the
status is 1. Where the program can't be run, or a row has no script or a script no row, the status is 2.
"""
import argparse
import pathlib
import re
import subprocess
import sys

TOP = pathlib.Path(__file__).resolve().parent.parent
PAGE = TOP / "docs" / "checking.md"
FUEL = 20_000
MOST = 200_000

LEAF = ["class Leaf", "on Leaf connected : log in"]
DEFINED = ["define x-leaf Leaf"]
ROOT = ["create $html html", "append doc $html"]
TOGETHER = ["create $all div"]
PUT = ["append $html $all"]


def times(count, *lines):
    return list(lines) * count


# A row by its first cell; the lines that begin the script; and for each number of units, a script that does so many of
# the thing, the last of them all of it.
ROOM = {
    "questions, or commands that tell nobody":
        (["create $a div"], [lambda n: times(n, "ask parent $a")]),
    "`create` of an element":
        ([], [lambda n: times(n, "create $a div")]),
    "`create` of an element whose constructor is `super` and one `log`":
        (["class Made", "on Made constructor : super", "on Made constructor : log made", "define x-made Made"],
         [lambda n: times(n, "create $a x-made")]),
    "`setattr` of an observed attribute, with a callback that logs once":
        (["class Told", "observe Told k", "on Told attribute : log told", "define x-told Told", "create $a x-told"],
         [lambda n: times(n, "setattr $a k v")]),
    "a custom element made, and put into the page, with a `connected` callback that logs once":
        (LEAF + DEFINED + ROOT,
         [lambda n: times(n, "create $a x-leaf"), lambda n: times(n, "create $a x-leaf", "append $html $a")]),
    "the same, where all are put together first and come into the page with one `append`":
        (LEAF + DEFINED + ROOT + TOGETHER,
         [lambda n: times(n, "create $a x-leaf", "append $all $a") + PUT]),
    "the same element, made and put into the page before the definition, which then upgrades all of them":
        (LEAF + ROOT,
         [lambda n: times(n, "create $a x-leaf", "append $html $a"),
          lambda n: times(n, "create $a x-leaf", "append $html $a") + DEFINED]),
}

ECHO = ["class Echo", "observe Echo k"]
CALLED = ["define x-echo Echo", "create $e x-echo", "setattr $e k 1"]
INTO = ["class Into"]
SHOWN = ["define x-into Into", *ROOT, "create $a x-into", "append $html $a"]
NEW = ["class Made"]
MADE = ["define x-made Made", "new $a Made"]

# A row by its first cell; its script; and how the lines begin that are counted.
DEPTH = {
    "an attribute's callback that is `setattr this k x` alone, for the attribute k":
        (ECHO + ["on Echo attribute : setattr this k x"] + CALLED, "call "),
    "the same under `try`":
        (ECHO + ["on Echo attribute : try setattr this k x"] + CALLED, "call "),
    "the same under an `if`, with a `bump` before it":
        (ECHO + ["on Echo attribute : bump", "on Echo attribute : if ne @count 0 : setattr this k x"] + CALLED, "call "),
    "a `connected` callback that makes an element of its own class and appends it to itself":
        (INTO + ["on Into connected : create $b x-into", "on Into connected : append this $b"] + SHOWN, "call "),
    "a `connected` callback that appends its own element to where it is, in a class without `disconnected`":
        (INTO + ["on Into connected : append $html this"] + SHOWN, "call "),
    "the same, where `disconnected` is there and empty":
        (INTO + ["on Into connected : append $html this", "has Into disconnected"] + SHOWN, "call #3 connected"),
    "a constructor that begins with `new` of its own class, or with a `create`":
        (NEW + ["on Made constructor : new $b Made"] + MADE, "construct "),
    "a constructor that makes the base call, and then an element of its own class":
        (NEW + ["on Made constructor : super", "on Made constructor : new $b Made"] + MADE, "construct "),
}


class Unfit(Exception):
    """What keeps a row from being made."""


class Program:
    """The program cepage."""

    def __init__(self, path):
        self.path = path

    def run(self, lines, fuel):
        """The status of a script with this fuel, and the lines that are written."""
        script = "".join(line + "\n" for line in lines)
        ended = subprocess.run([self.path, "--fuel", str(fuel)], input=script.encode(), stdout=subprocess.PIPE, check=False)
        if ended.returncode not in (0, 3):
            raise Unfit(f"the program ended with status {ended.returncode}, of {lines[:8]}")
        return ended.returncode, ended.stdout.decode().split("\n")[:-1]

    def ends(self, lines, fuel):
        return self.run(lines, fuel)[0] == 0

    def cost(self, lines):
        """The least fuel with which a script is run to its end; of a script without lines none."""
        if not lines:
            return 0
        low, high = 1, MOST
        if not self.ends(lines, high):
            raise Unfit(f"the fuel ends, of {lines[:8]}")
        while low < high:
            middle = (low + high) // 2
            low, high = (low, middle) if self.ends(lines, middle) else (middle + 1, high)
        return low


def room(program, begin, scripts):
    """The units each of what a script does, and how many there are in a session."""
    units, whole = [], scripts[-1]
    for script in scripts:
        ten = program.cost(begin + script(11)) - program.cost(begin + script(1))
        units.append(ten // 10 - sum(units))
    many = FUEL // sum(units)
    fuel = FUEL + program.cost(begin + whole(0))
    if not program.ends(begin + whole(many), fuel) or program.ends(begin + whole(many + 1), fuel):
        raise Unfit(f"{many} is not how many there are, of {begin + whole(1)}")
    return " and ".join(str(unit) for unit in units), f"{many:,}"


def depth(program, script, counted):
    """The units for each step, and how deep they go."""
    deep = []
    for fuel in (FUEL // 2, FUEL):
        status, lines = program.run(script, fuel)
        if status != 3:
            raise Unfit(f"the fuel does not end, of {script}")
        deep.append(sum(line.startswith(counted) for line in lines))
    return str(round((FUEL - FUEL // 2) / (deep[1] - deep[0]))), f"{deep[1]:,}"


def measured(program):
    """The rows by their first cells, with the numbers behind that."""
    rows = {name: room(program, *row) for name, row in ROOM.items()}
    rows.update({name: depth(program, *row) for name, row in DEPTH.items()})
    return rows


def main():
    parser = argparse.ArgumentParser(description=__doc__.split("\n", 1)[0])
    parser.add_argument("--program", default=str(TOP / "crates" / "cepage" / "out" / "cepage"))
    parser.add_argument("--check", action="store_true")
    words = parser.parse_args()
    try:
        rows = measured(Program(words.program))
    except (OSError, Unfit) as fault:
        print(f"fuel_tables: {fault}", file=sys.stderr)
        return 2
    text = PAGE.read_text(encoding="utf-8")
    stale = []
    for name, numbers in rows.items():
        wanted = "| " + " | ".join((name, *numbers)) + " |"
        there = re.search(rf"^\| {re.escape(name)} \| [^|\n]* \| [^|\n]* \|$", text, re.M)
        if there is None:
            print(f"fuel_tables: docs/checking.md has no row: {name}", file=sys.stderr)
            return 2
        if there[0] != wanted:
            stale.append(wanted)
            text = text.replace(there[0], wanted)
    if words.check:
        for row in stale:
            print(f"fuel_tables: docs/checking.md should have: {row}", file=sys.stderr)
        return 1 if stale else 0
    PAGE.write_text(text, encoding="utf-8", newline="\n")
    print(f"fuel_tables: {len(rows)} rows, {len(stale)} of them new")
    return 0


if __name__ == "__main__":
    sys.exit(main())
