#!/usr/bin/env python3
"""tools/bindings_rate.py SCRIPT CALLS [LIBRARY]: how often a second Python runs a script, by the library where one is named, by
starting the program that CEPAGE names, and how long a line of a session takes.
"""
import pathlib
import sys
import time

TOP = pathlib.Path(__file__).resolve().parent.parent
sys.path.insert(0, str(TOP / "bindings" / "python"))

from cepage import Session, Status, run  # noqa: E402


def rate(calls, call):
    """How many calls a second."""
    call()
    begun = time.perf_counter()
    for _ in range(calls):
        call()
    return calls / (time.perf_counter() - begun)


def session(script):
    with Session() as page:
        page.feed(script)


def main(script, calls, library=None):
    text = pathlib.Path(script).read_text(encoding="utf-8")
    starts = max(20, int(calls) // 20)
    assert run(text).status is Status.DONE
    told = []
    if library:
        told.append(f"{rate(int(calls), lambda: run(text, library=library)):.0f} calls a second")
        told.append(f"{rate(int(calls), lambda: run(text, library=library).lines):.0f} with the lines read")
    told.append(f"{rate(starts, lambda: run(text, library=False)):.0f} starts")
    told.append(f"{rate(starts, lambda: session(text)):.0f} sessions")
    with Session(fuel=200_000) as page:
        page.command("create $a p")
        told.append(f"{1e6 / rate(int(calls), lambda: page.command('setattr $a title x')):.1f} microseconds a line of one")
    print("rate from Python: " + ", ".join(told))


main(*sys.argv[1:])
