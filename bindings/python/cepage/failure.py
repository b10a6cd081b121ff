"""Failures that read well."""
from typing import List, Sequence

MOST_LINES = 200


class Failure(AssertionError):
    """A script did something else than was expected."""


def block(title: str, lines: Sequence[str], first: int = 0) -> List[str]:
    """The title, and the lines below it, set in; of very many the first ones, or those from a place on."""
    shown = [f"    {line}" for line in lines[first : first + MOST_LINES]] or ["    nothing"]
    more = len(lines) - first - MOST_LINES
    return [title, *[f"    behind {first} lines"] * (first > 0), *shown] + [f"    and {more} lines more"] * (more > 0)


def place(expected: Sequence[str], came: Sequence[str]) -> int:
    """Where the first one stands that differs."""
    return next((k for k, (one, other) in enumerate(zip(expected, came)) if one != other), min(len(expected), len(came)))


def told_from(at: int, *lists: Sequence[str]) -> int:
    """From where on lines are told, so that those about a place are: from the first on, unless there are very many."""
    return max(0, at - MOST_LINES // 2) if max(map(len, lists)) > MOST_LINES else 0


def differing(expected: Sequence[str], came: Sequence[str]) -> List[str]:
    """What was expected and what came, with a sign before the first line that differs; of very many lines those about it."""
    at = place(expected, came)
    marked = [[("> " if k == at else "  ") + line for k, line in enumerate(lines)] for lines in (expected, came)]
    first = told_from(at, expected, came)
    return block("expected:", marked[0], first) + block("came:", marked[1], first)


def indented(trace: Sequence[str]) -> List[str]:
    """A trace as an outline: what stands deeper ran within what stands around it."""
    lines, depth = [], 0
    for line in trace:
        word = line.split(" ")[1] if line.startswith("~ ") else ""
        depth -= word in ("finish", "done", "threw", "close")
        lines.append("  " * max(depth, 0) + line)
        depth += word in ("open", "start", "up") or line == "~ drain 0"
    return lines
