"""What goes wrong outside of a script."""
import os
import signal
from typing import Any, NamedTuple, Optional, Tuple, Type

from .status import Status


MOST_TOLD = 300
STATUS_TAKEN = "somebody else has taken the program's status, as a handler of SIGCHLD that waits for all processes"


class Named(NamedTuple):
    """A program or a library, and what names it."""

    path: str
    asked_by: str


class CepageError(Exception):
    """The program or its library could not be used."""

    def __reduce__(self) -> Tuple[Any, ...]:
        """It is told from process to process as it is, where `pickle` would make it anew from its message alone."""
        return empty, (type(self),), {**vars(self), "args": self.args}


def empty(kind: Type[CepageError]) -> CepageError:
    """An error of which nothing is said yet."""
    return kind.__new__(kind)


class ProgramMissing(CepageError, FileNotFoundError):
    """There is no program of that name."""

    def __init__(self, name: str, asked_by: str) -> None:
        super().__init__(f"there is no program {name!r}, which {asked_by} names; say program=, or set CEPAGE, to cepage")


class ProgramDied(CepageError):
    """The program ended as cepage does not: by a signal, or with another status."""

    def __init__(self, name: str, status: int, told: str = "") -> None:
        super().__init__(f"{name} ended {how_it_ended(status)}" + (f": {told}" if told else ""))


class SessionEnded(CepageError):
    """The session is over, so this line was not run."""

    def __init__(self, why: str, status: Optional[Status]) -> None:
        super().__init__(f"the session has ended: {why}")
        self.status = status


def unfit(what: str, named: Named, why: object) -> CepageError:
    """What is said of a program that can't be started, and of a library that can't be called."""
    return CepageError(f"the {what} {named.path!r} of {named.asked_by} could not be used: {why}")


def how_it_ended(status: int) -> str:
    """A status as os.wait tells it, in words."""
    if status < 0:
        name = next((it.name for it in signal.Signals if it == -status), str(-status))
        return f"by the signal {name}"
    return f"with status {status}" + (f", {Status(status).name}" if is_of_cepage(status) else "")


def is_of_cepage(status: int) -> bool:
    return status in list(Status)


def cut(line: str) -> str:
    """A line of a script, as an error tells it: of a long one the beginning."""
    more = len(line) - MOST_TOLD
    return line if more <= 0 else f"{line[:MOST_TOLD]} … and {more} characters more"


def one_line(told: bytes) -> str:
    """The first line of what was written to standard error."""
    return next(iter(os.fsdecode(told).split("\n")), "").strip()
