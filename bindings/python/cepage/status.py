"""How a run ended."""
from enum import IntEnum


class Status(IntEnum):
    """The exit status of the program, which the library gives too."""

    DONE = 0
    """The script was run to its end, and no line was refused."""
    BAD_LINES = 1
    """The same, and some line was refused."""
    USAGE = 2
    """An option is refused: nothing was run."""
    FUEL = 3
    """The fuel was spent: the transcript ends with the line `fuel`."""
    READ_FAULT = 4
    """A read failed; of the program alone."""
    WRITE_FAULT = 5
    """A write failed: the transcript is a front of the whole one."""
    NO_MEMORY = 6
    """Memory was refused: the transcript is a front of the whole one."""
    TOO_LONG = 7
    """The script has more than 16,777,216 bytes: the whole lines within that limit were run."""

    def __str__(self) -> str:
        return self.name
