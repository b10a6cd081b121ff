"""What may be said of a run, by name."""
import operator
from dataclasses import dataclass
from typing import List

PLAIN_FUEL = 20_000
# A word of a command line can't be of any length, and a number of Python can't be written at any. What is longer than this, or
# larger, is refused by the program in any case.
LONGEST_WORD = 5_000
MOST_FUEL_SAID = 2**32 - 1


@dataclass(frozen=True)
class Options:
    """The program's options, but for the one for made scripts. An empty text is the default."""

    fuel: int = PLAIN_FUEL
    trace: bool = False
    url: str = ""
    boundary: str = ""

    def __post_init__(self) -> None:
        operator.index(self.fuel)
        for name in ("url", "boundary"):
            text = getattr(self, name)
            if not isinstance(text, str):
                raise TypeError(f"{name} is a str, and not a {type(text).__name__}")
            if "\0" in text:
                raise ValueError(f"{name} has a U+0000, which no word of a command line can have")

    def words(self) -> List[bytes]:
        """The words that say the same to the program."""
        words = ["--fuel", str(max(-1, min(int(self.fuel), MOST_FUEL_SAID)))] + ["--trace"] * bool(self.trace)
        for word, text in (("--url", self.url), ("--boundary", self.boundary)):
            if text:
                words += [word, text[:LONGEST_WORD]]
        return [word.encode("utf-8", "surrogateescape") for word in words]
