"""A script in, what it did out."""
import dataclasses
import functools
from typing import Callable, Dict, List, Optional, Tuple, Union

from .command import Command
from .failure import Failure, block
from .library import find_library, run_library
from .lines import Line
from .options import PLAIN_FUEL, Options
from .program import Path, find_program, run_program
from .reading import read_lines
from .script import is_unanswered, next_command, script_bytes, source_lines
from .selection import Selection
from .status import Status

Door = Callable[[bytes, Options], Tuple[Status, bytes]]
"""What runs a script: the program or the library."""


class Run(Selection):
    """What a script did: the status, the transcript, and its lines as values."""

    def __init__(self, script: bytes, options: Options, status: Optional[Status], transcript: bytes, door: Door) -> None:
        self.script = script
        self.options = options
        self.status = status
        """How it ended; None of a session that goes on."""
        self.bytes = transcript
        """The transcript, to the byte."""
        self._door = door

    @functools.cached_property
    def transcript(self) -> str:
        """The transcript as a text."""
        return self.bytes.decode("utf-8", "replace")

    @functools.cached_property
    def source(self) -> List[str]:
        """The lines of the script; line 1 is the first of them."""
        return source_lines(self.script)

    @functools.cached_property
    def lines(self) -> Tuple[Line, ...]:
        """The lines of the transcript as values."""
        return read_lines(self.transcript, functools.partial(next_command, self.source))

    @functools.cached_property
    def _commands(self) -> Dict[int, Command]:
        found: Dict[int, List[Line]] = {}
        for line in self.lines:
            if line.command is not None:
                found.setdefault(line.command, []).append(line)
        return {number: Command(lambda: self, number, self._said(number), tuple(lines)) for number, lines in found.items()}

    def _said(self, number: int) -> str:
        return self.source[number - 1] if 1 <= number <= len(self.source) else ""

    @property
    def commands(self) -> Tuple[Command, ...]:
        """The lines of the script that wrote something, in their order."""
        return tuple(self._commands.values())

    def command(self, number: int) -> Command:
        """The command in this line of the script."""
        if number not in self._commands:
            raise LookupError(self._unanswered(number))
        return self._commands[number]

    def _unanswered(self, number: int) -> str:
        if not 1 <= number <= len(self.source):
            return f"the script has no line {number}, but {len(self.source)} lines"
        line = self.source[number - 1]
        why = "a blank line, a comment or a part of a class" if is_unanswered(line) else "behind the end of the session"
        return f"line {number} of the script answers nothing, being {why}: {line}"

    def find(self, source: str) -> Tuple[Command, ...]:
        """The commands that are spelled so, in their order."""
        return tuple(command for command in self.commands if command.source.strip(" ") == source)

    def traced(self) -> "Run":
        """The run with its trace: this one, or one more of the same script."""
        if self.options.trace:
            return self
        options = dataclasses.replace(self.options, trace=True)
        return Run(self.script, options, *self._door(self.script, options), self._door)

    def expect_status(self, status: Status) -> None:
        """Fails unless it ended so, and tells each line that was refused, or in which one the fuel was spent."""
        if self.status is not status:
            came = "a session that goes on" if self.status is None else self.status.name
            raise Failure("\n".join([*block("expected:", [status.name]), *block("came:", [came]), *self._reasons()]))

    def _reasons(self) -> List[str]:
        refused = [it for it in self.commands if it.reply and it.reply.what == "bad"]
        told = [f"line {it.number}: {it.replied}: {it.source}" for it in refused]
        if self.status is Status.FUEL and self.commands:
            last = self.commands[-1]
            told.append(f"line {last.number}, in which the fuel of {self.options.fuel} was spent: {last.source}")
        return block("since:", told) if told else []


def door_of(program: Optional[Path], library: Union[Path, bool, None]) -> Door:
    """What runs scripts: a program that is named, else the library where there is one, else the program."""
    found = find_library(library) if program is None else None
    if found is not None:
        return functools.partial(run_library, found)
    return functools.partial(run_program, find_program(program))


def run(
    script: Union[str, bytes],
    *,
    fuel: int = PLAIN_FUEL,
    trace: bool = False,
    url: str = "",
    boundary: str = "",
    program: Optional[Path] = None,
    library: Union[Path, bool, None] = None,
) -> Run:
    """Runs a script, and gives what it did.

    fuel: from 1 to 200,000 units. trace: whether the transcript shows how reactions are enqueued and run. url: the URL of
    the page, http or https. boundary: that of multipart bodies, 1 to 70 ASCII letters and digits. An empty text is the
    default; what is refused gives the status USAGE and an empty transcript.

    program: the program, which is started then. library: the shared object, or False where none is to be used. Without
    either the library is called where there is one, and the program is started where there is none.
    """
    door = door_of(program, library)
    text, options = script_bytes(script), Options(fuel, trace, url, boundary)
    return Run(text, options, *door(text, options), door)
