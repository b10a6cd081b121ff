"""A session: a command in, what it answered out, over the program's own pipe."""
import os
from types import TracebackType
from typing import Optional, Tuple, Type

from .command import Command
from .errors import STATUS_TAKEN, CepageError, ProgramDied, SessionEnded, cut, how_it_ended, is_of_cepage, unfit
from .history import History
from .options import PLAIN_FUEL, Options
from .pipe import Pipe
from .program import Path, find_program, want_statuses
from .reading import read_lines
from .running import Run
from .script import is_unanswered
from .status import Status


class Session:
    """A page that is talked to, a line at a time. It is ended by `with`, by `close`, or with its value.

    The program answers each line before it reads the next one. A session is for one thread at a time.
    """

    _pipe: Optional[Pipe] = None

    def __init__(
        self,
        *,
        fuel: int = PLAIN_FUEL,
        trace: bool = False,
        url: str = "",
        boundary: str = "",
        program: Optional[Path] = None,
    ) -> None:
        """The options are those of `run`; the program is started in any case."""
        options = Options(fuel, trace, url, boundary)
        self._program = find_program(program)
        want_statuses()
        self._history = History(self._program, options)
        self._over = ""
        self._status: Optional[int] = None
        self._owner = os.getpid()
        try:
            self._pipe = Pipe([os.fsencode(self._program.path), *options.words()])
        except OSError as error:
            raise unfit("program", self._program, error) from error
        self._process = self._pipe.process

    @property
    def line(self) -> int:
        """The number of the line that was given last."""
        return len(self._history.script)

    @property
    def process(self) -> int:
        """The number of the program's process."""
        return self._process

    def command(self, line: str) -> Command:
        """Gives a line, and gives what it wrote, the reply last.

        A blank line, a comment and a part of a class answer nothing where they are accepted, and are not waited for. Where
        a part is refused, its reply comes first of what the next command gives.
        """
        if "\n" in line:
            raise ValueError("a line has no line feed: give each line by itself, or all of them to feed()")
        text = line.encode("utf-8")
        if self._over or self._pipe is None:
            raise SessionEnded(self._over, self._named())
        before = len(self._history.wrote)
        try:
            self._history.script.append(text)
            self._pipe.give(text + b"\n")
            if not is_unanswered(line):
                self._wait(self._pipe, line)
        except BaseException as error:
            # A part of the line may have been given, and a part of the answer taken.
            self._over = self._over or f"{type(error).__name__} came within line {self.line}: {cut(line)}"
            raise
        wrote = b"".join(it + b"\n" for it in self._history.wrote[before:]).decode("utf-8", "replace")
        number = self.line
        lines = read_lines(wrote, lambda _: number, before + 1)
        return Command(self._history.until_now(), number, line, lines)

    def feed(self, script: str) -> Tuple[Command, ...]:
        """Gives each line of a script, and gives what each command among them wrote."""
        lines = script.split("\n")
        given = [self.command(line) for line in (lines if lines[-1] else lines[:-1])]
        return tuple(command for command in given if command.lines)

    def close(self) -> Run:
        """Ends the script, and gives the whole session as a run."""
        if self._pipe is not None:
            self._over = self._over or "it was closed"
            self._take_rest(self._pipe)
        status = self._named()
        if self._status is None:
            raise CepageError(STATUS_TAKEN)
        if status is None:
            raise ProgramDied(self._program.path, self._status)
        return self._history.run(status)

    def _wait(self, pipe: Pipe, line: str) -> None:
        """Takes the lines up to the reply of the line that was given last, or up to the end."""
        reply = b"%d: " % self.line
        while True:
            wrote = pipe.line()
            if wrote is None:
                self._take_rest(pipe)
                self._over = f"the program ended {how_it_ended(self._status or 0)}, at line {self.line}: {cut(line)}"
                raise SessionEnded(self._over, self._named())
            self._history.wrote.append(wrote)
            if wrote == b"fuel":
                self._over = f"the fuel was spent in line {self.line}: {cut(line)}"
                self._take_rest(pipe)
                return
            if wrote.startswith(reply):
                return

    def _take_rest(self, pipe: Pipe) -> None:
        """Ends what the program reads, and takes what it writes to its end, and its status."""
        pipe.stop_giving()
        self._history.wrote.extend(iter(pipe.line, None))
        self._history.rest = pipe.rest
        self._pipe = None
        self._status = pipe.ended()

    def _named(self) -> Optional[Status]:
        return Status(self._status) if self._status is not None and is_of_cepage(self._status) else None

    def __enter__(self) -> "Session":
        return self

    def __exit__(
        self, kind: Optional[Type[BaseException]], error: Optional[BaseException], trace: Optional[TracebackType]
    ) -> None:
        if self._is_of_another_process():
            return
        is_told = kind is not None or bool(self._over)
        try:
            self.close()
        except CepageError:
            if not is_told:
                raise

    def __del__(self) -> None:
        if self._pipe is not None and not self._is_of_another_process():
            self._pipe.kill()
            self._pipe = None

    def _is_of_another_process(self) -> bool:
        """Whether this process was forked since the session began, which goes on where it began."""
        return os.getpid() != self._owner
