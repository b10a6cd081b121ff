"""What a session was given and has written, which can be run again up to any of its lines."""
import functools
from typing import Callable, List, Optional

from .errors import Named
from .options import Options
from .program import run_program
from .running import Run
from .status import Status


class History:
    def __init__(self, program: Named, options: Options) -> None:
        self.script: List[bytes] = []
        self.wrote: List[bytes] = []
        self.rest = b""
        self._options = options
        self._door = functools.partial(run_program, program)

    def run(self, status: Optional[Status]) -> Run:
        """All of it as a run."""
        return self._run(len(self.script), len(self.wrote), status, self.rest)

    def until_now(self) -> Callable[[], Run]:
        """A call that gives what it is now as a run, however it goes on."""
        return functools.partial(self._run, len(self.script), len(self.wrote), None, b"")

    def _run(self, given: int, written: int, status: Optional[Status], rest: bytes) -> Run:
        script, wrote = (b"".join(it + b"\n" for it in lines) for lines in (self.script[:given], self.wrote[:written]))
        return Run(script, self._options, status, wrote + rest, self._door)
