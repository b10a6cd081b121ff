"""A script run by starting the program."""
import os
import shutil
import signal
import subprocess
from typing import Optional, Tuple, Union

from .errors import STATUS_TAKEN, CepageError, Named, ProgramDied, ProgramMissing, is_of_cepage, one_line, unfit
from .options import Options
from .status import Status

Path = Union[str, "os.PathLike[str]"]


def find_program(program: Optional[Path]) -> Named:
    """The program: the one that is given, else that of the environment variable CEPAGE, else `cepage` on the path. It stays
    the same where another folder is gone to.
    """
    if program is not None:
        name, asked_by = os.fspath(program), "program="
    elif os.environ.get("CEPAGE"):
        name, asked_by = os.environ["CEPAGE"], "CEPAGE"
    else:
        name, asked_by = "cepage", "PATH"
    found = shutil.which(name)
    if found is None:
        raise ProgramMissing(name, asked_by)
    return Named(os.path.abspath(found), asked_by)


def want_statuses() -> None:
    """Refuses where SIGCHLD is ignored: the system keeps no status then, and `subprocess` takes it for 0."""
    if signal.getsignal(signal.SIGCHLD) is signal.SIG_IGN:
        raise CepageError("SIGCHLD is ignored, so no status of a program is kept: set it to signal.SIG_DFL")


class Started(subprocess.Popen[bytes]):
    """A program that was started. `subprocess` takes its status for 0 where somebody else has taken it; here that is told."""

    def wait(self, timeout: Optional[float] = None) -> int:
        if self.returncode is None:
            try:
                self.returncode = os.waitstatus_to_exitcode(os.waitpid(self.pid, 0)[1])
            except ChildProcessError:
                self.returncode = 0  # so that `subprocess` does not say that it still runs
                raise CepageError(STATUS_TAKEN) from None
        return self.returncode


def run_program(program: Named, script: bytes, options: Options) -> Tuple[Status, bytes]:
    """The status and the transcript of a script."""
    want_statuses()
    try:
        started = Started([program.path, *options.words()], stdin=subprocess.PIPE, stdout=subprocess.PIPE, stderr=subprocess.PIPE)
    except OSError as error:
        raise unfit("program", program, error) from error
    with started:
        try:
            wrote, told = started.communicate(script)
        except BaseException:
            started.kill()
            raise
    if not is_of_cepage(started.returncode):
        raise ProgramDied(program.path, started.returncode, one_line(told))
    return Status(started.returncode), wrote
