"""A script run by a call of the library, where that was built."""
import ctypes
import functools
import os
from typing import Any, Optional, Tuple, Union

from .errors import Named, ProgramDied, is_of_cepage, unfit
from .options import MOST_FUEL_SAID, Options
from .program import Path
from .status import Status

FIRST_ROOM = 65_536
MORE_ROOM = 5


def find_library(library: Union[Path, bool, None]) -> Optional[Named]:
    """The shared object: the one that is given, else that of the environment variable CEPAGE_LIBRARY, else the one beside
    this file. None where there is none, where the variable is empty, and where it is not wanted, by False.
    """
    if library is False:
        return None
    if library is not None and library is not True:
        return Named(absolute(os.fspath(library)), "library=")
    if "CEPAGE_LIBRARY" in os.environ:
        path = os.environ["CEPAGE_LIBRARY"]
        return Named(absolute(path), "CEPAGE_LIBRARY") if path else None
    beside = os.path.join(os.path.dirname(os.path.abspath(__file__)), "libcepage.so")
    return Named(beside, "the package's folder") if os.path.exists(beside) else None


def absolute(path: str) -> str:
    """The path from the root; a name alone, which the loader seeks, stays so."""
    return os.path.abspath(path) if os.sep in path else path


@functools.lru_cache(maxsize=None)
def call_of(library: Named) -> Any:
    """The one call of a shared object, as cepage.h has it. While it runs other threads run too."""
    try:
        call = ctypes.CDLL(library.path).cepage_run
    except (OSError, AttributeError) as error:
        raise unfit("library", library, error) from error
    text = (ctypes.c_char_p, ctypes.c_size_t)
    call.restype = ctypes.c_uint8
    call.argtypes = [*text, ctypes.c_uint32, ctypes.c_bool, *text, *text, *text, ctypes.POINTER(ctypes.c_size_t)]
    return call


def run_library(library: Named, script: bytes, options: Options) -> Tuple[Status, bytes]:
    """The status and the transcript of a script. It is run again with more room where its transcript is longer."""
    call = call_of(library)
    fuel = options.fuel if 0 <= options.fuel <= MOST_FUEL_SAID else 0
    url, boundary = (it.encode("utf-8", "surrogateescape") for it in (options.url, options.boundary))
    written = ctypes.c_size_t()
    room = FIRST_ROOM
    while True:
        out = ctypes.create_string_buffer(room)
        status = call(script, len(script), fuel, bool(options.trace), url, len(url), boundary, len(boundary), out, room, written)
        if status == MORE_ROOM:
            room *= 8
        elif is_of_cepage(status):
            return Status(status), out[: written.value]
        else:
            raise ProgramDied(library.path, status)
