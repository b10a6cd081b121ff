"""The pipe to a program that is talked to."""
import collections
import contextlib
import os
import select
import socket
import subprocess
from typing import Deque, List, Optional

from .errors import CepageError
from .program import Started

PIECE = 65_536


class Pipe:
    """A program that was started. It is written to and read a line at a time, and is read, too, while it is written to: a
    program that waits until its answers are taken reads nothing.
    """

    def __init__(self, words: List[bytes]) -> None:
        # A pair of sockets can be shut, where a pipe ends with its last writer, which may be a process that was forked since.
        self._into, taken = socket.socketpair()
        with taken, contextlib.ExitStack() as failed:
            failed.callback(self._into.close)
            self._started = Started(words, bufsize=0, stdin=taken, stdout=subprocess.PIPE, stderr=subprocess.DEVNULL)
            failed.pop_all()
        assert self._started.stdout
        self._from = self._started.stdout
        self._into.setblocking(False)
        self.process = self._started.pid
        self._unread: Deque[bytes] = collections.deque()
        self._rest = bytearray()

    @property
    def rest(self) -> bytes:
        """What was written last, and not ended by a line feed."""
        return bytes(self._rest)

    def give(self, text: bytes) -> None:
        """Writes to the program. One that has ended takes nothing, which the next line tells."""
        left = memoryview(text)
        try:
            while left:
                left = left[self._give_some(left) :]
        except ConnectionError:
            pass

    def _give_some(self, text: memoryview) -> int:
        try:
            return self._into.send(text)
        except BlockingIOError:
            poll = select.poll()
            poll.register(self._into, select.POLLOUT)
            poll.register(self._from, select.POLLIN)
            if any(file == self._from.fileno() for file, _ in poll.poll()) and not self._read():
                raise BrokenPipeError from None
            return 0

    def line(self) -> Optional[bytes]:
        """The next line, without its line feed; None where the program has ended."""
        while not self._unread:
            if not self._read():
                return None
        return self._unread.popleft()

    def _read(self) -> bool:
        """Takes a piece of what the program wrote, or says that there is no more."""
        piece = os.read(self._from.fileno(), PIECE)
        first, *others = piece.split(b"\n")
        self._rest += first
        for line in others:
            self._unread.append(self.rest)
            self._rest = bytearray(line)
        return bool(piece)

    def stop_giving(self) -> None:
        """Ends what the program reads."""
        with contextlib.suppress(OSError):
            self._into.shutdown(socket.SHUT_WR)

    def ended(self) -> int:
        """The status of the program, which ends when it is read to its end."""
        self._into.close()
        self._from.close()
        return self._started.wait()

    def kill(self) -> None:
        """Ends the program wherever it is."""
        self._started.kill()
        with contextlib.suppress(CepageError):
            self.ended()
