"""The two ends of a pipe, with an end to each wait."""
from __future__ import annotations

import os
import select
import time
from typing import IO, Optional

from .errors import OperationalError

CHUNK = 65536
# So much can be written without waiting once an end is ready (POSIX).
PIECE = getattr(select, "PIPE_BUF", 512)


class Deadline:
    """A moment after which nothing is waited for; never, where seconds is None."""

    def __init__(self, seconds: Optional[float]) -> None:
        self.seconds = seconds
        self._end = None if seconds is None else time.monotonic() + seconds

    def wait(self, end: IO[bytes], for_what: str) -> None:
        """Waits until the end can be read ('read') or written ('write'). OperationalError once the moment has come."""
        if self._end is None:
            return
        waiting = select.poll()
        waiting.register(end, select.POLLIN if for_what == "read" else select.POLLOUT)
        if not waiting.poll(max(0.0, self._end - time.monotonic()) * 1000):
            raise OperationalError(f"no answer came within {self.seconds:g} seconds, and the connection is broken")


class Pipe:
    """What is asked goes into the writer, and lines come out of the reader; both are closed with this."""

    def __init__(self, reader: IO[bytes], writer: IO[bytes]) -> None:
        self._reader, self._writer = reader, writer
        self._left = b""

    def write(self, text: bytes, deadline: Deadline) -> None:
        """Writes all of it."""
        view = memoryview(text)
        while view:
            deadline.wait(self._writer, "write")
            view = view[os.write(self._writer.fileno(), view[:PIECE]):]

    def line(self, deadline: Deadline) -> bytes:
        """The next line without its line feed. EOFError where the other side has ended before it was whole."""
        pieces = [self._left]
        while b"\n" not in pieces[-1]:
            deadline.wait(self._reader, "read")
            more = os.read(self._reader.fileno(), CHUNK)
            if not more:
                raise EOFError
            pieces.append(more)
        line, _, self._left = b"".join(pieces).partition(b"\n")
        return line

    def close(self) -> None:
        """Closes both ends, whatever comes of it."""
        for end in (self._writer, self._reader):
            try:
                end.close()
            except OSError:
                pass
