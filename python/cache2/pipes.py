"""The two pipes of a run: what is sent to the program, and what comes from it."""
from __future__ import annotations

import errno
import fcntl
import os
import select
import time
from typing import IO, Callable, List, NoReturn, Optional, Union

from .errors import BadReply

Bytes = Union[bytes, bytearray, memoryview]

READ = 1 << 18
# No line of a reply is longer.
LONGEST = 1 << 17
NEWLINE = ord("\n")
NO_NEWLINE = "no newline where one has to be"
# What is gathered before it is sent.
GATHERED = 1 << 16
# F_SETPIPE_SZ of Linux, which Python 3.9 has no name for, and the size that is asked for.
SET_PIPE_SIZE = 1031
PIPE_SIZE = 1 << 18


def widen(pipe: int) -> None:
    """Lets a pipe hold more at once, where the system allows it. Nothing depends on that."""
    try:
        fcntl.fcntl(pipe, SET_PIPE_SIZE, PIPE_SIZE)
    except OSError:
        pass


def wait_for(pipe: int, event: int, seconds: Optional[float], late: Callable[[], NoReturn]) -> None:
    """Waits until a pipe is ready, or for so many seconds."""
    poll = select.poll()
    poll.register(pipe, event)
    until = None if seconds is None else time.monotonic() + seconds
    while not poll.poll(None if until is None else max(0.0, until - time.monotonic()) * 1000):
        if until is not None and time.monotonic() >= until:
            late()


class Requests:
    """What is sent. Where the program reads no more the rest is dropped: its replies tell why."""

    def __init__(self, pipe: int, seconds: Optional[float], late: Callable[[], NoReturn]) -> None:
        self._pipe = pipe
        self._seconds = seconds
        self._late = late
        self._gathered: List[bytes] = []
        self._size = 0
        self._is_broken = False
        os.set_blocking(pipe, False)
        widen(pipe)

    def gather(self, part: Bytes) -> None:
        """Sends a part now or with a later one. A long part goes out at once and is not copied."""
        size = len(part)
        if size > GATHERED:
            self.push()
            self._write(part)
            return
        # A copy of what its owner may change afterwards.
        self._gathered.append(bytes(part))
        self._size += size
        if self._size > GATHERED:
            self.push()

    def push(self) -> None:
        """Sends what was gathered."""
        if self._gathered:
            gathered, self._gathered, self._size = b"".join(self._gathered), [], 0
            self._write(gathered)

    def _write(self, part: Bytes) -> None:
        left: Bytes = part
        while left and not self._is_broken:
            try:
                written = os.write(self._pipe, left)
                left = b"" if written == len(left) else memoryview(left)[written:]
            except BlockingIOError:
                wait_for(self._pipe, select.POLLOUT, self._seconds, self._late)
            except OSError as error:
                if error.errno != errno.EPIPE:
                    raise
                self._is_broken = True


class Replies:
    """What comes. The end of the bytes is an end of the program, which `ended` tells.

    They are read into one buffer, so that a reply takes no memory of its own but that of its lines and bytes.
    """

    def __init__(self, pipe: IO[bytes], seconds: Optional[float], late: Callable[[], NoReturn],
                 ended: Callable[[], NoReturn]) -> None:
        self._read_into: Callable[[memoryview], int] = pipe.readinto  # type: ignore[attr-defined]
        self._pipe = pipe.fileno()
        self._seconds = seconds
        self._late = late
        self._ended = ended
        self._buffer = bytearray(READ)
        self._view = memoryview(self._buffer)
        # What came and was not taken.
        self._at = self._end = 0
        widen(self._pipe)

    def _receive(self, view: memoryview) -> int:
        """Reads what comes next, at most as much as there is room for. Nothing comes only at the end."""
        if self._seconds is not None:
            wait_for(self._pipe, select.POLLIN, self._seconds, self._late)
        return self._read_into(view)

    def _fill(self) -> None:
        """Reads on, at least a byte."""
        if self._at == self._end:
            self._at = self._end = 0
            count = self._receive(self._view)
        else:
            if self._end == READ:
                held = self._end - self._at
                self._view[:held] = self._view[self._at:]
                self._at, self._end = 0, held
            count = self._receive(self._view[self._end:])
        if not count:
            self._ended()
        self._end += count

    def line(self) -> bytes:
        """A line, without its newline."""
        end = self._buffer.find(b"\n", self._at, self._end)
        while end < 0:
            held = self._end - self._at
            if held > LONGEST:
                raise BadReply(None, "a line without an end")
            self._fill()
            end = self._buffer.find(b"\n", self._at + held, self._end)
        line = bytes(self._view[self._at:end])
        self._at = end + 1
        return line

    def take(self, count: int) -> bytes:
        """So many bytes. Their number is small enough to be held."""
        if count > READ:
            return b"".join([self.take(min(READ, count - at)) for at in range(0, count, READ)])
        while self._end - self._at < count:
            self._fill()
        taken = bytes(self._view[self._at:self._at + count])
        self._at += count
        return taken

    def block(self, count: int) -> bytes:
        """So many bytes, and takes the newline after them."""
        end = self._at + count
        if end >= self._end:
            taken = self.take(count)
            self.end_line()
            return taken
        if self._buffer[end] != NEWLINE:
            raise BadReply(None, NO_NEWLINE)
        taken = bytes(self._view[self._at:end])
        self._at = end + 1
        return taken

    def end_line(self) -> None:
        """Takes the newline that stands after the bytes of a reply."""
        if self._at == self._end:
            self._fill()
        if self._buffer[self._at] != NEWLINE:
            raise BadReply(None, NO_NEWLINE)
        self._at += 1

    def take_into(self, view: memoryview) -> int:
        """At least a byte and at most as many as there is room for, and how many."""
        count = min(self._end - self._at, len(view))
        if count:
            view[:count] = self._view[self._at:self._at + count]
            self._at += count
            return count
        count = self._receive(view)
        if not count:
            self._ended()
        return count

    def skip(self, count: int) -> None:
        """Drops so many bytes."""
        while count:
            if self._at == self._end:
                self._fill()
            dropped = min(count, self._end - self._at)
            self._at += dropped
            count -= dropped

    def rest(self) -> bytes:
        """What comes up to the end, of which only the beginning is of interest."""
        found = bytes(self._view[self._at:self._end])
        while count := self._receive(self._view):
            found = (found + self._view[:count])[:1000]
        return found
