"""The body of an entry, as a file that is read part by part.

A short body is read with its entry. A long one stays in the pipe until it is read from there, which is as fast as the
program prints it. A command that comes meanwhile needs the pipe: what is left of the body then goes to a temporary
file, where somebody still has it, and is dropped otherwise. So a body is never in memory whole, and nobody waits for a
reader that does not read.
"""
from __future__ import annotations

import weakref
from typing import IO, TYPE_CHECKING, Any, Optional

from .raw import RawFile

if TYPE_CHECKING:
    from .conversation import Conversation


class Stream:
    """What is left of a body: so many bytes that are wanted, and so many after them that are not."""

    def __init__(self, wanted: int, after: int) -> None:
        self.wanted = wanted
        self.after = after
        self.kept: Optional[IO[bytes]] = None
        self.error: Optional[BaseException] = None
        self.body: Optional["weakref.ref[Body]"] = None

    def is_wanted(self) -> bool:
        """Whether somebody may still read it."""
        body = self.body() if self.body else None
        return body is not None and not body.closed


class Body(RawFile):
    """A long body. Where it does not come whole a read raises what happened, and never gives an early end."""

    def __init__(self, talk: "Conversation", stream: Stream) -> None:
        self._talk = talk
        self._stream = stream

    def readinto(self, buffer: Any) -> int:
        if self.closed:
            raise ValueError("the body is closed")
        with self._talk.lock:
            return self._talk.read_body(self._stream, memoryview(buffer).cast("B"))

    def close(self) -> None:
        if self._stream.kept:
            self._stream.kept.close()
        super().close()
