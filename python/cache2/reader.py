"""A reader of an entry, beside which others read, too."""
from __future__ import annotations

import io
import os
from typing import Any, Optional

from . import elements
from .conversation import LONG, Conversation, parse_numbers, refused
from .errors import Closed, ProgramEnded
from .limits import CHUNK
from .pipes import Replies
from .raw import RawFile

LAST = (1 << 32) - 1


class Reader(RawFile):
    """Reads an entry at any place. It reads on where the entry is doomed or made anew meanwhile.

    The program tells no length of it, so the end is where a read gives less than was asked for.
    """

    def __init__(self, talk: Conversation, slot: int) -> None:
        self._talk = talk
        self._slot = slot
        self._at = 0

    def _ask(self, line: bytes, **more: Any) -> Any:
        with self._talk.lock:
            if self.closed:
                raise Closed("the reader is closed")
            return self._talk.answer(self._talk.send(line, **more))

    def seekable(self) -> bool:
        return True

    def readinto(self, buffer: Any) -> int:
        view = memoryview(buffer).cast("B")[:CHUNK]

        def parse(replies: Replies) -> int:
            (count,) = parse_numbers(replies, b"data", 1)
            got = 0
            while got < count:
                got += replies.take_into(view[got:count])
            replies.end_line()
            return count
        if not view or self._at > LAST:
            return 0
        count = int(self._ask(b"read %d %d %d" % (self._slot, self._at, len(view)), parse=parse, owed=LONG))
        self._at += count
        return count

    def seek(self, offset: int, whence: int = os.SEEK_SET) -> int:
        at = offset + (self._at if whence == os.SEEK_CUR else 0)
        if whence not in (os.SEEK_SET, os.SEEK_CUR):
            raise io.UnsupportedOperation("the length of an entry that is open is not known")
        if at < 0:
            raise ValueError(f"a place before the beginning: {at}")
        self._at = at
        return at

    def tell(self) -> int:
        return self._at

    def element(self, name: str) -> Optional[bytes]:
        """The value of an element, or None."""
        name_bytes, _ = elements.encoded_one(name, b"")

        def parse(replies: Replies) -> Optional[bytes]:
            line = replies.line()
            if line == b"none":
                return None
            words = line.split(b" ")
            if words[0] != b"value" or len(words) != 2 or not words[1].isdigit():
                raise refused(line, replies)
            value = replies.take(int(words[1]))
            replies.end_line()
            return value
        found: Optional[bytes] = self._ask(b"element %d %s" % (self._slot, name_bytes), parse=parse, owed=LONG)
        return found

    def set(self, name: str, value: elements.Value) -> None:
        """Sets an element of the entry, which is written anew with it."""
        name_bytes, value_bytes = elements.encoded_one(name, value)
        elements.check_size({name_bytes: value_bytes})
        self._ask(b"set %d %d %s" % (self._slot, len(value_bytes), name_bytes), data=value_bytes)

    def use(self) -> None:
        """Counts a use of the entry."""
        self._ask(b"use %d" % self._slot)

    def close(self) -> None:
        if not self.closed:
            super().close()
            with self._talk.lock:
                if not self._talk.error and self._talk.is_own_process:
                    self._close_slot()

    def __del__(self) -> None:
        # This may come amid another command, so the slot is given up by the next one.
        if not self.closed:
            self._talk.lost.append((self._slot, None, 0))
            super().close()

    def _close_slot(self) -> None:
        try:
            self._talk.answer(self._talk.send_close(self._slot))
        except ProgramEnded:
            # The slot is gone with the program, and the next call on the cache tells of it.
            pass
