"""The writer of an entry whose body comes in pieces."""
from __future__ import annotations

import itertools
from typing import TYPE_CHECKING, Dict, List, Optional

from . import elements
from .conversation import Conversation, Pending
from .errors import Cache2Error, Closed, ProgramEnded, TooLarge
from .limits import MAX_BODY, MAX_PIECE
from .pipes import Bytes
from .reply import Reply

if TYPE_CHECKING:
    from .cache import Cache

NUMBERS = itertools.count(1)
# Shorter pieces are gathered up to this length.
GATHERED = 1 << 16


class Writer:
    """Writes an entry. `close` stores it, and `abort` leaves nothing. A `with` aborts where its block raises.

    A body that grows too large is aborted, too: the program would otherwise store what it has of it.
    """

    def __init__(self, cache: "Cache", talk: Conversation, key: bytes, pairs: Dict[bytes, bytes],
                 is_pinned: bool) -> None:
        self.length = 0
        self._cache = cache
        self._talk = talk
        self._key = key
        self._pairs = dict(pairs)
        self._held = bytearray()
        self._slot = cache.take_slot(talk)
        self._number = next(NUMBERS)
        self._is_open = True
        try:
            self._created = talk.send(b"create %d %s" % (self._slot, key))
        except BaseException:
            self._is_open = False
            talk.give_slot(self._slot)
            raise
        self._asked: List[Pending] = [self._created]
        cache.writers.add(self)
        cache.newest[key] = self._number
        commands = [self._set_line(name, value) + b"\n" + value for name, value in pairs.items()]
        if is_pinned:
            commands.append(b"pin %d" % self._slot)
        try:
            self._asked += talk.send_all(commands)
        except BaseException:
            self.abort()
            raise

    def _send(self, line: bytes, data: Optional[Bytes] = None) -> None:
        self._asked.append(self._talk.send(line, data=data))

    def _set_line(self, name: bytes, value: bytes) -> bytes:
        return b"set %d %d %s" % (self._slot, len(value), name)

    def _check(self) -> None:
        """Refuses what comes after the end, and aborts where a command before was refused."""
        if not self._is_open:
            raise Closed("the writer is closed")
        self._talk.check()
        while self._asked and self._asked[0].is_done:
            error = self._asked.pop(0).error
            if error:
                self.abort()
                raise error

    def wait(self) -> None:
        """Waits until all that was written was taken."""
        with self._talk.lock:
            if self._asked:
                self._talk.wait(self._asked[-1])
            self._check()

    def set(self, name: str, value: elements.Value) -> None:
        """Sets an element."""
        name_bytes, value_bytes = elements.encoded_one(name, value)
        with self._talk.lock:
            self._check()
            pairs = {**self._pairs, name_bytes: value_bytes}
            elements.check_size(pairs)
            self._pairs = pairs
            self._send(self._set_line(name_bytes, value_bytes), value_bytes)

    def pin(self) -> None:
        """Lets `evict` and `clear` leave the entry alone."""
        with self._talk.lock:
            self._check()
            self._send(b"pin %d" % self._slot)

    def unpin(self) -> None:
        with self._talk.lock:
            self._check()
            self._send(b"unpin %d" % self._slot)

    def write(self, data: Bytes) -> int:
        """Adds to the body."""
        view = memoryview(data).cast("B")
        with self._talk.lock:
            self._check()
            if self.length + len(view) > MAX_BODY:
                self.abort()
                raise TooLarge(f"a body has at most {MAX_BODY} bytes")
            try:
                self._add(view)
            except BaseException:
                self.abort()
                raise
            self.length += len(view)
        return len(view)

    def _add(self, view: memoryview) -> None:
        if len(self._held) + len(view) < GATHERED:
            self._held += view
            return
        self._send_held()
        for at in range(0, len(view), MAX_PIECE):
            self._append(view[at:at + MAX_PIECE])

    def _send_held(self) -> None:
        if self._held:
            held, self._held = self._held, bytearray()
            self._append(held)

    def _append(self, data: Bytes) -> None:
        self._send(b"append %d %d" % (self._slot, len(data)), data)

    def send_close(self) -> Reply:
        """Stores the entry, and waits for no reply."""
        with self._talk.lock:
            self._check()
            try:
                self._send_held()
                self._asked.append(self._talk.send_close(self._slot))
            except BaseException:
                self.abort()
                raise
            self._end()
            self._asked += self._cache.flush_if_due(self._talk)
            self._talk.push()
            return Reply(self._talk, self._asked)

    def close(self) -> None:
        """Stores the entry. Its body is on the disk then, and is found after the next `flush` whatever happens."""
        with self._talk.lock:
            if not self._is_open:
                return
            try:
                # Whatever was refused, a close would store the rest.
                self._send_held()
                self.wait()
                reply = self.send_close()
            except BaseException:
                self.abort()
                raise
            reply.result()

    def abort(self) -> None:
        """Leaves no entry."""
        with self._talk.lock:
            if not self._is_open:
                return
            is_newest = self._cache.is_newest(self._key, self._number)
            self._end()
            if self._talk.error:
                return
            try:
                self._abort(is_newest)
            except ProgramEnded:
                # The program is gone, and with it the entry.
                pass

    def _abort(self, is_newest: bool) -> None:
        self._talk.wait(self._created)
        if self._created.error:
            # No entry was made, and what stood under the key stands there still.
            if not self._talk.error:
                self._talk.give_slot(self._slot)
            return
        # Where another writer has the key by now, this entry is doomed already.
        if is_newest:
            self._cache.send_doom(self._talk, self._key)
        self._talk.wait(self._talk.send_close(self._slot))

    def _end(self) -> None:
        self._is_open = False
        self._cache.writers.discard(self)
        if self._cache.is_newest(self._key, self._number):
            del self._cache.newest[self._key]

    def __del__(self) -> None:
        # This may come amid another command, so the entry is aborted by the next one.
        if getattr(self, "_is_open", False):
            self._talk.lost.append((self._slot, self._key, self._number))

    def __enter__(self) -> "Writer":
        return self

    def __exit__(self, kind: Optional[type], *_: object) -> None:
        if kind is None:
            self.close()
            return
        try:
            self.abort()
        except Cache2Error:
            # What the block raised says more.
            pass
