"""Calls whose replies are not waited for."""
from __future__ import annotations

from collections import deque
from typing import TYPE_CHECKING, Deque, Optional

from .elements import Elements
from .errors import Cache2Error
from .keys import Key
from .pipes import Bytes
from .reply import Reply

if TYPE_CHECKING:
    from .cache import Cache


class Pipeline:
    """Sends calls one after another. Each gives a `Reply`, whose `result` waits for it and those before it.

    The end of the `with` waits for all. It raises the first refusal that nobody has seen, after the others were read.
    """

    def __init__(self, cache: "Cache") -> None:
        self._cache = cache
        self._replies: Deque[Reply] = deque()

    def _keep(self, reply: Reply) -> Reply:
        """Keeps a reply until it is read. One that is done well, or was seen, is only its caller's."""
        self._replies.append(reply)
        while self._replies and self._replies[0].is_done and (self._replies[0].is_seen or not self._replies[0].error):
            self._replies.popleft()
        return reply

    def put(self, key: Key, body: Bytes, elements: Optional[Elements] = None, is_pinned: bool = False) -> Reply:
        return self._keep(self._cache.send_put(key, body, elements, is_pinned))

    def get(self, key: Key) -> Reply:
        return self._keep(self._cache.send_get(key))

    def doom(self, key: Key) -> Reply:
        """Its result is whether there was an entry."""
        return self._keep(self._cache.send_doom_of(key))

    def use(self, key: Key) -> Reply:
        return self._keep(self._cache.send_use(key))

    def wait(self, left: int = 0) -> None:
        """Waits until at most so many calls have no reply, and raises the first refusal that nobody has seen."""
        first: Optional[Cache2Error] = None
        while len(self._replies) > left:
            reply = self._replies.popleft()
            reply.wait()
            if not reply.is_seen:
                first = first or reply.error
        if first:
            raise first

    def __enter__(self) -> "Pipeline":
        return self

    def __exit__(self, kind: Optional[type], *_: object) -> None:
        try:
            self.wait()
        except Cache2Error:
            if kind is None:
                raise
