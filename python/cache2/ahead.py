"""Entries that are asked for before they are needed, many at once, so that nobody waits for the program each time."""
from __future__ import annotations

from typing import Any, Callable, Dict, List, NamedTuple, Optional

from .cache import Cache
from .entry import Entry
from .errors import Cache2Error, ProgramEnded
from .reply import Reply

# How many requests are known that may come next, how many of them are asked for with the one that has come, and how
# many replies are held at the most, each with a body of up to 256 KiB.
EXPECTED = 64
AT_ONCE = 8
HELD = 16
# How many more replies may be of no use than are wanted. After that nothing is asked for ahead: the requests come in
# another order, or are made anew, as where Scrapy keeps them on the disk, or the bodies are long.
DROPPED = 32


class Asked(NamedTuple):
    """A request whose entry was asked for."""
    request: Any
    key: bytes
    reply: Reply


class Ahead:
    """Reads the entries of requests. Where one is read those of the requests that were scheduled last are asked for,
    too, since Scrapy takes these first. `key_of` gives the key of a request, or None where no entry has it.
    """

    def __init__(self, cache: Cache, key_of: Callable[[Any], Optional[bytes]]) -> None:
        self._cache = cache
        self._key_of = key_of
        # By the identity of the request.
        self._expected: Dict[int, Any] = {}
        self._asked: Dict[int, Asked] = {}
        self._dropped = 0

    def expect(self, request: Any) -> None:
        """The request may come next."""
        self._expected[id(request)] = request
        if len(self._expected) > EXPECTED:
            del self._expected[next(iter(self._expected))]

    def forget(self, request: Any) -> None:
        """The request does not come."""
        self._expected.pop(id(request), None)

    def drop(self, key: bytes) -> None:
        """What was asked for under the key does not stand there any more."""
        for number in [number for number, one in self._asked.items() if one.key == key]:
            del self._asked[number]

    def read(self, request: Any) -> Optional[Entry]:
        """The entry of a request that has come, or None where there is none."""
        self.forget(request)
        asked = self._asked.pop(id(request), None)
        if asked:
            entry = self._came(asked.reply)
            self._dropped = max(0, self._dropped + (1 if entry is None else -1))
            return entry or self._cache.get(asked.key, only_main=True)
        key = self._key_of(request)
        return None if key is None else self._ask(key)

    def _came(self, reply: Reply) -> Optional[Entry]:
        """The entry that came. None where its body is long, or the program ended, which the next call starts anew."""
        try:
            found: Optional[Entry] = reply.result()
        except ProgramEnded:
            return None
        return found

    def _other_key(self, request: Any) -> Optional[bytes]:
        try:
            return self._key_of(request)
        except Cache2Error:
            # That is said when the request comes.
            return None

    def _ask(self, key: bytes) -> Entry:
        """The entry of this key. Those that may be read next are asked for with it."""
        requests: List[Any] = []
        keys = [key]
        while self._expected and len(keys) <= AT_ONCE and self._dropped < DROPPED:
            request = self._expected.popitem()[1]
            other = self._other_key(request)
            if other is not None:
                requests.append(request)
                keys.append(other)
        if not requests:
            return self._cache.get(key, only_main=True)
        replies = self._cache.send_ahead(key, keys[1:])
        for asked in map(Asked, requests, keys[1:], replies[1:]):
            self._asked[id(asked.request)] = asked
        while len(self._asked) > HELD:
            del self._asked[next(iter(self._asked))]
            self._dropped += 1
        found: Entry = replies[0].result()
        return found
