"""An entry as `get` gives it."""
from __future__ import annotations

import dataclasses
import io
import re
from typing import BinaryIO, Dict, Mapping, Optional, Tuple, cast

from . import elements, keys
from .conversation import Conversation, Parse, parse_numbers
from .limits import CHUNK, LAST_MOMENT, NO_EXPIRATION
from .pipes import Replies

PINNED = 1
# The alternative data that stand after a body: where they begin, and their kind.
ALTERNATIVE = re.compile(rb"1;(0|[1-9][0-9]{0,9}),([^\0]+)", re.DOTALL)


@dataclasses.dataclass
class Entry:
    """What an entry says of itself, and its body. Moments are in seconds since 1970."""
    key: str
    count: int
    fetched: int
    modified: int
    frecency: int
    flags: int
    elements: Mapping[str, bytes]
    length: int
    body: BinaryIO
    expires: Optional[int] = None

    @property
    def is_pinned(self) -> bool:
        return bool(self.flags & PINNED)

    def read(self) -> bytes:
        """The rest of the body, which is held whole then."""
        return self.body.read()

    def close(self) -> None:
        """Says that the body is not read any more."""
        self.body.close()

    def __enter__(self) -> "Entry":
        return self

    def __exit__(self, *_: object) -> None:
        self.close()


def alternative_place(found: Mapping[str, bytes], length: int) -> Optional[Tuple[int, bytes]]:
    """Where the alternative data begin in a stored body of this length, and their kind. None where there are none."""
    data = found.get("alt-data")
    told = ALTERNATIVE.fullmatch(data) if data else None
    if not told or int(told[1]) > min(length, LAST_MOMENT):
        return None
    return int(told[1]), told[2]


def entry_parse(talk: Conversation, key: bytes, only_main: bool, only_short: bool = False) -> Parse:
    """Reads the reply to a `get`. With `only_main` the body has no alternative data. With `only_short` one of over
    256 KiB is passed over, and there is no entry then.
    """
    def parse(replies: Replies) -> Optional[Entry]:
        count, fetched, modified, frecency, expires, flags, element_bytes, length = parse_numbers(replies, b"found", 8)
        found: Dict[str, bytes] = elements.decoded(replies.block(element_bytes))
        place = alternative_place(found, length) if only_main else None
        wanted = place[0] if place else length
        if length <= CHUNK:
            body: BinaryIO = io.BytesIO(replies.block(length)[:wanted])
        elif only_short:
            talk.begin_body(0, length)
            return None
        else:
            body = cast(BinaryIO, io.BufferedReader(talk.begin_body(wanted, length - wanted), CHUNK))
        return Entry(keys.decoded(key), count, fetched, modified, frecency, flags, found, wanted, body,
                     None if expires == NO_EXPIRATION else expires)
    return parse
