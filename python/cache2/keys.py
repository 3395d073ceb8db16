"""Keys: which may be written, and what the file of one is called."""
from __future__ import annotations

import hashlib
import re
from typing import List, Optional, Tuple, Union

from .errors import BadKey
from .limits import MAX_KEY

Key = Union[str, bytes]

# A value up to its comma: commas are read in pairs.
VALUE = re.compile(rb"((?:[^,]|,,)*),(?!,)", re.DOTALL)
BARE = b"abp"


def parts_of(key: bytes) -> Optional[Tuple[List[Tuple[bytes, bytes]], bytes]]:
    """The tags of a key, each a letter and its value, and its address; or None where the key is malformed."""
    tags: List[Tuple[bytes, bytes]] = []
    last, at = ord(","), 0
    while key[at:at + 1] != b":":
        value = VALUE.match(key, at + 1)
        if at >= len(key) or key[at] <= last or not value or (key[at] in BARE and value[1]):
            return None
        last = key[at]
        tags.append((key[at:at + 1], value[1].replace(b",,", b",")))
        at = value.end()
    return tags, key[at + 1:]


def encoded(key: Key) -> bytes:
    """The bytes of a key under which an entry may be written."""
    try:
        data = key.encode("utf-8", "surrogateescape") if isinstance(key, str) else bytes(key)
    except UnicodeEncodeError as error:
        raise BadKey(f"a key with characters that UTF-8 does not have: {error}") from None
    if not 1 <= len(data) <= MAX_KEY:
        raise BadKey(f"a key has 1 to {MAX_KEY} bytes, and this has {len(data)}")
    if b"\0" in data or b"\n" in data:
        raise BadKey("a key has no zero byte and no newline")
    if data[:1] != b":" and parts_of(data) is None:
        raise BadKey(f"a key is tags, a colon and an address, and this is malformed: {data[:100]!r}")
    return data


def decoded(data: bytes) -> str:
    """A key as text, which `encoded` makes the same bytes of."""
    return data.decode("utf-8", "surrogateescape")


def digest_of(key: Key) -> bytes:
    """The name of a key as bytes."""
    return hashlib.sha1(encoded(key)).digest()


def name_of(key: Key) -> str:
    """What the entry file of a key is called."""
    return digest_of(key).hex().upper()
