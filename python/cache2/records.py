"""What `list` and `verify` say, and the keys at the ends of the entry files."""
from __future__ import annotations

import dataclasses
import hashlib
import os
import struct
from typing import Callable, List, Optional, Set

from .conversation import Parse, parse_numbers
from .errors import BadReply
from .limits import CHUNK, MAX_KEY
from .pipes import Replies

PINNED = 1 << 26
SIZE = (1 << 24) - 1
HEADER_BYTES = {1: 28, 2: 32, 3: 32}


@dataclasses.dataclass(frozen=True)
class Record:
    """What the index knows of an entry."""
    name: str
    frecency: int
    origin: str
    on_start: int
    on_stop: int
    kind: int
    flags: int

    @property
    def kilobytes(self) -> int:
        """The size of the entry's file, in units of 1,024 bytes."""
        return self.flags & SIZE

    @property
    def is_pinned(self) -> bool:
        return bool(self.flags & PINNED)


@dataclasses.dataclass(frozen=True)
class Finding:
    """Something that `verify` found: the name of the entry's file, what is wrong, and what more is said of it."""
    name: str
    what: str
    detail: str


def record_in(line: str) -> Record:
    name, frecency, origin, on_start, on_stop, kind, flags = line.split(" ")
    return Record(name, int(frecency), origin, int(on_start), int(on_stop), int(kind), int(flags, 16))


def finding_in(line: str) -> Finding:
    name, what, *more = line.split(" ")
    return Finding(name, what, " ".join(more))


def lines_after(word: bytes, read: Callable[[str], object]) -> Parse:
    """Reads a reply of a number and as many lines."""
    def parse(replies: Replies) -> List[object]:
        (count,) = parse_numbers(replies, word, 1)
        try:
            return [read(replies.line().decode("ascii")) for _ in range(count)]
        except ValueError as error:
            raise BadReply(None, str(error)) from error
    return parse


def parse_names(most: int) -> Parse:
    """Reads a list of records for the names alone, as the bytes of each. None where there are more than so many."""
    def parse(replies: Replies) -> Optional[Set[bytes]]:
        (count,) = parse_numbers(replies, b"records", 1)
        found: Set[bytes] = set()
        for _ in range(count):
            line = replies.line()
            if count <= most:
                found.add(bytes.fromhex(line[:40].decode("ascii")))
        return found if count <= most else None
    return parse


def key_in(path: str) -> Optional[bytes]:
    """The key at the end of an entry file, or None where the end leads to none whose SHA-1 is the name of the file."""
    try:
        with open(path, "rb") as file:
            end = file.seek(0, os.SEEK_END) - 4
            file.seek(max(end, 0))
            (offset,) = struct.unpack(">I", file.read(4))
            file.seek(offset + 4 + 2 * -(-offset // CHUNK))
            header = file.read(28)
            version, key_len = struct.unpack_from(">I", header)[0], struct.unpack_from(">I", header, 24)[0]
            if version not in HEADER_BYTES or key_len > MAX_KEY:
                return None
            file.seek(HEADER_BYTES[version] - 28, os.SEEK_CUR)
            key = file.read(key_len)
    except (OSError, struct.error):
        return None
    return key if hashlib.sha1(key).hexdigest().upper() == os.path.basename(path) else None
