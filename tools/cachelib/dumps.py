"""The items of a dump, as "The dump" in docs/FORMATS.md has them: read, checked and written."""
import hashlib
import struct

from cachelib.elements import are_elements
from cachelib.entries import HEADER_BYTES, MAX_BLOCK, MAX_BODY, Metadata, header_place
from cachelib.hashes import CHUNK, low_hash, lookup2
from cachelib.keys import MAX_KEY, may_write

HEAD = b"C2DUMP01"
MAX_DUMP = 1 << 40


class BadItem(Exception):
    """An item is bad: its number, counted from 1, and why."""

    def __str__(self):
        return f"item {self.args[0]}: {self.args[1]}"


class Dump:
    """A dump that is read from an open file. To check the hashes takes most of the time, and may be left out."""

    def __init__(self, file, is_hashed=True):
        self.file = file
        self.is_hashed = is_hashed
        self.used = 0
        self.number = 1

    def bad(self, why):
        return BadItem(self.number, why)

    def take(self, count):
        """The next bytes, which have to be there."""
        self.used += count
        if self.used > MAX_DUMP:
            raise self.bad("the dump is too long")
        taken = self.file.read(count)
        if len(taken) < count:
            raise self.bad("the dump ends within it")
        return taken

    def length(self, least, most, what):
        (length,) = struct.unpack(">I", self.take(4))
        if not least <= length <= most:
            raise self.bad(f"{what} of {length} bytes")
        return length

    def key(self, before):
        """The key of an item, whose name comes after the one before."""
        key = self.take(self.length(1, MAX_KEY, "a key"))
        if not may_write(key):
            raise self.bad("its key may not be written")
        if hashlib.sha1(key).digest() <= before:
            raise self.bad("its name is out of order")
        return key

    def body(self, keep):
        """The length of a body and the hashes of its chunks, where these are asked for. Each chunk is handed on."""
        left = length = self.length(0, MAX_BODY, "a body")
        hashes = []
        while left:
            piece = self.take(min(CHUNK, left))
            left -= len(piece)
            if self.is_hashed:
                hashes.append(low_hash(piece))
            keep(piece)
        return length, b"".join(hashes)

    def metadata(self, key, body_len, hashes):
        """What the block of this key and of a body with this length and these hashes says."""
        block = self.take(self.length(0, MAX_BLOCK, "a block"))
        header = header_place(body_len)
        key_at = header + HEADER_BYTES[3]
        if len(block) <= key_at + len(key):
            raise self.bad("its block is short")
        if self.is_hashed and block[:4] != struct.pack(">I", lookup2(block[4:])):
            raise self.bad("its block is damaged")
        if self.is_hashed and block[4:header] != hashes:
            raise self.bad("its body is damaged")
        version, *numbers, key_len, flags = struct.unpack_from(">8I", block, header)
        if version != 3:
            raise self.bad(f"its block has version {version}")
        if key_len != len(key) or block[key_at:key_at + key_len + 1] != key + b"\0":
            raise self.bad("its block has another key")
        elements = block[key_at + key_len + 1:]
        if not are_elements(elements):
            raise self.bad("its elements are malformed")
        return Metadata(version, key, body_len, block[4:header], tuple(numbers), flags, elements)

    def items(self, begin=lambda name: lambda piece: None):
        """The metadata of each item, once it is read whole. `begin` is called with its name, and what it gives with
        each piece of its body.
        """
        if self.take(len(HEAD)) != HEAD:
            raise self.bad("this is no dump")
        before = b""
        while (tag := self.take(1)) == b"\1":
            key = self.key(before)
            before = hashlib.sha1(key).digest()
            body_len, hashes = self.body(begin(before.hex().upper()))
            yield self.metadata(key, body_len, hashes)
            self.number += 1
        if tag != b"\0":
            raise self.bad("it begins with another byte")
        if self.file.read(1):
            raise self.bad("a byte comes after the end")


def item_parts(key, body, block):
    """The bytes of an item in parts, of which none is copied."""
    front = b"\1" + struct.pack(">I", len(key)) + key + struct.pack(">I", len(body))
    return front, body, struct.pack(">I", len(block)), block


def dump_bytes(*items):
    """A dump of items, each the bytes of one."""
    return HEAD + b"".join(items) + b"\0"


class Writer:
    """Writes a dump to an open file: items in the order of their names, and then the end. It has at most so many bytes.
    """

    def __init__(self, file, most=MAX_DUMP):
        self.file = file
        self.left = most - len(HEAD)
        file.write(HEAD)

    def add(self, key, body, block):
        """Whether there was room for an item; nothing of it is written otherwise. A byte is kept for the end."""
        parts = item_parts(key, body, block)
        size = sum(map(len, parts))
        if size + 1 > self.left:
            return False
        self.left -= size
        for part in parts:
            self.file.write(part)
        return True

    def end(self):
        self.file.write(b"\0")
        self.file.flush()
