"""Entry files of versions 1 to 4, as "The entry file" in docs/FORMATS.md has them: read, checked and made."""
import contextlib
import dataclasses
import hashlib
import os
import re
import stat
import struct

from cachelib.elements import alternative_place, are_elements, elements_in
from cachelib.hashes import CHUNK, chunk_hashes, hash_of, low_hash, lookup2

NAME = re.compile("[0-9A-F]{40}")
HEADER_BYTES = {1: 28, 2: 32, 3: 32, 4: 32}
MAX_BLOCK = 262144
MAX_BODY = 52428800
MAX_VERSION = 255
NO_EXPIRATION = 0xFFFFFFFF
PINNED = 1
# What stands between the block and the offset in a file of version 4.
TRAILER = struct.pack(">I", 4)
# What stands in the place of the offset in a file that was never finished, and the bit of it that tells of an encrypted
# file.
UNFINISHED = b"\xff\xff\xff\xff"
ENCRYPTED = 1 << 31
# So much of a file's end is read at first. Most blocks are shorter.
TAIL = 16384


class Unfit(Exception):
    """The first check that a file fails, and maybe what is known beside it."""

    def says(self):
        """The reason, for people."""
        check, *more = self.args
        if check == "short":
            return more[0] if more else "cut"
        # A larger number is no version: the file was cut, or is of another kind.
        if check == "version" and more[0] <= MAX_VERSION:
            return f"version {more[0]}"
        return f"damaged ({more[0]})" if check == "damaged" else f"unfit ({check})"


class Unread(Unfit):
    """What stands there is no file, or the system refused to read it."""

    def says(self):
        return self.args[0]


@dataclasses.dataclass
class Metadata:
    """What the metadata of an entry say. `numbers` are those of the header from the fetch count to the expiration time.
    """
    version: int
    key: bytes
    body_len: int
    hashes: bytes
    numbers: tuple
    flags: int
    elements: bytes

    fetch_count = property(lambda self: self.numbers[0])
    fetched = property(lambda self: self.numbers[1])
    modified = property(lambda self: self.numbers[2])
    frecency = property(lambda self: self.numbers[3])
    expires = property(lambda self: self.numbers[4])

    @property
    def name(self):
        """The name of the entry, which is that of its file."""
        return hashlib.sha1(self.key).hexdigest().upper()

    @property
    def alternative(self):
        """Where the alternative data begin in the body, and their kind; or None where there are none."""
        return alternative_place(elements_in(self.elements).get(b"alt-data", b""), self.body_len)

    def block(self):
        """The metadata block in version 3, whatever the version of the file was."""
        header = header_bytes(3, self.numbers, len(self.key), self.flags)
        rest = self.hashes + header + self.key + b"\0" + self.elements
        return struct.pack(">I", lookup2(rest)) + rest

    def hash_at(self, number):
        """The stored hash of a chunk."""
        return self.hashes[2 * number:2 * number + 2]


# ---- files that are read

def open_entry(path):
    """The number of an open file. A link is not followed, and a pipe not waited for."""
    if not stat.S_ISREG(os.lstat(path).st_mode):
        raise Unread("no file")
    # Another program may have put something else there since.
    number = os.open(path, os.O_RDONLY | os.O_NOFOLLOW | os.O_NONBLOCK)
    if not stat.S_ISREG(os.fstat(number).st_mode):
        os.close(number)
        raise Unread("no file")
    return number


def offset_in(size, end):
    """The offset that the last four bytes of a file of this size tell."""
    if size == 0:
        raise Unfit("short", "empty")
    if len(end) < 4 or end == UNFINISHED:
        raise Unfit("short", "cut")
    (offset,) = struct.unpack(">I", end)
    # A number that leads out of the file is no offset, whatever its bits.
    if offset & ENCRYPTED and offset - ENCRYPTED < size:
        raise Unfit("short", "encrypted")
    return offset


def block_place(size, offset):
    """The length of the block, with the trailer, in a file of this size with this offset, and where the header begins
    in it.
    """
    header_at = header_place(offset)
    block_len = size - 4 - offset
    if block_len < header_at + min(HEADER_BYTES.values()) + 1:
        raise Unfit("short")
    if block_len > MAX_BLOCK + len(TRAILER):
        raise Unfit("too big")
    return block_len, header_at


def header_place(body_len):
    """Where the header begins in the block of a body of this length."""
    return 4 + 2 * (-(-body_len // CHUNK))


def read_block(number):
    """The length of the body in an open entry file, and the block with what stands after it."""
    size = os.fstat(number).st_size
    tail_at = max(0, size - TAIL)
    tail = os.pread(number, TAIL, tail_at)
    offset = offset_in(size, tail[-4:])
    block_len, _ = block_place(size, offset)
    block = tail[offset - tail_at:-4] if offset >= tail_at else os.pread(number, block_len, offset)
    if len(block) != block_len:
        raise Unfit("short")
    return offset, block


def version_in(block, header_at):
    (version,) = struct.unpack_from(">I", block, header_at)
    if version not in HEADER_BYTES:
        raise Unfit("version", version)
    return version


def key_end_in(block, header_at, version):
    """Where the key in a block ends. Its zero byte is there."""
    (key_len,) = struct.unpack_from(">I", block, header_at + 24)
    key_end = header_at + HEADER_BYTES[version] + key_len
    if key_end >= len(block) or block[key_end] != 0:
        raise Unfit("key end")
    return key_end


def without_trailer(block, header_at):
    """A block of version 4 without the trailer after it."""
    if block[-4:] != TRAILER:
        raise Unfit("trailer")
    block = block[:-4]
    if len(block) < header_at + HEADER_BYTES[4] + 1:
        raise Unfit("short")
    return block


def metadata_in(block, body_len, name, is_hashed=True):
    """What the block in a file of this name says, once it has passed each check. The hash takes long, and may be left
    out.
    """
    header_at = header_place(body_len)
    version = version_in(block, header_at)
    if version == 4:
        block = without_trailer(block, header_at)
    key_end = key_end_in(block, header_at, version)
    # As version 3 the block has a number more.
    if len(block) - HEADER_BYTES[version] + HEADER_BYTES[3] > MAX_BLOCK:
        raise Unfit("too big")
    if is_hashed and block[:4] != struct.pack(">I", lookup2(block[4:])):
        raise Unfit("hash")
    elements = block[key_end + 1:]
    if not are_elements(elements):
        raise Unfit("elements")
    key = block[header_at + HEADER_BYTES[version]:key_end]
    if hashlib.sha1(key).hexdigest().upper() != name:
        raise Unfit("wrong name")
    numbers = struct.unpack_from(">5I", block, header_at + 4)
    flags = 0 if version == 1 else struct.unpack_from(">I", block, header_at + 28)[0]
    return Metadata(version, key, body_len, block[4:header_at], numbers, flags, elements)


@contextlib.contextmanager
def reading():
    """What the system refuses while a file is read is a fault of that file."""
    try:
        yield
    except OSError as fault:
        raise Unread(fault.strerror) from None


@contextlib.contextmanager
def opened(folder, name, is_hashed=True):
    """The number of the open file of an entry, and its metadata once they have passed each check."""
    with reading():
        number = open_entry(os.path.join(entries_in(folder), name))
    try:
        with reading():
            body_len, block = read_block(number)
        yield number, metadata_in(block, body_len, name, is_hashed)
    finally:
        os.close(number)


def metadata_of(folder, name, is_hashed=True):
    """The metadata in the file of an entry."""
    with opened(folder, name, is_hashed) as (_, metadata):
        return metadata


def damaged_chunk(metadata, body):
    """The number of the first chunk of a body whose hash is not the stored one, or None."""
    for number, at in enumerate(range(0, len(body), CHUNK)):
        if low_hash(bytes(body[at:at + CHUNK])) != metadata.hash_at(number):
            return number
    return None


def chunks_of(number, metadata):
    """The chunks of the body in an open entry file, each once its hash is known to be right."""
    for at in range(0, metadata.body_len, CHUNK):
        with reading():
            piece = os.pread(number, min(CHUNK, metadata.body_len - at), at)
        if low_hash(piece) != metadata.hash_at(at // CHUNK):
            raise Unfit("damaged", at // CHUNK)
        yield piece


# ---- folders

def entries_in(folder):
    """The folder of the entry files."""
    return os.path.join(folder, "entries")


def entry_names(folder):
    """The names of the entry files in name order, which is that of the items of a dump."""
    return sorted(filter(NAME.fullmatch, os.listdir(entries_in(folder))))


# ---- files that are made

def header_bytes(version, numbers, key_len, flags):
    """A header, of which the numbers are the fetch count, last fetched, last modified, frecency and expiration time."""
    header = struct.pack(">7I", version, *numbers, key_len)
    # Version 1 has no flags.
    return header if version == 1 else header + struct.pack(">I", flags)


def block_of(body, header, key, elements=b""):
    """The metadata block of an entry, from the bytes of its parts."""
    rest = chunk_hashes(body) + header + key + b"\0" + elements
    return hash_of(rest) + rest


def file_with(body, block):
    """The file of a body and the block after its metadata hash, which this puts before it."""
    return body + hash_of(block) + block + struct.pack(">I", len(body))


def file_of(body, header, key, elements=b""):
    """The file of a finished entry, from the bytes of its parts."""
    return body + block_of(body, header, key, elements) + struct.pack(">I", len(body))
