"""The index of a cache, its journal and the mark of a clearing, as docs/FORMATS.md has their bytes."""
import hashlib
import struct

from cachelib.hashes import hash_of

NO_TIME = 65535
FILLED = 0x80000000


def record_bytes(digest, frecency=1000, origin=b"", on_start=NO_TIME, on_stop=NO_TIME, content=0, flags=FILLED | 1):
    """A record of 41 bytes, which is that of a file of 1 KB where nothing else is said."""
    origin_hash = hashlib.sha1(origin).digest()[:8]
    return digest + struct.pack(">I", frecency) + origin_hash + struct.pack(">HHBI", on_start, on_stop, content, flags)


def journal_bytes(records):
    """Records in the order in which they come, and the hash of their bytes: all of a journal."""
    joined = b"".join(records)
    return joined + hash_of(joined)


def mark_bytes(origin):
    """The mark of a clearing of this origin."""
    origin_hash = hashlib.sha1(origin).digest()[:8]
    return origin_hash + hash_of(origin_hash)


def index_bytes(records, moment, flag):
    """A file `index` with these records, in the order in which they come."""
    return struct.pack(">IIII", 10, moment, flag, 0) + journal_bytes(records)
