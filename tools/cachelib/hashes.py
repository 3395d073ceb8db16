"""The hash in the files of a cache: lookup2, as "The hash" in docs/FORMATS.md has it."""
import functools
import struct

CHUNK = 262144
WORD = 0xFFFFFFFF


def mix(a, b, c):
    for i, j, k in ((13, 8, 13), (12, 16, 5), (3, 10, 15)):
        a = (a - b - c & WORD) ^ c >> i
        b = (b - c - a & WORD) ^ (a << j & WORD)
        c = (c - a - b & WORD) ^ b >> k
    return a, b, c


def lookup2(data):
    """Bob Jenkins' lookup2 with the seed 0."""
    a = b = 0x9E3779B9
    c = 0
    whole = len(data) // 12 * 12
    for x, y, z in struct.iter_unpack("<III", data[:whole]):
        a, b, c = mix(a + x & WORD, b + y & WORD, c + z & WORD)
    last = data[whole:].ljust(12, b"\0")
    x, y = struct.unpack_from("<II", last)
    z = len(data) + (int.from_bytes(last[8:11], "little") << 8)
    return mix(a + x & WORD, b + y & WORD, c + z & WORD)[2]


# A tool asks for the hash of one long chunk again and again.
@functools.lru_cache(maxsize=256)
def hash_of(data):
    """The hash as the four bytes that stand in a file."""
    return struct.pack(">I", lookup2(data))


def low_hash(data):
    """The 16-bit hash of a chunk, which is not remembered."""
    return struct.pack(">H", lookup2(data) & 0xFFFF)


def chunk_hashes(body):
    """The 16-bit hashes of a body's chunks, one after the other."""
    return b"".join(hash_of(body[at:at + CHUNK])[2:] for at in range(0, len(body), CHUNK))
