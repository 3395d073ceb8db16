"""Unpacks a body that the server packed. What it gives is bounded, whatever the body says.

Python has gzip and deflate. For br and zstd the C libraries of Debian's packages libbrotli1 and libzstd1 are taken
where they are there: they give their output in pieces, so that no body is held whole.
"""
import ctypes
import functools
import zlib

PIECE = 262144
# A body of a few bytes may unpack to terabytes.
MAX_UNPACKED = 1 << 30
# The ends of files that are packed so.
ENDS = {"gzip": ".gz", "x-gzip": ".gz", "deflate": ".zz", "br": ".br", "zstd": ".zst"}


class Packed(Exception):
    """Why a body stays as it is stored."""


def unpack(encodings, source, sink):
    """Writes to the one open file what the other one has, which is not empty and was packed so, by one after the other.
    """
    pieces = iter(lambda: source.read(PIECE), b"")
    for encoding in reversed(encodings):
        if encoding not in UNPACKERS:
            raise Packed(f"packed by {encoding}, which is not known here")
        pieces = UNPACKERS[encoding](pieces)
    written = 0
    for piece in pieces:
        written += len(piece)
        if written > MAX_UNPACKED:
            raise Packed(f"it unpacks to more than {MAX_UNPACKED:,} bytes")
        sink.write(piece)


# ---- gzip and deflate

def inflated(pieces, bits):
    """What zlib makes of the pieces. As in a browser, nothing counts that comes after the end."""
    machine = zlib.decompressobj(bits)
    try:
        for piece in pieces:
            while piece and not machine.eof:
                yield machine.decompress(piece, PIECE)
                piece = machine.unconsumed_tail
        yield machine.flush()
    except zlib.error as fault:
        raise Packed(f"it does not unpack ({fault})") from None
    if not machine.eof:
        raise Packed("it does not unpack (it ends too early)")


def deflated(pieces):
    """What is called deflate may have the frame of zlib or none."""
    first = next(pieces, b"")
    has_frame = len(first) > 1 and first[0] & 15 == 8 and (first[0] << 8 | first[1]) % 31 == 0

    def all_of_it():
        yield first
        yield from pieces
    return inflated(all_of_it(), zlib.MAX_WBITS if has_frame else -zlib.MAX_WBITS)


# ---- br and zstd

@functools.lru_cache(maxsize=None)
def library(name, package):
    try:
        return ctypes.CDLL(name)
    except OSError:
        raise Packed(f"{name} is missing: apt-get install {package}") from None


def brotli(pieces):
    """What libbrotlidec makes of the pieces."""
    lib = library("libbrotlidec.so.1", "libbrotli1")
    lib.BrotliDecoderCreateInstance.restype = ctypes.c_void_p
    state = ctypes.c_void_p(lib.BrotliDecoderCreateInstance(None, None, None))
    needs_more, has_room = 2, 3
    result, out = needs_more, ctypes.create_string_buffer(PIECE)
    try:
        for piece in pieces:
            given = ctypes.create_string_buffer(piece, len(piece))
            left, at = ctypes.c_size_t(len(piece)), ctypes.c_void_p(ctypes.addressof(given))
            result = has_room
            while result == has_room:
                room, to = ctypes.c_size_t(PIECE), ctypes.c_void_p(ctypes.addressof(out))
                result = lib.BrotliDecoderDecompressStream(state, ctypes.byref(left), ctypes.byref(at),
                                                           ctypes.byref(room), ctypes.byref(to), None)
                yield out.raw[:PIECE - room.value]
            if result != needs_more:
                break
    finally:
        lib.BrotliDecoderDestroyInstance(state)
    if result != 1:
        raise Packed("it does not unpack (br)")


class Buffer(ctypes.Structure):
    """A place in memory, its size and how much of it is used, as libzstd has it."""
    _fields_ = [("at", ctypes.c_void_p), ("size", ctypes.c_size_t), ("used", ctypes.c_size_t)]


def zstd(pieces):
    """What libzstd makes of the pieces."""
    lib = library("libzstd.so.1", "libzstd1")
    lib.ZSTD_createDStream.restype = ctypes.c_void_p
    lib.ZSTD_decompressStream.restype = ctypes.c_size_t
    stream = ctypes.c_void_p(lib.ZSTD_createDStream())
    out, left = ctypes.create_string_buffer(PIECE), 0
    try:
        for piece in pieces:
            given = ctypes.create_string_buffer(piece, len(piece))
            source, sink = Buffer(ctypes.addressof(given), len(piece), 0), None
            while source.used < source.size or (left and sink.used == sink.size):
                sink = Buffer(ctypes.addressof(out), PIECE, 0)
                left = lib.ZSTD_decompressStream(stream, ctypes.byref(sink), ctypes.byref(source))
                if lib.ZSTD_isError(ctypes.c_size_t(left)):
                    raise Packed("it does not unpack (zstd)")
                yield out.raw[:sink.used]
    finally:
        lib.ZSTD_freeDStream(stream)
    if left:
        raise Packed("it does not unpack (it ends too early)")


UNPACKERS = {
    "gzip": lambda pieces: inflated(pieces, 16 + zlib.MAX_WBITS),
    "x-gzip": lambda pieces: inflated(pieces, 16 + zlib.MAX_WBITS),
    "deflate": deflated,
    "br": brotli,
    "zstd": zstd,
}
