"""Entry files of older versions of the format, and how the program takes them.

The program fills a folder. Each of its files is taken apart and spelled anew by cachelib, as docs/FORMATS.md has the
three versions. As version 1, which has no flags, and as version 2 `get`, `list` and `verify` have to say of each what
they say of version 3 and to leave the file as it is, and a use has to leave a file of version 3 with the same body, key
and elements. Then come files of versions that there are not, and blocks at the limits of their sizes."""
import os
import struct

import pytest

from cachelib.entries import MAX_BLOCK, NO_EXPIRATION, file_of, header_bytes
from cachelib.hashes import CHUNK
from cachelib.keys import name_of
from support import Cache

USED_AT = 5000
EXAMPLE = ":https://example.com/"
# The file of `hello` under the key above, made at the moment 1000, as docs/FORMATS.md has it in each version.
KNOWN = {
    1: "68656C6C6F 424D093D 399E 00000001 00000001 000003E8 000003E8 000003E8 FFFFFFFF 00000015",
    2: "68656C6C6F 29D632F8 399E 00000002 00000001 000003E8 000003E8 000003E8 FFFFFFFF 00000015 00000000",
    3: "68656C6C6F 06AB5E9A 399E 00000003 00000001 000003E8 000003E8 000003E8 FFFFFFFF 00000015 00000000",
}


# ---- what an entry file says

NUMBERS = ("fetches", "fetched", "modified", "frecency", "expires")


class Entry:
    """What an entry file says: a body, the header's numbers, a key and the bytes of the elements."""

    def __init__(self, body, numbers, flags, key, elements):
        self.body, self.numbers, self.flags, self.key, self.elements = body, dict(numbers), flags, key, elements

    def file(self, version):
        """Its file in a version of the format."""
        key = self.key.encode()
        header = header_bytes(version, [self.numbers[one] for one in NUMBERS], len(key), self.flags)
        return file_of(self.body, header, key, self.elements)

    def block_len(self, version):
        return len(self.file(version)) - len(self.body) - 4

    def found(self):
        """The status and the reply of its `get`."""
        line = " ".join(str(self.numbers[one]) for one in NUMBERS)
        line = f"found {line} {self.flags} {len(self.elements)} {len(self.body)}\n"
        return 0, line.encode() + self.elements + b"\n" + self.body + b"\n"


def entry_in(file):
    """What a file of version 3 says, and its version, which is none where the file is too short."""
    offset = int.from_bytes(file[-4:], "big")
    at = offset + 4 + 2 * (-(-offset // CHUNK))
    if at + 32 > len(file):
        return None, None
    version, *numbers, size, flags = struct.unpack_from(">8I", file, at)
    key = file[at + 32:at + 32 + size].decode(errors="replace")
    return Entry(file[:offset], zip(NUMBERS, numbers), flags, key, file[at + 33 + size:-4]), version


# ---- the entries

def bytes_of(length, first):
    return bytes((first + i * 7) % 251 for i in range(length))


TAGGED = "O^partitionKey=%28https%2Cexample.com%29,:https://tags/style.css"
RESPONSE = [("security-info", b"FnhllAKW"), ("request-method", b"GET"), ("response-head", b"HTTP/1.1 200 OK\r\n"),
            ("ctid", b"5"), ("net-response-time-onstart", b"12"), ("net-response-time-onstop", b"15")]
# A key, the body's length, and the elements.
ENTRIES = [
    (EXAMPLE, None, []),
    (":", 3, []),
    (":https://empty/", 0, []),
    (":https://empty/elements", 0, RESPONSE),
    (":https://one/", 1, []),
    (":https://short/", 1000, [("ctid", b"2")]),
    (":https://kilobyte/less", 1024 - 4 - 2 - 32 - 22 - 1 - 4, []),
    (":https://kilobyte/more", 1024 - 4 - 2 - 32 - 22 - 1 - 4 + 1, []),
    (":https://chunk/less", CHUNK - 1, []),
    (":https://chunk/", CHUNK, [("request-method", b"GET")]),
    (":https://chunk/more", CHUNK + 1, RESPONSE),
    (":https://chunks/", 2 * CHUNK, []),
    (":https://chunks/more", 2 * CHUNK + 77, [("a", b""), ("alt-data", b"1;4,x"), ("b", bytes(range(1, 10)))]),
    (":https://elements/", 7, [(f"name{i}", b"v" * i) for i in range(100)]),
    (":https://elements/long", 7, [("long", b"l" * 60000)]),
    (TAGGED, 1000, RESPONSE),
    ("a,:https://tags/", 10, []),
    ("O^userContextId=1,a,~x,,y,:https://tags/all", 20, [("ctid", b"9")]),
    ("~a,,b,:", 30, []),
    (":https://long/" + "k" * 16370, 40, []),
    (":https://two words/é", 50, []),
]
PINNED = ":https://pinned/"
KEYS = [key for key, _, _ in ENTRIES] + [PINNED]


def script_of(at, key, length, elements):
    body = b"hello" if length is None else bytes_of(length, at)
    pieces = [body[i:i + 1048576] for i in range(0, len(body), 1048576)]
    script = f"at {at}\ncreate 0 {key}\n".encode()
    script += b"".join(b"append 0 %d\n%s\n" % (len(piece), piece) for piece in pieces)
    for name, value in elements:
        script += b"set 0 %d %s\n%s\n" % (len(value), name.encode(), value)
    return script + b"close 0\n"


# ---- folders

def forget_index(cache):
    for name in ("index", "index.log", "index.tmp"):
        if os.path.exists(cache.at(name)):
            os.remove(cache.at(name))


def files_of(cache, keys):
    """The files of these keys; there are no others."""
    assert set(os.listdir(cache.at("entries"))) == {name_of(key) for key in keys}
    return {key: cache.read(cache.entry(key)) for key in keys}


def records(cache):
    """The lines of `list` by name, each without its size, and the sizes."""
    status, text = cache.run("list", now=USED_AT)
    head, *lines = text.decode().splitlines()
    assert (status, head) == (0, f"records {len(lines)}")
    words = [(line[:40], line[41:-8], int(line[-8:], 16)) for line in lines]
    return {name: f"{rest}{flags >> 24:02X}" for name, rest, flags in words}, {name: flags & 0xFFFFFF for name, _,
                                                                               flags in words}


class Made:
    """A folder that the program filled, its files by their keys, and what they say."""

    def __init__(self, program, room):
        self.program, self.room = program, room
        self.cache = self.new("made")
        script = b"".join(script_of(1000 + number, *one) for number, one in enumerate(ENTRIES))
        for key, _, _ in ENTRIES[3::4]:
            script += f"at 3000\nopen 0 {key}\nuse 0\nclose 0\n".encode()
        status, text = self.cache.run("run", given=script)
        assert (status, set(text.split())) == (0, {b"ok"})
        entry, version = entry_in(self.cache.read(self.cache.entry(":https://short/")))
        assert version == 3
        self.cache.put({PINNED: Entry(entry.body, entry.numbers, 1, PINNED, entry.elements).file(3)})
        forget_index(self.cache)
        self.files = files_of(self.cache, KEYS)
        self.entries = {key: entry_in(file)[0] for key, file in self.files.items()}
        self.records = records(self.cache)[0]

    def new(self, name):
        return Cache(self.program, os.path.join(self.room, name))


@pytest.fixture(scope="module")
def made(program, module_room):
    return Made(program, module_room)


@pytest.fixture(scope="module", params=[1, 2])
def old(request, made):
    """A version, a folder with all entries that it can spell, and their files."""
    version = request.param
    files = {key: entry.file(version) for key, entry in made.entries.items() if version != 1 or entry.flags == 0}
    return version, made.new(f"version-{version}").put(files), files


# ---- what is tried

@pytest.mark.parametrize("version", KNOWN)
def test_known_bytes(made, version):
    """The known entry is spelled as the documents have it."""
    known = bytes.fromhex(KNOWN[version]) + EXAMPLE.encode() + b"\0\0\0\0\5"
    assert made.entries[EXAMPLE].file(version) == known


@pytest.mark.parametrize("key", KEYS, ids=lambda key: key[:40])
def test_version_3_is_spelled_as_the_program_has_it(made, key):
    entry, version = entry_in(made.files[key])
    assert (version, entry.key, entry.file(3)) == (3, key, made.files[key])


@pytest.mark.parametrize("key", KEYS, ids=lambda key: key[:40])
def test_get(made, old, key):
    version, cache, files = old
    if (version, key) == (1, PINNED):
        pytest.skip("version 1 has no flags")
    assert key in files
    found = cache.run("get", key, now=USED_AT)
    assert found == made.cache.run("get", key, now=USED_AT)
    assert found == made.entries[key].found()


def test_list_and_verify(made, old):
    _, cache, files = old
    lines, sizes = records(cache)
    assert lines == {name_of(key): made.records[name_of(key)] for key in files}
    assert sizes == {name_of(key): (len(file) + 1023) // 1024 for key, file in files.items()}
    assert cache.run("verify", now=USED_AT) == (0, b"findings 0\n")
    assert files_of(cache, files) == files


def used_once(cache, key, entry):
    """A use counts, and the file has version 3 and all else as it was; its new frecency."""
    assert cache.run("run", given=f"open 0 {key}\nuse 0\nclose 0\n".encode(), now=USED_AT) == (0, b"ok\nok\nok\n")
    after, version = entry_in(cache.read(cache.entry(key)))
    assert version == 3
    frecency = after.numbers["frecency"]
    numbers = {**entry.numbers, "fetches": entry.numbers["fetches"] + 1, "fetched": USED_AT, "frecency": frecency}
    wanted = Entry(entry.body, numbers, entry.flags, key, entry.elements)
    assert cache.read(cache.entry(key)) == wanted.file(3)
    assert cache.run("get", key, now=USED_AT) == wanted.found()
    return frecency


def test_uses(made, old):
    """What one use makes of the frecency is the same as where the file has version 3."""
    version, cache, files = old
    cache = made.new(f"used-{version}").put(files)
    three = made.new(f"used-3-beside-{version}").put(made.files)
    for key in files:
        assert used_once(cache, key, made.entries[key]) == used_once(three, key, made.entries[key])
    assert cache.run("verify", now=USED_AT) == (0, b"findings 0\n")
    forget_index(cache)
    assert cache.run("verify", now=USED_AT) == (0, b"findings 0\n")
    assert not os.path.exists(cache.at("doomed")) or os.listdir(cache.at("doomed")) == []


def entry_with(key, elements, flags=0):
    return Entry(b"hello", zip(NUMBERS, (1, 1000, 1000, 1000, NO_EXPIRATION)), flags, key, elements)


def of_size(key, version, size):
    """An entry whose block has this size in the version."""
    return entry_with(key, b"n\0" + b"v" * (size - entry_with(key, b"n\0\0").block_len(version)) + b"\0")


# The largest block of version 1 has four bytes less, for the flags that a use adds.
LIMITS = {1: MAX_BLOCK - 4, 2: MAX_BLOCK}
NO_VERSIONS = {key: entry_with(key, b"").file(version) for version in (0, 4, 5, 0x01000000, 0xFFFFFFFF)
               for key in [f":https://version/{version}"]}
TOO_BIG = {key: of_size(key, version, limit + 1).file(version) for version, limit in LIMITS.items()
           for key in [f":https://limit/{version}"]}


@pytest.mark.parametrize("word, files", [("version", NO_VERSIONS), ("too-big", TOO_BIG)])
def test_unfit_files(cache, word, files):
    """None of the files is found, `verify` names them, and they stay as they are."""
    cache.put(files)
    for key in files:
        assert cache.run("get", key, now=USED_AT) == (7, b"absent\n")
    text = "".join(f"{name} unfit {word}\n" for name in sorted(map(name_of, files)))
    assert cache.run("verify", now=USED_AT) == (7, f"findings {len(files)}\n{text}".encode())
    assert cache.run("list", now=USED_AT) == (0, b"records 0\n")
    assert files_of(cache, files) == files
    for key in files:
        assert cache.run("put", key, given=b"new", now=USED_AT) == (0, b"ok\n")
    assert cache.run("verify", now=USED_AT) == (0, b"findings 0\n")


@pytest.mark.parametrize("version", LIMITS)
def test_the_largest_block(cache, version):
    """It is read, and used."""
    key = f":https://limit/{version}"
    entry = of_size(key, version, LIMITS[version])
    assert entry.block_len(version) == LIMITS[version]
    cache.put({key: entry.file(version)})
    assert cache.run("get", key, now=USED_AT) == entry.found()
    used_once(cache, key, entry)
    assert len(cache.read(cache.entry(key))) == len(entry.file(3))
    assert entry.block_len(3) == MAX_BLOCK
    assert cache.run("verify", now=USED_AT) == (0, b"findings 0\n")
