"""The `put` of `hello` that README.md has, byte by byte: what was put is got, dumped and loaded, and what must be
refused is refused."""
import os
import stat
import subprocess

import pytest

from cachelib.hashes import CHUNK
from support import Cache

KEY = ":https://example.com/"
NUMBERS = "00000003 00000001 000003E8 000003E8 000003E8 FFFFFFFF 00000015 00000000"
# The metadata: their hash, that of the only chunk, version, fetch count, last fetched, last modified, frecency,
# expiration, the key's length, flags, and the key.
BLOCK = bytes.fromhex(f"06AB5E9A 399E {NUMBERS}") + KEY.encode() + b"\0"
FILE = b"hello" + BLOCK + bytes.fromhex("00000005")
DUMP = (b"C2DUMP01\1" + bytes.fromhex("00000015") + KEY.encode() + bytes.fromhex("00000005") + b"hello"
        + bytes.fromhex("0000003C") + BLOCK + b"\0")
NUMBERS_FOUND = b"found 1 1000 1000 1000 4294967295 0 0 "
FOUND = NUMBERS_FOUND + b"5\n\nhello\n"


@pytest.fixture
def first(cache):
    """The folder in which the entry was put."""
    assert cache.run("put", KEY, given=b"hello") == (0, b"ok\n")
    return cache


@pytest.fixture
def other(program, room):
    return Cache(program, os.path.join(room, "other"))


def mode_of(path):
    return stat.S_IMODE(os.stat(path).st_mode)


def test_put(first):
    assert os.listdir(first.at("entries")) == ["68BC13FA477009A295E32BF01651A14CAB377A5C"]
    assert len(FILE) == 69
    assert first.files("entries") == {"entries/68BC13FA477009A295E32BF01651A14CAB377A5C": FILE}
    assert mode_of(first.entry(KEY)) == 0o600
    assert mode_of(first.at("entries")) == 0o700


@pytest.mark.parametrize("file, status, reply", [
    (FILE, 0, FOUND),
    (b"j" + FILE[1:], 7, b"damaged 0 399E 6DAA\n"),
    (FILE[:68], 7, b"absent\n"),
])
def test_get(first, file, status, reply):
    first.write(file, "entries", os.path.basename(first.entry(KEY)))
    assert first.run("get", KEY, now=1001) == (status, reply)


def test_get_where_nothing_stands(cache):
    assert cache.run("get", KEY, now=1001) == (7, b"absent\n")
    assert [name for name in sorted(os.listdir(cache.path)) if os.path.isfile(cache.at(name))] == ["index", "index.log"]


def test_dump_and_load(first, other):
    assert len(DUMP) == 108
    assert first.run("dump", now=1001) == (0, DUMP)
    assert other.run("load", given=DUMP, now=5000) == (0, b"loaded 1\n")
    assert other.read(other.entry(KEY)) == FILE


@pytest.mark.parametrize("data, reply", [(DUMP[:-1], b"bad dump 2\n"),
                                         (DUMP.replace(b"hello", b"jello"), b"bad dump 1\n")])
def test_load_of_a_bad_dump(other, data, reply):
    assert other.run("load", given=DUMP, now=5000)[0] == 0
    assert other.run("load", given=data, now=5000) == (3, reply)
    assert os.listdir(other.at("entries")) == ([] if b"jello" in data else [os.path.basename(other.entry(KEY))])
    assert os.listdir(other.at("doomed")) == []


def test_dump_in_a_script(first):
    assert first.run("run", given=b"dump\n", now=1001) == (3, b"script 1\n")


def closed(cache, stream, *words, given=b""):
    """The status of a run one of whose streams is closed, and what it prints. The first file that a program opens takes
    the number of a stream that is closed."""
    ran = subprocess.run(["sh", "-c", f'exec "$@" {stream}', "sh", cache.program.path, cache.path, "1000", *words],
                         input=given, stdout=subprocess.PIPE, stderr=subprocess.DEVNULL, check=False)
    return ran.returncode, ran.stdout


@pytest.mark.parametrize("stream, status, reply, file", [
    (">&-", 5, b"", FILE), ("<&-", 4, b"", None), ("2>&-", 0, b"ok\n", FILE)])
def test_put_with_a_closed_stream(cache, stream, status, reply, file):
    assert closed(cache, stream, "put", KEY, given=b"hello") == (status, reply)
    assert cache.read(cache.entry(KEY)) == file


def test_dump_and_load_with_a_closed_stream(first, other):
    assert closed(first, ">&-", "dump") == (5, b"")
    assert closed(first, "<&-", "load") == (4, b"")
    assert first.read(first.entry(KEY)) == FILE
    assert closed(other, ">&-", "load", given=DUMP) == (5, b"")
    assert other.read(other.entry(KEY)) == FILE


def test_a_moment_that_is_no_number(cache):
    assert cache.run("put", ":x", now="x") == (2, b"")
    assert not os.path.exists(cache.path)


def test_a_key_without_a_colon(binary, room):
    assert binary.ends(room, "put", "nocolon", given=b"hello") == (7, b"bad key\n")


def test_long_bodies(cache):
    body = os.urandom(600_000)
    assert len(body) > 2 * CHUNK
    assert cache.run("put", ":x", given=body) == (0, b"ok\n")
    assert cache.run("get", ":x", now=1001) == (0, NUMBERS_FOUND + b"600000\n\n" + body + b"\n")
    assert cache.run("put", ":x", given=bytes(52_428_801)) == (7, b"too large\n")
    assert os.listdir(cache.at("entries")) == []
