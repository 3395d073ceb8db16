"""Entries that are stored, read, listed and removed."""
import hashlib
import io
import os
import random
import stat

import cache2
import pytest
from cache2.limits import CHUNK, MAX_BODY, MAX_ELEMENTS, MAX_KEY, MAX_PIECE

KEY = ":https://example.com/"


def made(length, seed=1):
    return random.Random(seed).randbytes(length)


@pytest.mark.parametrize("length", [0, 1, 4095, 4096, 65535, 65536, 65537, CHUNK - 1, CHUNK, CHUNK + 1, MAX_PIECE - 1,
                                    MAX_PIECE, MAX_PIECE + 1, 3_000_000])
def test_each_way_gives_the_body_back(cache, length):
    body = made(length)
    for put in (lambda: cache.put(KEY, body), lambda: cache.put(KEY, bytearray(body)),
                lambda: cache.put(KEY, io.BytesIO(body)), lambda: written(cache, body)):
        cache.doom(KEY)
        put()
        entry = cache.get(KEY)
        assert entry.length == length
        assert entry.read() == body
        with cache.open(KEY) as reader:
            assert reader.read() == body
    assert cache.verify() == []


def written(cache, body):
    """Writes a body in pieces of many lengths."""
    lengths, at = random.Random(2), 0
    with cache.create(KEY) as writer:
        while at < len(body):
            count = lengths.choice((1, 100, 60_000, 70_000, 1_200_000))
            writer.write(body[at:at + count])
            at += count


def test_what_an_entry_says(path):
    moment = [1000.9]
    with cache2.open(path, clock=lambda: moment[0]) as cache:
        cache.put(KEY, b"hello", {"note": "first", "raw": b"\xff\xfe", "empty": ""})
        moment[0] = 2000
        cache.use(KEY)
        entry = cache.get(KEY)
    assert (entry.key, entry.count, entry.fetched, entry.modified, entry.expires, entry.flags, entry.length) == (
        KEY, 2, 2000, 1000, None, 0, 5)
    assert entry.elements == {"note": b"first", "raw": b"\xff\xfe", "empty": b""}
    assert not entry.is_pinned
    assert entry.read() == b"hello"


def test_a_body_is_a_file(cache):
    lines = b"".join(b"line %d\n" % number for number in range(60_000))
    for body in (lines[:1000], lines):
        cache.put(KEY, body)
        with cache.get(KEY) as entry:
            assert entry.body.readable()
            assert entry.body.read(7) == body[:7]
            assert entry.body.readline() == body[7:body.index(b"\n", 7) + 1]
            assert b"".join(entry.body) == body[body.index(b"\n", 7) + 1:]
            assert entry.body.read(1) == b""
        with pytest.raises(ValueError):
            entry.body.read(1)


def test_a_long_body_gives_way_to_other_calls(cache):
    """What is left of it is kept where somebody has it, and dropped otherwise."""
    body = made(5_000_000)
    cache.put(KEY, body)
    cache.put(":small", b"small")
    first, second = cache.get(KEY), cache.get(KEY)
    assert first.body.read(300_000) == body[:300_000]
    assert second.body.read(10) == body[:10]
    assert cache.get(":small").read() == b"small"
    for _ in range(3):
        cache.get(KEY)
    cache.get(KEY).close()
    assert first.read() == body[300_000:]
    assert second.read() == body[10:]
    # A body that nobody reads does not keep the cache from being closed.
    cache.get(KEY)


def test_a_long_body_is_read_after_the_cache_is_closed(path):
    body = made(2_000_000)
    with cache2.open(path) as cache:
        cache.put(KEY, body)
        entry = cache.get(KEY)
        assert entry.body.read(1) == body[:1]
    assert entry.read() == body[1:]


def test_the_longest_body(cache):
    body = bytes(MAX_BODY)
    cache.put(KEY, io.BytesIO(body))
    entry = cache.get(KEY)
    digest = hashlib.sha256()
    for piece in iter(lambda: entry.body.read(MAX_PIECE), b""):
        digest.update(piece)
    assert digest.digest() == hashlib.sha256(body).digest()


def test_no_body_is_held_whole(path, run_python):
    """Put and got by a process whose memory grows by less than a tenth of the body."""
    printed = run_python("""
import cache2, os, resource, sys
path = sys.argv[1]
with open(path + ".body", "wb") as file:
    for _ in range(50): file.write(os.urandom(1 << 20))
peak = lambda: resource.getrusage(resource.RUSAGE_SELF).ru_maxrss
with cache2.open(path) as cache:
    cache.put(":warm", b"x" * 3000000); cache.get(":warm").read()
    before = peak()
    with open(path + ".body", "rb") as file:
        cache.put(":big", file)
    entry = cache.get(":big")
    while entry.body.read(1 << 16): pass
    # One that is taken out of the pipe is not held either.
    kept = cache.get(":big")
    kept.body.read(10)
    cache.has(":big")
    while kept.body.read(1 << 16): pass
    reader = cache.open(":big")
    while reader.read(1 << 16): pass
    print(peak() - before)
""", path)
    assert int(printed) < 5 * 1024, f"the memory grew by {printed} KB"


def test_readers_side_by_side(cache):
    body = made(700_000)
    cache.put(KEY, body, {"a": "1"})
    readers = [cache.open(KEY) for _ in range(64)]
    with pytest.raises(cache2.NoFreeSlot):
        cache.open(KEY)
    with pytest.raises(cache2.NoFreeSlot):
        cache.put(":other", b"x")
    for number, reader in enumerate(readers):
        assert reader.seek(number * 10_000) == number * 10_000
        assert reader.read(5000) == body[number * 10_000:number * 10_000 + 5000]
        assert reader.tell() == number * 10_000 + 5000
    assert readers[0].element("a") == b"1"
    assert readers[0].element("b") is None
    readers[1].set("b", "2")
    assert readers[0].element("b") == b"2"
    readers[2].use()
    readers[0].close()
    with pytest.raises(ValueError):
        readers[0].read(1)
    cache.put(":other", b"x")
    cache.doom(KEY)
    cache.put(KEY, b"new")
    assert readers[3].seek(0) == 0 and readers[3].read() == body
    assert cache.get(KEY).read() == b"new"
    with pytest.raises(io.UnsupportedOperation):
        readers[3].seek(0, os.SEEK_END)
    for reader in readers:
        reader.close()


def test_readers_and_writers_that_are_dropped_give_their_slots_back(cache):
    cache.put(KEY, b"x")
    for _ in range(200):
        cache.open(KEY)
        cache.create(":dropped").write(b"y")
    with pytest.raises(cache2.NotFound):
        cache.get(":dropped")


def test_a_writer(cache):
    with cache.create(KEY, {"a": "1"}, is_pinned=True) as writer:
        writer.write(b"hel")
        writer.set("b", b"2")
        writer.wait()
        with pytest.raises(cache2.Unfinished):
            cache.get(KEY)
        writer.write(b"lo")
        assert writer.length == 5
    entry = cache.get(KEY)
    assert (entry.read(), entry.elements, entry.is_pinned) == (b"hello", {"a": b"1", "b": b"2"}, True)
    assert cache.list()[0].is_pinned
    assert cache.evict(0) == []
    with pytest.raises(cache2.Closed):
        writer.write(b"x")
    writer.close()


def test_an_exception_dooms_the_entry(cache):
    with pytest.raises(ZeroDivisionError):
        with cache.create(KEY) as writer:
            writer.write(b"half of it")
            1 / 0
    with pytest.raises(cache2.NotFound):
        cache.get(KEY)
    assert cache.list() == []


def test_a_writer_that_is_late_leaves_the_newer_entry(cache):
    """Another writer has made the entry anew, so an abort of the first dooms nothing."""
    old = cache.create(KEY)
    old.write(b"old")
    cache.put(KEY, b"new")
    old.abort()
    assert cache.get(KEY).read() == b"new"
    old = cache.create(KEY)
    newer = cache.create(KEY)
    newer.write(b"newer")
    old.abort()
    newer.close()
    assert cache.get(KEY).read() == b"newer"
    old = cache.create(KEY)
    cache.put(KEY, b"newest")
    del old
    assert cache.get(KEY).read() == b"newest"


def test_records_keys_and_eviction(path):
    moment = [1000]
    with cache2.open(path, clock=lambda: moment[0]) as cache:
        for number in range(5):
            moment[0] += 10
            cache.put(f":{number}", bytes(2000))
        assert [record.kilobytes for record in cache.list()] == [2] * 5
        assert [record.name for record in cache.list()] == sorted(cache2.name_of(f":{number}") for number in range(5))
        assert set(cache.keys()) == {f":{number}" for number in range(5)}
        assert cache.has(":0") is True and cache.has(":9") is False
        moment[0] += 10
        cache.use(":0")
        assert cache.evict(6) == [cache2.name_of(":1"), cache2.name_of(":2")]
        assert set(cache.keys()) == {":0", ":3", ":4"}
        assert cache.doom(":3") is True
        assert cache.doom(":3") is False
        assert cache.evict(0) != []
        assert list(cache.keys()) == []


def test_clear_and_pin(cache):
    for key, is_pinned in (("O^a,:1", False), ("O^a,:2", True), (":3", False), ("O^a,,b,:4", False)):
        cache.put(key, b"x", is_pinned=is_pinned)
    assert cache.clear("^a") == 1
    assert set(cache.keys()) == {"O^a,:2", ":3", "O^a,,b,:4"}
    assert cache.clear() == 1
    assert cache.clear("^a,b") == 1
    assert cache.doom("O^a,:2")


def test_keys_of_any_bytes(cache):
    for key in (":", ":\xe4", b":\xff\xfe", "a,:x", "~x,,y,:https://x/", ":" + "k" * (MAX_KEY - 1)):
        cache.put(key, b"body of it")
        assert cache.get(key).read() == b"body of it"
    assert b":\xff\xfe" in [key.encode("utf-8", "surrogateescape") for key in cache.keys()]
    for key in cache.keys():
        assert cache.get(key).key == key


@pytest.mark.parametrize("key", ["", "x", "a,", "a:x", "a,a,:x", ":x\n", ":x\0", ":" + "k" * MAX_KEY, b",:x",
                                 "Ox,,:y", ":\ud800"])
def test_keys_that_may_not_be_written(cache, key):
    cache.put(KEY, b"there")
    for call in (cache.get, cache.doom, cache.open, cache.use, cache.has, cache.create,
                 lambda key: cache.put(key, b"x"), lambda key: cache.put(key, io.BytesIO(b"x"))):
        with pytest.raises(cache2.BadKey):
            call(key)
    assert cache.get(KEY).read() == b"there"


def test_elements_that_may_not_be_set(cache):
    cache.put(KEY, b"there")
    for elements, error in (({"": "x"}, cache2.BadElement), ({"a\0": "x"}, cache2.BadElement),
                            ({"a\n": "x"}, cache2.BadElement), ({"a": "x\0y"}, cache2.BadElement),
                            ({"n" * 19_901: ""}, cache2.BadElement), ({"a": "v" * (MAX_ELEMENTS - 2)}, cache2.TooLarge),
                            ({"a": "v" * 40_000, "b": "v" * 40_000}, cache2.TooLarge)):
        with pytest.raises(error):
            cache.put(KEY, b"x", elements)
        with pytest.raises(error):
            cache.put(KEY, io.BytesIO(b"x"), elements)
    assert cache.get(KEY).read() == b"there"
    most = {"a": "v" * (MAX_ELEMENTS - 3), }
    cache.put(KEY, b"x", most)
    assert cache.get(KEY).elements["a"] == most["a"].encode()
    with cache.create(":w", {"a": "v" * 40_000}) as writer:
        with pytest.raises(cache2.TooLarge):
            writer.set("b", "v" * 40_000)
        writer.set("a", "v" * 65_000)
    assert len(cache.get(":w").elements["a"]) == 65_000
    cache.put(":long name", b"x", {"n" * 19_900: "v"})
    assert cache.get(":long name").elements["n" * 19_900] == b"v"


def test_a_body_is_bytes(cache):
    for body in ("text", 5, None):
        with pytest.raises((TypeError, AttributeError)):
            cache.put(KEY, body)
    with pytest.raises(cache2.NotFound):
        cache.get(KEY)
    cache.put(KEY, b"x")


def test_a_damaged_body(cache, path):
    for length, at in ((5, 0), (600_000, 300_000)):
        cache.put(KEY, bytes(length))
        with open(os.path.join(path, "entries", cache2.name_of(KEY)), "r+b") as file:
            file.seek(at)
            file.write(b"X")
        with pytest.raises(cache2.Damaged) as told:
            cache.get(KEY)
        assert told.value.chunk == at // CHUNK
        with pytest.raises(cache2.Damaged):
            cache.open(KEY)
        with pytest.raises(cache2.Damaged):
            cache.use(KEY)
        assert [(one.name, one.what) for one in cache.verify()] == [(cache2.name_of(KEY), "damaged")]
    cache.put(KEY, b"new")
    assert cache.get(KEY).read() == b"new"


def test_the_rights_of_a_new_folder(cache, path):
    assert stat.S_IMODE(os.stat(path).st_mode) == 0o700


def test_dump_and_load(cache, room):
    bodies = {f":{number}": made(number * 40_000, number) for number in range(20)}
    for key, body in bodies.items():
        cache.put(key, body, {"key": key})
    reader = cache.open(":3")
    with open(os.path.join(room, "dump"), "w+b") as dump:
        with pytest.raises(cache2.Busy):
            cache.dump(dump)
        reader.close()
        cache.dump(dump)
        size = dump.tell()
        for name, cut, stored in (("whole", size, 20), ("cut", size - 1, 20), ("half", size // 2, None)):
            dump.truncate(cut)
            dump.seek(0)
            with cache2.open(os.path.join(room, name)) as other:
                if name == "whole":
                    assert other.load(dump) == 20
                else:
                    with pytest.raises(cache2.BadDump) as told:
                        other.load(dump)
                    assert told.value.item == len(other.list()) + 1
                if stored:
                    assert {key: other.get(key).read() for key in other.keys()} == bodies
    assert cache.get(":3").read() == bodies[":3"]


def test_the_state_of_the_index(path, cache):
    for number in range(3):
        cache.put(f":{number}", b"x")
    assert cache.rebuild() == 3
    assert cache.update(1) == 0
    os.makedirs(path + "2/entries")
    for name in os.listdir(os.path.join(path, "entries")):
        os.link(os.path.join(path, "entries", name), os.path.join(path + "2", "entries", name))
    with cache2.open(path + "2") as other:
        assert other.has(":1") is None
        assert other.update(2) == 1
        assert other.update(9) == 0
        assert other.has(":1") is True
