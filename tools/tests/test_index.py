"""The files of the index that the program leaves in real folders, byte by byte.

What is expected is computed by cachelib, from the formats as docs/FORMATS.md has them, and by nothing of the
program."""
import os
import struct

import pytest

from cachelib.elements import alternative
from cachelib.entries import NO_EXPIRATION, file_with, header_bytes
from cachelib.hashes import CHUNK, hash_of
from cachelib.index import FILLED, NO_TIME, index_bytes, journal_bytes, record_bytes
from cachelib.keys import digest_of, name_of
from machine_module import frecency_after
from support import Talk, made_file

EXAMPLE = ":https://example.com/"
EMPTY_HASH = bytes.fromhex("BD49D10D")


# ---- the formats, in terms of keys

def entry_file(key, body=b"", moment=1000, elements=(), frecency=None, uses=(1, None), flags=0):
    """The file of a finished entry. Of its uses there are the count, and the moment of the last where it is another."""
    count, fetched = uses
    numbers = [moment if one is None else one for one in (count, fetched, moment, frecency, NO_EXPIRATION)]
    return made_file(3, key.encode(), body, b"".join(n + b"\0" + v + b"\0" for n, v in elements), flags, numbers)


def record_of(key, file, frecency=1000, origin="", on_start=NO_TIME, on_stop=NO_TIME, content=0, more_flags=0):
    """The record of an entry file."""
    flags = FILLED | more_flags | (len(file) + 1023) // 1024
    return record_bytes(digest_of(key), frecency, origin.encode(), on_start, on_stop, content, flags)


def removed(key):
    """The record that says that an entry is gone."""
    return digest_of(key) + bytes(12) + b"\xff" * 4 + b"\0" + bytes.fromhex("A0000000")


def index_file(records, moment, flag):
    """An index as the program writes it, in name order."""
    return index_bytes(sorted(records), moment, flag)


def journal_file(records):
    return journal_bytes(sorted(records))


def list_text(records):
    lines = [f"records {len(records)}\n"]
    for r in sorted(records):
        frecency, on_start, on_stop, content, flags = struct.unpack(">I8xHHBI", r[20:])
        name, origin = r[:20].hex().upper(), r[24:32].hex().upper()
        lines.append(f"{name} {frecency} {origin} {on_start} {on_stop} {content} {flags:08X}\n")
    return "".join(lines).encode()


def victims(records, limit, in_use=()):
    """The records that have to go, in their order."""
    def size(record):
        return int.from_bytes(record[37:], "big") & 0xFFFFFF

    def order(record):
        frecency = int.from_bytes(record[20:24], "big")
        return (frecency or 1 << 32, record[:20])

    left, gone = sum(map(size, records)), []
    for record in sorted(records, key=order):
        pinned = int.from_bytes(record[37:], "big") & 0x04000000
        if left <= limit:
            break
        if not pinned and record[:20] not in in_use:
            left -= size(record)
            gone.append(record)
    return gone


def evict_text(records):
    return f"evicted {len(records)}\n".encode() + "".join(record[:20].hex().upper() + "\n"
                                                          for record in records).encode()


def new_entries(keys):
    """The script that makes entries with empty bodies."""
    return "".join(f"create 0 {key}\nclose 0\n" for key in keys).encode()


def empty_records(keys, moment=1000):
    return [record_of(key, entry_file(key, b"", moment), moment) for key in keys]


def index_of(cache):
    """The bytes of both files."""
    return cache.read("index"), cache.read("index.log")


@pytest.fixture
def cache(cache):
    os.makedirs(cache.at("entries"))
    return cache


# ---- what is tried

def test_an_empty_script(cache):
    assert cache.run("run") == (0, b"")
    assert index_of(cache) == (index_file([], 1000, 0), EMPTY_HASH)
    assert cache.read("index").hex().upper() == "0000000A000003E80000000000000000BD49D10D"
    assert cache.run("run", given=b"at 5\nstate\nfly\n", now=5) == (3, b"ok\nready\nscript 3\n")
    assert cache.run("run", given=b"state\n", now=6) == (0, b"ready\n")


def test_one_entry(cache):
    assert cache.run("put", EXAMPLE, given=b"hello") == (0, b"ok\n")
    record = record_of(EXAMPLE, entry_file(EXAMPLE, b"hello"))
    assert index_of(cache) == (index_file([record], 1000, 0), EMPTY_HASH)
    assert len(cache.read("index")) == 61
    line = f"records 1\n{name_of(EXAMPLE)} 1000 DA39A3EE5E6B4B0D 65535 65535 0 80000001\n"
    assert cache.run("list", now=1001) == (0, line.encode())
    assert cache.run("doom", EXAMPLE, now=1001) == (0, b"ok\n")
    assert cache.run("rebuild", now=1004) == (0, b"rebuilt 0\n")


def test_rebuild_in_a_session(cache):
    keys = [f":https://x/{i}" for i in range(3)]
    cache.put({key: entry_file(key) for key in keys})
    talk = Talk(cache)
    assert talk.say(b"rebuild\n") == b"rebuilt 3\n"
    assert index_of(cache) == (index_file(empty_records(keys), 1000, 1), None)
    assert len(cache.read("index")) == 143
    assert talk.end() == (0, b"")
    assert cache.read("index") == index_file(empty_records(keys), 1000, 0)


@pytest.mark.parametrize("many", [299, 300])
def test_few_and_many(cache, many):
    """A trusted index, then 299 or 300 new entries in one session."""
    keys = [f":https://new/{i}" for i in range(many)]
    cache.run("put", EXAMPLE, given=b"hello")
    first, new = record_of(EXAMPLE, entry_file(EXAMPLE, b"hello")), empty_records(keys, 2000)
    talk = Talk(cache, 2000)
    assert talk.say(new_entries(keys), 2 * many) == b"ok\n" * 2 * many
    as_it_was = index_file([first], 1000, 1)
    assert cache.read("index") == as_it_was
    assert talk.say(b"flush\n") == b"ok\n"
    assert cache.read("index") == (as_it_was if many < 300 else index_file([first, *new], 2000, 1))
    assert talk.end() == (0, b"")
    few = index_file([first], 1000, 0), journal_file(new)
    assert index_of(cache) == (few if many < 300 else (index_file([first, *new], 2000, 0), EMPTY_HASH))
    assert len(cache.read("index.log")) == (12263 if many < 300 else 4)
    assert cache.run("list", now=2001) == (0, list_text([first, *new]))


def test_a_whole_index_at_the_end(cache):
    keys = [f":https://new/{i}" for i in range(300)]
    assert cache.run("run") == (0, b"")
    assert cache.run("run", given=new_entries(keys), now=2000) == (0, b"ok\n" * 600)
    assert cache.read("index") == index_file(empty_records(keys, 2000), 2000, 0)


def test_update_in_slices(cache):
    keys = sorted((f":https://slice/{i}" for i in range(5)), key=digest_of)
    cache.put({key: entry_file(key) for key in keys})
    talk = Talk(cache)
    for command, reply in (
        ("state", "updating 5"), ("step 2", "updating 3"),
        (f"create 0 {keys[0]}", "ok"), ("close 0", "ok"), (f"doom {keys[3]}", "ok"), ("state", "updating 2"),
        (f"has {keys[2]}", "unknown"), ("create 0 :https://new/", "ok"), ("close 0", "ok"),
        ("has :https://new/", "yes"),
    ):
        assert talk.say(f"{command}\n".encode()) == f"{reply}\n".encode(), command
    assert cache.read("index") is None
    for command, reply in (("step 9", "ready"), (f"has {keys[2]}", "yes"), (f"has {keys[3]}", "no")):
        assert talk.say(f"{command}\n".encode()) == f"{reply}\n".encode(), command
    left = empty_records([*keys[:3], keys[4], ":https://new/"])
    assert talk.say(b"list\n", 6) == list_text(left)
    assert talk.end() == (0, b"")
    assert cache.read("index") == index_file(left, 1000, 0)


def test_an_update_that_did_not_end(cache):
    keys = sorted((f":https://slice/{i}" for i in range(4)), key=digest_of)
    cache.put({key: entry_file(key) for key in keys})
    assert cache.run("run", given=b"step 2\n") == (0, b"updating 2\n")
    assert cache.read("index.log") is None
    assert cache.run("run", given=b"state\n", now=1001) == (0, b"updating 4\n")
    assert cache.run("list", now=1002) == (0, list_text(empty_records(keys)))
    assert cache.run("run", given=b"state\n", now=1003) == (0, b"ready\n")


# A script of 46,128 bytes, and what it was compiled to.
CODE = bytes(range(32, 80)) * 961 + bytes(range(80, 120)) * 1200
KIND_OF_CODE = b"1;46128,javascript/moz-script-bytecode-1"


def browser_entries():
    """Entries as the browser writes them, with their records."""
    style = "O^partitionKey=%28https%2Cexample.com%29,:https://example.com/style.css"
    elements = [(b"security-info", b"AAAAAAAA"), (b"request-method", b"GET"),
                (b"response-head", b"HTTP/1.1 200 OK\r\n"),
                (b"ctid", b"5"), (b"net-response-time-onstart", b"12"), (b"net-response-time-onstop", b"15")]
    plain, long_one = "a,:https://example.org/", ":https://example.net/video"
    code = "O^partitionKey=%28https%2Cexample.com%29,:https://example.com/code.js"
    files = {
        style: entry_file(style, bytes(1000), 1700000000, elements, 500),
        plain: entry_file(plain, b"", 1700000001, [(b"request-method", b"GET")], 0),
        long_one: entry_file(long_one, bytes(range(256)) * 1200, 1700000002, [(b"alt-data", b"1;0,x")], 7),
        code: entry_file(code, CODE, 1700000002, elements[:3] + [(b"alt-data", KIND_OF_CODE)], 400),
    }
    origin = "^partitionKey=%28https%2Cexample.com%29"
    records = [
        record_of(style, files[style], 500, origin, 12, 15, 5),
        record_of(plain, files[plain], 0, more_flags=0x40000000),
        record_of(long_one, files[long_one], 7, more_flags=0x02000000),
        record_of(code, files[code], 400, origin, more_flags=0x02000000),
    ]
    return files, records


def shows_both_bodies(cache, key, body, value):
    """The main body and the alternative data of an entry are those that its element tells of, and nothing is wrong with
    its file."""
    main, kind, data = alternative(value, body)
    assert cache.run("getalt", key, now=1700000005) == (0, b"alt %d %s\n%s\n" % (len(data), kind, data))
    assert cache.run("main", key, now=1700000005) == (0, b"main %d\n%s\n" % (len(main), main))
    assert cache.run("verify", now=1700000005) == (0, b"findings 0\n")


def test_data_after_a_body(cache):
    """The file of an entry with its data is that of the format, and its record is in the list before the index is
    written anew."""
    body, data = CODE[:46128], CODE[46128:]
    script = b"create 0 %s\nappend 0 %d\n%s\nfinish 0\nputalt 0 %d %s\n%s\nlist\n"
    script %= (EXAMPLE.encode(), len(body), body, len(data), KIND_OF_CODE[8:], data)
    file = entry_file(EXAMPLE, CODE, 1000, [(b"alt-data", KIND_OF_CODE)])
    listed = list_text([record_of(EXAMPLE, file, more_flags=0x02000000)])
    assert cache.run("run", given=script) == (0, b"ok\n" * 4 + listed)
    assert cache.read(cache.entry(EXAMPLE)) == file
    shows_both_bodies(cache, EXAMPLE, CODE, KIND_OF_CODE)


@pytest.mark.parametrize("flag, journaled", [
    pytest.param(0, 0, id="closed clean"), pytest.param(0, 1, id="closed clean, with a journal"),
    pytest.param(1, None, id="killed")])
def test_a_folder_of_the_browser(cache, flag, journaled):
    files, records = browser_entries()
    cache.put(files)
    cache.write(index_file(records[journaled or 0:], 1700000003, flag), "index")
    if journaled is not None:
        cache.write(journal_file(records[:journaled]), "index.log")
    before = cache.files("entries")
    state = b"ready\n" if flag == 0 else b"updating 4\n"
    assert cache.run("run", given=b"state\n", now=1700000004) == (0, state)
    assert cache.run("list", now=1700000004) == (0, list_text(records))
    shows_both_bodies(cache, list(files)[-1], CODE, KIND_OF_CODE)
    assert cache.files("entries") == before


FILES, RECORDS = browser_entries()
GOOD = index_file(RECORDS, 1000, 0)
BAD_INDEXES = {
    "no index": None,
    "an empty index": b"",
    "a short index": GOOD[:15],
    "another version": struct.pack(">I", 9) + GOOD[4:],
    "an index cut within a record": GOOD[:40],
    "an index with a wrong hash": GOOD[:-1] + bytes([GOOD[-1] ^ 1]),
    "an index with a name twice": index_bytes([RECORDS[0]] * 2, 1000, 0),
    "a dirty index": index_file(RECORDS, 1000, 0x01000000),
}
BAD_LOGS = {"no journal": None, "an empty journal": b"", "a journal of other bytes": b"no journal at all",
            "an empty good journal": EMPTY_HASH}
FOREIGN = {"entries/readme": b"foreign", "entries/" + name_of(EXAMPLE).lower(): b"lower case", "doomed/007": b"7",
           "doomed/-1": b"-", "doomed/4294967296": b"large", "trash/1": b"trash", "index.old": b"old"}


@pytest.mark.parametrize("log", BAD_LOGS)
@pytest.mark.parametrize("index", BAD_INDEXES)
def test_bad_bytes_beside_foreign_files(cache, index, log):
    cache.put(FILES)
    for path, data in {**FOREIGN, "index": BAD_INDEXES[index], "index.log": BAD_LOGS[log]}.items():
        if data is not None:
            cache.write(data, path)
    before = cache.files("entries")
    assert cache.run("run", given=b"state\n", now=2000) == (0, b"updating 4\n")
    assert cache.run("list", now=2000) == (0, list_text(RECORDS))
    assert cache.files("entries") == before
    assert {path: cache.read(path) for path in FOREIGN} == FOREIGN


def many_entries(cache, count):
    """Entries of other sizes and frecencies each, closed clean; their files, and their records."""
    files, records = {}, {}
    for i in range(count):
        key, frecency = f":https://many/{i}", i * 7919 % 13 * 1000
        files[key] = entry_file(key, bytes(i * 104729 % 5000), 1000, (), frecency)
        records[key] = record_of(key, files[key], frecency)
    cache.put(files)
    assert cache.run("rebuild") == (0, b"rebuilt %d\n" % count)
    return files, records


@pytest.mark.parametrize("count", [0, 299, 300, 420])
def test_evictions(cache, count):
    """To limits above, at and below what all take; with few and with many victims."""
    files, records = many_entries(cache, 420)
    everything = list(records.values())
    # The least limit that so many victims are enough for.
    limit = sum(int.from_bytes(record[37:], "big") & 0xFFFFFF for record in victims(everything, 0)[count:])
    gone = victims(everything, limit)
    assert len(gone) == count
    assert cache.run("evict", str(limit), now=2000) == (0, evict_text(gone))
    names = {record[:20] for record in gone}
    left = {key: record for key, record in records.items() if record[:20] not in names}
    assert cache.files("entries") == {"entries/" + name_of(key): files[key] for key in left}
    if 0 < count < 300:
        changed = [removed(key) for key in records if key not in left]
        assert index_of(cache) == (index_file(everything, 1000, 0), journal_file(changed))
    elif count >= 300:
        assert index_of(cache) == (index_file(list(left.values()), 2000, 0), EMPTY_HASH)
    assert cache.run("list", now=2001) == (0, list_text(list(left.values())))
    assert cache.run("evict", "4294967295", now=2002) == (0, b"evicted 0\n")


def test_entries_that_stay(cache):
    """Those that are pinned, and those that are open."""
    pinned, opened, neither, new = [f":https://stay/{one}" for one in ("pinned", "open", "not", "new")]
    cache.put({pinned: entry_file(pinned, flags=1), opened: entry_file(opened), neither: entry_file(neither)})
    talk = Talk(cache)
    assert talk.say(f"open 0 {opened}\n".encode()) == b"ok\n"
    assert talk.say(f"create 1 {new}\n".encode()) == b"ok\n"
    assert talk.say(b"evict 0\n", 2) == evict_text(empty_records([neither]))
    # That ended the update.
    assert talk.say(b"state\n") == b"ready\n"
    assert talk.say(b"close 0\n") == b"ok\n"
    assert talk.say(b"evict 0\n", 2) == evict_text(empty_records([opened]))
    assert talk.say(b"close 1\n") == b"ok\n"
    assert talk.end() == (0, b"")
    left = [record_of(pinned, entry_file(pinned, flags=1), more_flags=0x04000000), record_of(new, entry_file(new))]
    assert cache.run("list", now=1001) == (0, list_text(left))


def test_records_without_files(cache):
    """Another program removed two files beside a trusted index."""
    files, records = many_entries(cache, 5)
    for key in list(files)[:2]:
        os.remove(cache.entry(key))
    assert cache.run("evict", "0", now=2000) == (0, evict_text(victims(list(records.values()), 0)))
    assert cache.files("entries") == {}
    assert cache.run("list", now=2000) == (0, b"records 0\n")


@pytest.mark.parametrize("frecency, moment", [(1000, 1000), (0, 5000), (1000, 200000), (4294967295, 7),
                                              (1010800, 1000000)])
def test_a_use(cache, frecency, moment):
    """The file and the record of an entry that was used once more."""
    key = ":https://used/"
    cache.put({key: entry_file(key, b"body", 1000, (), frecency)})
    assert cache.run("rebuild") == (0, b"rebuilt 1\n")
    assert cache.run("run", given=f"open 0 {key}\nuse 0\n".encode(), now=moment) == (0, b"ok\nok\n")
    after = frecency_after(frecency, moment)
    file = entry_file(key, b"body", 1000, (), after, (2, moment))
    assert cache.files("entries") == {"entries/" + name_of(key): file}
    assert cache.run("list", now=moment) == (0, list_text([record_of(key, file, after)]))


def wrong_files():
    """A file for each check that an entry file may fail, by the word that names the check; each under a key of its
    own."""
    def header(key, version=3, size=None):
        return header_bytes(version, (1, 1000, 1000, 1000, NO_EXPIRATION), len(key) if size is None else size, 0)

    def key(word):
        return f":https://wrong/{word}".encode()

    def plain(word, more=b""):
        return file_with(b"", header(key(word)) + key(word) + b"\0" + more)

    wrong_hash = plain("hash")
    return {
        "short": b"hello",
        "too-big": bytes(262149),
        "version": file_with(b"", header(key("version"), version=4) + key("version") + b"\0"),
        "key-end": file_with(b"", header(key("key-end"), size=400) + key("key-end") + b"\0"),
        "hash": bytes([wrong_hash[0] ^ 1]) + wrong_hash[1:],
        "key-form": file_with(b"", header(b"x") + b"x\0"),
        "elements": plain("elements", b"name\0"),
        "wrong-name": plain("other"),
    }


def findings(found):
    """What `verify` prints of these lines, by the names of the keys."""
    lines = [f"{name} {line}\n" for name in sorted(found) for line in found[name]]
    return f"findings {len(lines)}\n{''.join(lines)}".encode()


def damaged_and_others():
    """Files, records and findings of entries that are right, damaged, missing in the index, or others there."""
    files, records, lines = {}, [], {}
    for word in ("right", "damaged", "missing", "differs", "both"):
        key, body = f":https://some/{word}", bytes(CHUNK) + word.encode()
        file, found = entry_file(key, body), []
        if word in ("damaged", "both"):
            changed = body[:CHUNK] + b"D" + body[CHUNK + 1:]
            file = changed + file[len(body):]
            found.append(f"damaged 1 {low_hash(body[CHUNK:])} {low_hash(changed[CHUNK:])}")
        if word in ("missing", "both"):
            found.append("missing")
        else:
            records.append(record_of(key, file, 999 if word == "differs" else 1000))
        if word == "differs":
            found.append("differs")
        files[key], lines[name_of(key)] = file, found
    return files, records, lines


def low_hash(chunk):
    """The hash of a chunk as `verify` prints it."""
    return hash_of(chunk)[2:].hex().upper()


def test_verify(cache):
    files, records, lines = damaged_and_others()
    for word, file in wrong_files().items():
        files[f":https://wrong/{word}"], lines[name_of(f":https://wrong/{word}")] = file, [f"unfit {word}"]
    cache.put(files)
    gone, unfit, short = ":https://some/gone", ":https://wrong/hash", ":https://wrong/short"
    records += empty_records([gone, unfit])
    lines[name_of(gone)] = ["extra"]
    lines[name_of(unfit)].append("extra")
    cache.write(index_file(records, 1000, 0), "index")
    cache.write(EMPTY_HASH, "index.log")
    before = cache.files("entries")
    assert cache.run("verify", now=2000) == (7, findings(lines))
    assert cache.files("entries") == before
    assert cache.read("index") == index_file(records, 1000, 0)
    assert cache.run("rebuild", now=2000) == (0, b"rebuilt 5\n")
    of_files = {name: [line for line in found if line.split()[0] in ("unfit", "damaged")] for name,
                found in lines.items()}
    assert cache.run("verify", now=2000) == (7, findings(of_files))
    # One that is being written is left out.
    talk = Talk(cache, 3000)
    assert talk.say(f"create 0 {short}\n".encode()) == b"ok\n"
    del of_files[name_of(short)]
    assert talk.say(b"verify\n", sum(map(len, of_files.values())) + 1) == findings(of_files)
    assert talk.end() == (0, b"")


def test_verify_finds_nothing(cache):
    assert cache.run("put", EXAMPLE, given=b"hello") == (0, b"ok\n")
    assert cache.run("verify") == (0, b"findings 0\n")


def test_a_long_body(cache):
    """A body of 200 chunks, of which a byte of the 150th is changed."""
    count, place = 200, 149
    part = bytes(number % 251 for number in range(CHUNK))
    changed = b"D" + part[1:]
    assert cache.run("put", EXAMPLE, given=part * count) == (0, b"ok\n")
    file = cache.read(cache.entry(EXAMPLE))
    cache.write(part * place + changed + file[(place + 1) * CHUNK:], cache.entry(EXAMPLE))
    damaged = f"damaged {place} {low_hash(part)} {low_hash(changed)}\n"
    assert cache.run("verify", now=2000) == (7, f"findings 1\n{name_of(EXAMPLE)} {damaged}".encode())
    assert cache.run("get", EXAMPLE, now=2000) == (7, damaged.encode())


def test_fill(cache):
    """Entries of many sizes are made, and those that were made first are evicted, until half of all KB are left."""
    x, sizes = 7, []
    for number in range(200):
        x = (1103515245 * x + 12345) % 2 ** 31
        # The body; the metadata's hash, one of a chunk unless there is none, the header, the key, and the offset.
        body, key = x // 65536, f":https://fill.example/{number}"
        sizes.append((body + 4 + (2 if body else 0) + 32 + len(key) + 1 + 4 + 1023) // 1024)
    evicted = 0
    while sum(sizes[evicted:]) > sum(sizes) // 2:
        evicted += 1
    lines = f"made 200\nevicted {evicted}\nfindings 0\nrecords {200 - evicted}\n"
    assert cache.run("fill", "200", "7") == (0, lines.encode())
    assert len(cache.files("entries")) == 200 - evicted
    assert cache.run("verify", now=2000) == (0, b"findings 0\n")
