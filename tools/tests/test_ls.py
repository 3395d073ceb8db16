"""tools/ls: what it lists of folders and dumps, which entries, in which order and in which form."""
import csv
import io
import json
import os
import pty

import pytest

from support import dump_of, elements_with, made_file, name_in, run_tool

PAGE = b":https://example.com/"
STYLE = b"O^partitionKey=%28https%2Cexample.org%29,:https://www.example.com/style.css"
IMAGE = b":http://example.net:8080/pear.png"
# The moments 2026-11-01, one day later and one day before.
NOVEMBER = 1793491200
ENTRIES = (
    (PAGE, b"<p>", (2, NOVEMBER, 900, 900, 0xFFFFFFFF), elements_with(b"text/html; charset=utf-8")),
    (STYLE, b"x" * 4000, (1, NOVEMBER + 86400, 900, 900, 0), elements_with(b"text/css", b"Content-Encoding: gzip")),
    (IMAGE, b"p" * 50, (1, NOVEMBER - 86400, 900, 900, 5), elements_with(b"image/png", status=404)),
)
HOSTILE = b":https://example.com/\t\x1b[31m\r\n\xff\\\xe2\x80\xae|"


@pytest.fixture
def cache(folder):
    """The entries in files of different versions."""
    for version, (key, body, numbers, elements) in zip((4, 3, 1), ENTRIES):
        folder.add(key, body, elements, version, numbers)
    return folder


def urls(*words, given=b""):
    """The addresses that are listed, in their order."""
    status, out, lines = run_tool("ls", *words, given=given)
    assert (status, lines) == (0, [])
    return [line.split("\t")[4] for line in out.decode().splitlines()]


def test_lines(cache):
    status, out, lines = run_tool("ls", cache.room)
    assert (status, lines) == (0, [])
    assert [line.split("\t") for line in out.decode().splitlines()] == [
        ["50", "image/png", "404", "2026-10-31T00:00:00Z", "http://example.net:8080/pear.png", "", name_in(IMAGE),
         IMAGE.decode()],
        ["3", "text/html", "200", "2026-11-01T00:00:00Z", "https://example.com/", "", name_in(PAGE), PAGE.decode()],
        ["4000", "text/css", "200", "2026-11-02T00:00:00Z", "https://www.example.com/style.css", "on example.org",
         name_in(STYLE), STYLE.decode()],
    ]


def test_dump_gives_the_same_lines(cache):
    assert run_tool("ls", given=dump_of(ENTRIES)) == run_tool("ls", cache.room)


IN_ORDER = {"url": (IMAGE, PAGE, STYLE), "size": (STYLE, IMAGE, PAGE), "used": (STYLE, PAGE, IMAGE),
            "type": (IMAGE, STYLE, PAGE),
            "host": (PAGE, IMAGE, STYLE), "status": (PAGE, STYLE, IMAGE),
            "name": sorted((PAGE, STYLE, IMAGE), key=name_in)}


@pytest.mark.parametrize("order", IN_ORDER)
def test_orders(cache, order):
    wanted = [key.decode().partition(":")[2] for key in IN_ORDER[order]]
    assert urls(cache.room, "--sort", order) == wanted
    assert urls(cache.room, "--sort", order, "--reverse") == wanted[::-1]


@pytest.mark.parametrize("words, wanted", [
    (("--type", "image/*"), (IMAGE,)), (("--type", "text/CSS"), (STYLE,)), (("--type", "text"), ()),
    (("--host", "example.com"), (PAGE, STYLE)), (("--host", "WWW.example.com"), (STYLE,)),
    (("--host", "ample.com"), ()),
    (("--since", "2026-11-01"), (PAGE, STYLE)), (("--since", "2026-11-01T00:00:01Z"), (STYLE,)),
    (("--since", "2026-11-01T01:00+01:00"), (PAGE, STYLE)), (("--url", "PEAR"), (IMAGE,)),
    (("--url", "example.org"), ()),
    (("--url", "example", "--type", "*/*", "--host", "example.net"), (IMAGE,)),
])
def test_filters(cache, words, wanted):
    assert urls(cache.room, *words) == [key.decode().partition(":")[2] for key in wanted]


def test_json(cache):
    status, out, _ = run_tool("ls", cache.room, "--json", "--type", "text/css")
    assert (status, json.loads(out)) == (0, {
        "name": name_in(STYLE), "key": STYLE.decode(), "url": "https://www.example.com/style.css",
        "partition": "on example.org",
        "host": "www.example.com", "size": 4000, "type": "text/css", "status": 200, "method": "GET", "encoding": "gzip",
        "alternative_size": 0, "alternative_kind": "", "uses": 1, "used": "2026-11-02T00:00:00Z",
        "changed": "1970-01-01T00:15:00Z",
        "expires": "at once", "pinned": False, "version": 3})


def test_sizes_leave_compiled_code_out(folder):
    folder.add(PAGE, b"helloXYZ", b"alt-data\x001;5,wasm-1\0")
    _, out, _ = run_tool("ls", folder.room, "--json")
    told = json.loads(out)
    assert (told["size"], told["alternative_size"], told["alternative_kind"]) == (5, 3, "wasm-1")


def test_csv(cache):
    status, out, _ = run_tool("ls", cache.room, "--csv")
    rows = list(csv.reader(io.StringIO(out.decode())))
    assert (status, rows[0], len(rows)) == (0, ["size", "type", "status", "used", "url", "partition", "name", "key"], 4)
    assert rows[1] == ["50", "image/png", "404", "2026-10-31T00:00:00Z", "http://example.net:8080/pear.png", "",
                       name_in(IMAGE), IMAGE.decode()]


def test_csv_has_no_formulas(folder):
    for number, kind in enumerate((b"=1+1", b"+1", b"-1", b"@x")):
        folder.add(b":=%d" % number, elements=elements_with(kind))
    rows = list(csv.reader(io.StringIO(run_tool("ls", folder.room, "--csv")[1].decode())))
    assert [row[1] for row in rows[1:]] == ["'=1+1", "'+1", "'-1", "'@x"]
    assert [row[4] for row in rows[1:]] == ["'=0", "'=1", "'=2", "'=3"]


def in_terminal(*words):
    """What a terminal of 80 columns is given."""
    mine, its = pty.openpty()
    try:
        status, _, lines = run_tool("ls", *words, stdout=its, env={"COLUMNS": "80"})
        assert (status, lines) == (0, [])
    finally:
        os.close(its)
    shown = b""
    try:
        while piece := os.read(mine, 65536):
            shown += piece
    except OSError:
        pass
    os.close(mine)
    return shown.decode().replace("\r\n", "\n")


def test_table(cache):
    rows = in_terminal(cache.room, "--sort", "size").splitlines()
    assert rows[0].split() == ["SIZE", "TYPE", "LAST", "USED", "URL"]
    assert rows[1].split()[:3] == ["4.0", "kB", "text/css"]
    assert max(map(len, rows)) <= 80
    long = in_terminal(cache.room, "--long").splitlines()
    assert long[1].endswith(f"{name_in(IMAGE)}  {IMAGE.decode()}")


@pytest.mark.parametrize("form", [(), ("--json",), ("--csv",), ("--long",)])
def test_hostile_keys_stay_on_their_line(folder, form):
    """A malformed key is listed, too: Firefox may have written anything."""
    keys = [HOSTILE, b"no colon\n\x07", b":\x00https://x/", b"O^partitionKey=%28https%2C%0A%1B%29,:https://x/"]
    for key in keys:
        folder.add(key, elements=elements_with(b"text/\x1b[2J\ttsv"))
    status, out, lines = run_tool("ls", folder.room, *form)
    head = 1 if form in (("--csv",), ("--long",)) else 0
    assert (status, lines, len(out.splitlines())) == (0, [], len(keys) + head)
    assert not set(out) & (set(range(32)) - {9, 10} | {127})
    assert all(len(line.split(b"\t")) == 8 for line in out.splitlines()) or form


def test_exact_keys_of_json(folder):
    folder.add(HOSTILE)
    folder.add(b":https://example.com/\xe2\x80\xae\\")
    told = [json.loads(line) for line in run_tool("ls", folder.room, "--json", "--sort", "name")[1].splitlines()]
    keys = {one.get("key", "").encode() or bytes.fromhex(one["key_hex"]) for one in told}
    assert keys == {HOSTILE, b":https://example.com/\xe2\x80\xae\\"}


def test_what_is_no_entry_is_named(cache):
    bad = {"0" * 40: (b"", "empty"), "1" * 40: (b"\xff" * 4, "cut"), "2" * 40: (b"\x80\0\0\5" * 20, "encrypted"),
           "3" * 40: (made_file(3), "unfit (wrong name)"), "4" * 40: (made_file(5), "version 5")}
    for name, (data, _) in bad.items():
        cache.put(name, data)
    os.mkdir(cache.path("5" * 40))
    cache.put("foreign", b"x")
    status, out, lines = run_tool("ls", cache.room)
    assert (status, len(out.splitlines())) == (1, 3)
    assert lines == [f"ls: {name}: {why}" for name, (_, why) in bad.items()] + [f"ls: {'5' * 40}: no file"]


def test_a_cut_dump(cache):
    status, out, lines = run_tool("ls", given=dump_of(ENTRIES)[:-1])
    assert (status, len(out.splitlines()), lines) == (1, 3, ["ls: item 4: the dump ends within it"])


@pytest.mark.parametrize("words, why", [
    (("nowhere",), "nowhere: no folder of a cache: it has no folder `entries`"),
    (("--since", "yesterday"), "argument --since: 'yesterday' is no date such as 2026-11-01 or 2026-11-01T12:30"),
    (("--sort", "colour"), "argument --sort: invalid choice: 'colour'"),
    (("a", "b"), "unrecognized arguments: b"),
])
def test_refusals(words, why):
    status, out, lines = run_tool("ls", *words)
    assert (status, out, len(lines)) == (2, b"", 1)
    assert lines[0].startswith(f"ls: {why}")


def test_a_profile_is_told_from_its_cache(cache, tmp_path):
    os.symlink(cache.room, tmp_path / "cache2")
    status, _, lines = run_tool("ls", str(tmp_path))
    says = f"ls: {tmp_path}: no folder of a cache: it has no folder `entries`, but {tmp_path}/cache2 has one"
    assert (status, lines) == (2, [says])


def test_full_output(cache):
    with open("/dev/full", "wb") as full:
        assert run_tool("ls", cache.room, stdout=full)[::2] == (2, ["ls: standard output: No space left on device"])


def test_only_reads(cache):
    before = {name: os.stat(cache.path(name)).st_mtime_ns for name in os.listdir(os.path.join(cache.room, "entries"))}
    run_tool("ls", cache.room)
    assert before == {name: os.stat(cache.path(name)).st_mtime_ns
                      for name in os.listdir(os.path.join(cache.room, "entries"))}
    assert os.listdir(cache.room) == ["entries"]
