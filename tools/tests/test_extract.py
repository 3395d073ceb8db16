"""tools/extract: which files it writes for which entries, and that no address, type or packing leads it elsewhere."""
import gzip
import os
import shutil
import stat
import subprocess
import zlib

import pytest

from support import NUMBERS, digest, dump_of, elements_with, files_in, name_in, run_tool

STYLE = b"O^partitionKey=%28https%2Cexample.org%29,:https://www.example.com/css/style.css?v=3"
TEXT = b"text that is packed\n" * 5000


@pytest.fixture
def to(tmp_path):
    """A folder that is not there yet."""
    return str(tmp_path / "to")


def extracted(folder, to, *words):
    """The files of the bodies, where all goes well."""
    status, out, lines = run_tool("extract", folder.room, to, *words)
    assert (status, lines) == (0, [])
    files = files_in(to)
    listed = files.pop("entries.tsv").decode().splitlines()
    bodies = [name for name in files if not name.endswith((".alt", ".headers"))]
    assert sorted(line.split("\t")[0] for line in listed) == sorted(bodies)
    assert out == b"extracted %d\n" % len(bodies)
    return files


def test_names_and_bodies(folder, to):
    folder.add(STYLE, b"body {}", elements_with(b"text/css"), 3)
    folder.add(b":https://example.com/", b"<p>", elements_with(b"text/html; charset=utf-8"), 4)
    folder.add(b":https://example.com/pear.jpeg", b"jpeg", elements_with(b"image/jpeg"), 2)
    folder.add(b":https://example.com/pear.php?id=3", b"png", elements_with(b"image/png"), 1)
    folder.add(b":https://example.com/setup.exe", b"MZ", elements_with(b"application/octet-stream"))
    folder.add(b":https://example.com/api/", b"{}", elements_with(b"application/json"))
    folder.add(b":about:what", b"?")
    assert extracted(folder, to) == {
        "www.example.com/css_style_v_3.css": b"body {}", "example.com/index.html": b"<p>",
        "example.com/pear.jpeg": b"jpeg", "example.com/pear.php_id_3.png": b"png", "example.com/setup.exe": b"MZ",
        "example.com/api.json": b"{}", "no-site/what.bin": b"?"}


def test_rights(folder, to):
    folder.add(b":https://example.com/a")
    extracted(folder, to)
    assert stat.S_IMODE(os.stat(to).st_mode) == 0o700
    assert stat.S_IMODE(os.stat(f"{to}/example.com/a.bin").st_mode) == 0o600


def test_dump_gives_the_same_files(folder, to, tmp_path):
    entries = [(b":https://example.com/%d.txt" % number, os.urandom(number), NUMBERS, elements_with(b"text/plain"))
               for number in (0, 1, 262143, 262145, 600000)]
    for key, body, _, elements in entries:
        folder.add(key, body, elements)
    wanted = {f"example.com/{len(body)}.txt": digest(body) for _, body, _, _ in entries}
    assert {name: digest(body) for name, body in extracted(folder, to).items()} == wanted
    dump = tmp_path / "dump"
    dump.write_bytes(dump_of(entries))
    for number, (source, given) in enumerate(((str(dump), b""), ("-", dump_of(entries)))):
        status, _, _ = run_tool("extract", source, f"{to}{number}", given=given)
        found = files_in(f"{to}{number}")
        assert (status, found.pop("entries.tsv")) == (0, files_in(to)["entries.tsv"])
        assert {name: digest(body) for name, body in found.items()} == wanted


def test_filters(folder, to):
    for name, kind in (("a.css", b"text/css"), ("b.png", b"image/png"), ("c.gif", b"image/gif")):
        folder.add(b":https://example.com/" + name.encode(), name.encode(), elements_with(kind))
    assert sorted(extracted(folder, to, "--type", "image/*")) == ["example.com/b.png", "example.com/c.gif"]
    assert run_tool("extract", folder.room, to + "2", "--host", "example.org") == (0, b"extracted 0\n", [])
    assert os.listdir(to + "2") == ["entries.tsv"]


def test_headers_and_alternative_data(folder, to):
    elements = elements_with(b"text/javascript", b"Server: x") + b"alt-data\x001;5,javascript/moz\0"
    folder.add(b":https://example.com/a.js", b"helloXY", elements)
    assert extracted(folder, to, "--headers") == {
        "example.com/a.js": b"hello", "example.com/a.js.alt": b"XY",
        "example.com/a.js.headers": b"HTTP/1.1 200 OK\r\nContent-Type: text/javascript\r\nServer: x\r\n"}


# ---- packed bodies

def command(*words):
    """What packs by a command of the system."""
    def pack(data):
        if not shutil.which(words[0]):
            pytest.skip(f"there is no {words[0]}")
        return subprocess.run(words, input=data, stdout=subprocess.PIPE, check=True).stdout
    return pack


PACKERS = {"gzip": gzip.compress, "x-gzip": gzip.compress, "deflate": zlib.compress, "br": command("brotli", "-c"),
           "zstd": command("zstd", "-c")}


def raw_deflate(data):
    """What some servers call deflate."""
    machine = zlib.compressobj(wbits=-zlib.MAX_WBITS)
    return machine.compress(data) + machine.flush()


@pytest.mark.parametrize("encoding", PACKERS)
@pytest.mark.parametrize("size", [1, 20, 100000, 3000000])
def test_packed_bodies_are_unpacked(folder, to, encoding, size):
    text = (TEXT * 31)[:size]
    folder.add(b":https://example.com/a.txt", PACKERS[encoding](text),
               elements_with(b"text/plain", b"Content-Encoding: " + encoding.encode()))
    assert {name: digest(body) for name, body in extracted(folder, to).items()} == {"example.com/a.txt": digest(text)}


def test_deflate_without_a_frame(folder, to):
    folder.add(b":https://example.com/a.txt", raw_deflate(TEXT),
               elements_with(b"text/plain", b"Content-Encoding: deflate"))
    assert extracted(folder, to) == {"example.com/a.txt": TEXT}


def test_packed_twice(folder, to):
    folder.add(b":https://example.com/a.txt", zlib.compress(gzip.compress(TEXT)),
               elements_with(b"text/plain", b"Content-Encoding: gzip", b"Content-Encoding: deflate"))
    assert extracted(folder, to) == {"example.com/a.txt": TEXT}


def test_raw(folder, to):
    packed = gzip.compress(TEXT)
    folder.add(b":https://example.com/a.txt", packed, elements_with(b"text/plain", b"Content-Encoding: gzip"))
    assert extracted(folder, to, "--raw") == {"example.com/a.txt.gz": packed}


def test_empty_bodies_are_not_packed(folder, to):
    folder.add(b":https://example.com/a.txt", b"", elements_with(b"text/plain", b"Content-Encoding: br"))
    assert extracted(folder, to) == {"example.com/a.txt": b""}


@pytest.mark.parametrize("encoding, body, end, why", [
    (b"gzip", b"no gzip", ".gz", "it does not unpack"), (b"gzip", gzip.compress(TEXT)[:-9], ".gz", "it ends too early"),
    (b"deflate", b"\x78\x9cxx", ".zz", "it does not unpack"), (b"br", b"no brotli", ".br", "it does not unpack (br)"),
    (b"zstd", b"no zstd", ".zst", "it does not unpack (zstd)"),
    (b"zstd", b"\x28\xb5\x2f\xfd\x04", ".zst", "it ends too early"),
    (b"compress", b"x", ".packed", "packed by compress, which is not known here"),
    (b"../x", b"x", ".packed", "packed by ../x, which is not known here"),
    (b"gzip, br", gzip.compress(b"x"), ".gz.br", "it does not unpack (br)"),
])
def test_what_does_not_unpack_stays_as_it_is(folder, to, encoding, body, end, why):
    folder.add(b":https://example.com/a.txt", body, elements_with(b"text/plain", b"Content-Encoding: " + encoding))
    status, _, lines = run_tool("extract", folder.room, to)
    found = files_in(to)
    assert (status, found.pop("entries.tsv")[:9], found) == (1, b"example.c", {f"example.com/a.txt{end}": body})
    name = name_in(b":https://example.com/a.txt")
    assert lines[0].startswith(f"extract: {name}: written as it is stored: ") and why in lines[0]


def test_a_body_that_unpacks_to_too_much(folder, to):
    """A few bytes that would fill a disk are left packed, and nothing else of them stays."""
    bomb = zlib.compressobj(9, wbits=16 + zlib.MAX_WBITS)
    piece = bytes(1 << 24)
    packed = b"".join(bomb.compress(piece) for _ in range(65)) + bomb.flush()
    folder.add(b":https://example.com/a.txt", packed, elements_with(b"text/plain", b"Content-Encoding: gzip"))
    status, _, lines = run_tool("extract", folder.room, to)
    assert (status, len(lines)) == (1, 1) and lines[0].endswith("it unpacks to more than 1,073,741,824 bytes")
    assert sorted(files_in(to)) == ["entries.tsv", "example.com/a.txt.gz"]


# ---- hostile names

HOSTILE = (
    b":https://../../../etc/passwd", b":https://example.com/../../../../etc/passwd",
    b":https://example.com/%2e%2e%2f%2e%2e%2fetc", b":file:///etc/passwd", b":/etc/passwd", b":https:///x",
    b":https://example.com/.bashrc", b":https://.ssh/authorized_keys", b":https://example.com/-rf", b":https://-rf/x",
    b":https://example.com/con", b":https://nul/aux.txt", b":https://com1.example/COM1.png",
    b":https://example.com/" + b"k" * 5000, b":https://" + b"h" * 5000 + b"/x", b":https://example.com/a\x1b[2J\tb",
    b":", b":?", b":#", b":https://example.com/\xff\xfe", b":https://example.com/\xe2\x80\xae",
    b":https://example.com/a/", b":https://example.com/a//", b":https://example.com/A", b":https://example.com/a",
    b":https://example.com/a?", b":https://part/x", b":https://part.alt/x", b":https://entries.tsv/x",
    b":https://example.com/a.alt", b":https://example.com/a.headers", b":https://example.com/a%00b",
    b":https://example.com/~", b":https://example.com/$(reboot)", b":https://example.com/`id`;id|id&id>x",
    b"O^partitionKey=../../x,:https://example.com/a", b":https://example.com/x.desktop", b":https://example.com/..",
    b":https://[::1]/.",
)


def test_hostile_names_stay_inside(folder, to):
    """Each entry has a file of its own below TO, whose name no shell, terminal or system takes for more than a name."""
    for key in HOSTILE:
        folder.add(key, key + b"XY", elements_with(b"../../x") + b"alt-data\x001;%d,x\0" % len(key))
    folder.add(b"no colon", b"no colon", elements_with(b"text/html"))
    files = extracted(folder, to, "--headers")
    bodies = {name: body for name, body in files.items() if not name.endswith((".alt", ".headers"))}
    assert sorted(bodies.values()) == sorted([*HOSTILE, b"no colon"])
    assert len({name.lower() for name in files}) == len(files) == 3 * len(HOSTILE) + 2
    for name in files:
        parts = name.split("/")
        assert len(parts) == 2 and all(0 < len(part) < 160 for part in parts)
        assert all(part[0] not in ".-" and not part.endswith(".") for part in parts)
        assert all(part.split(".")[0].lower() not in ("con", "nul", "aux", "com1") for part in parts)
        assert set(name) <= set("ABCDEFGHIJKLMNOPQRSTUVWXYZabcdefghijklmnopqrstuvwxyz0123456789._-/")
    assert sorted(os.listdir(os.path.dirname(to))) == ["to"]


def test_many_of_one_name(folder, to):
    for number in range(30):
        folder.add(b"O^userContextId=%d,:https://example.com/a" % number, b"%d" % number)
    assert sorted(extracted(folder, to).values()) == sorted(b"%d" % number for number in range(30))


# ---- what is refused or left out

def test_bad_files_are_named(folder, to):
    good = folder.add(b":https://example.com/good", b"hello")
    bad = folder.add(b":https://example.com/bad", b"x" * 262144 + b"hello")
    with open(folder.path(bad), "r+b") as file:
        file.seek(262144)
        file.write(b"j")
    folder.put("0" * 40, b"")
    os.symlink(good, folder.path("1" * 40))
    os.mkfifo(folder.path("2" * 40))
    status, _, lines = run_tool("extract", folder.room, to)
    assert (status, sorted(lines)) == (1, sorted([
        f"extract: {'0' * 40}: empty", f"extract: {'1' * 40}: no file", f"extract: {'2' * 40}: no file",
        f"extract: {bad}: damaged (1)"]))
    assert sorted(files_in(to)) == ["entries.tsv", "example.com/good.bin"]


def test_bodies_above_the_limit_of_load(folder, to):
    body = bytes(52428801)
    folder.add(b":https://example.com/long", body)
    assert {name: digest(body) for name, body in extracted(folder,
                                                           to).items()} == {"example.com/long.bin": digest(body)}


def test_a_dump_that_is_cut(to, tmp_path):
    entries = [(b":https://example.com/%d" % number, b"hello", NUMBERS, b"") for number in range(3)]
    (tmp_path / "dump").write_bytes(dump_of(entries)[:-40])
    status, _, lines = run_tool("extract", str(tmp_path / "dump"), to)
    assert (status, lines[0], len(files_in(to))) == (1, f"extract: {tmp_path}/dump: item 3: the dump ends within it", 3)


def test_nothing_stays_of_what_is_no_dump(to, tmp_path):
    (tmp_path / "dump").write_bytes(b"<html>")
    status, _, lines = run_tool("extract", str(tmp_path / "dump"), to)
    assert (status, lines[0]) == (1, f"extract: {tmp_path}/dump: item 1: the dump ends within it")
    assert os.listdir(tmp_path) == ["dump"]


@pytest.mark.parametrize("words, why", [
    (("{room}",), "the following arguments are required: TO"),
    (("nowhere", "{to}"), "nowhere: No such file or directory"),
    (("{room}/entries", "{to}"), "{room}/entries: no folder of a cache: it has no folder `entries`"),
    (("{room}", "{room}"), "{room}: File exists"), (("{room}", "{to}", "--since", "x"), "argument --since"),
])
def test_refusals(folder, to, words, why):
    status, out, lines = run_tool("extract", *(word.format(room=folder.room, to=to) for word in words))
    assert (status, out, len(lines)) == (2, b"",
                                         1) and lines[0].startswith(f"extract: {why.format(room=folder.room, to=to)}")
    assert not os.path.exists(to)


def test_no_room(folder, to):
    """Where the disk is full, what was written whole stays, and nothing else."""
    folder.add(b":https://example.com/long", bytes(3000000))
    words = f"ulimit -f 1; exec '{os.path.dirname(os.path.dirname(__file__))}/extract' '{folder.room}' '{to}'"
    ran = subprocess.run(["bash", "-c", words], stderr=subprocess.PIPE, check=False)
    assert (ran.returncode, ran.stderr.decode().splitlines()) == (2, [f"extract: {to}: File too large"])
    assert sorted(files_in(to)) == ["entries.tsv"]
