"""tools/import on made folders: entry files of the versions 1 to 4, each kind of file that is left out, and the end
of a dump.

With a program, its `dump` has to be what the tool writes of the same folder, and its `load` of that has to make the
same files.
"""
import io
import os
import socket

import pytest

from cachelib.dumps import Dump, Writer, dump_bytes
from cachelib.entries import MAX_BLOCK, MAX_BODY, file_of, header_bytes
from cachelib.hashes import CHUNK, hash_of
from cachelib.keys import MAX_KEY
from support import (EXAMPLE, NUMBERS, Folder, digest, files_in, load_tool, made_file, made_item, name_in, run_tool)

NAME = name_in(EXAMPLE)
OTHER = b":https://example.org/"
# The dump of the example in docs/FORMATS.md, as it stands there under "The dump".
EXAMPLE_DUMP = bytes.fromhex(
    "433244554D503031 01 00000015 3A68747470733A2F2F6578616D706C652E636F6D2F 00000005 68656C6C6F 0000003C 06AB5E9A 399E"
    "00000003 00000001 000003E8 000003E8 000003E8 FFFFFFFF 00000015 00000000"
    "3A68747470733A2F2F6578616D706C652E636F6D2F 00 00")
# Values of `alt-data` for a stored body of 5 bytes, as docs/FORMATS.md has them: where its alternative data begin, if
# it has any.
PLACES = ((b"1;3,wasm", 3), (b"1;5,x", 5), (b"1;0,a,b", 0), (b"1;9,x", None), (b"1;03,x", None), (b"1;3,", None),
          (b"1;3", None), (b"2;3,x", None), (b"", None), (b"1;" + b"9" * 5000 + b",x", None))


def run(*words, **more):
    return run_tool("import", *words, **more)


def longest_elements(more=0):
    """Elements with which the metadata of the example have the most bytes that they may have, and more."""
    return b"e\0" + b"v" * (MAX_BLOCK - 4 - 2 - 32 - len(EXAMPLE) - 1 - 3 + more) + b"\0"


def check_tools_on(dump, room, parts):
    """dump-list and dump-extract read what was written. By its name each entry has a main body, and maybe alternative
    data.
    """
    path, out = os.path.join(room, "dump"), os.path.join(room, "out")
    with open(path, "wb") as file:
        file.write(dump)
    status, lines, _ = run_tool("dump-list", path)
    assert (status, [int(line.split()[0]) for line in lines.splitlines()]) == (0, [sum(map(len, parts[name]))
                                                                                   for name in sorted(parts)])
    assert run_tool("dump-extract", path, out) == (0, b"", [])
    found = files_in(out)
    assert [line.split()[0].decode() for line in found.pop("keys").splitlines()] == sorted(parts)
    wanted = {name + end: part for name in parts for end, part in zip(("", ".alt"), parts[name])}
    assert {name: digest(part) for name, part in found.items()} == {name: digest(part) for name, part in wanted.items()}


def check_loads(program, dump, files):
    """The program loads a dump to these files by their names, and dumps the same bytes."""
    with Folder() as folder:
        assert program.ends(folder.room, "load", given=dump) == (0, b"loaded %d\n" % len(files))
        found = files_in(os.path.join(folder.room, "entries"))
        assert {name: digest(data) for name, data in found.items()} == {name: digest(data) for name,
                                                                        data in files.items()}
        assert program.ends(folder.room, "verify") == (0, b"findings 0\n")
        status, again = program.ends(folder.room, "dump")
        assert (status, digest(again)) == (0, digest(dump))


# ---- files that are taken

@pytest.mark.parametrize("version", [1, 2, 3, 4])
def test_versions(folder, version):
    folder.put(NAME, made_file(version))
    assert run(folder.room) == (0, EXAMPLE_DUMP, [])
    assert run(folder.room, "--report") == (0, EXAMPLE_DUMP, ["import: taken 1, with bodies of 5 bytes; left out 0"])
    assert files_in(folder.room) == {f"entries/{NAME}": made_file(version)}


def test_kinds(folder):
    """Entries of many kinds in one folder come in the order of their names."""
    keys = [b"O^partitionKey=%28https%2Cexample.org%29,:https://example.com/", b"a,:x", b"~x,,y,:https://x/", b":",
            b":\xff\xfe\t\\", b":" + b"k" * (MAX_KEY - 1)]
    bodies = [b"", b"h" * 262143, b"h" * 262144, b"h" * 262145, os.urandom(600000), b"x"]
    elements = [b"", b"a\0b\0", b"response-head\0HTTP/1.1 200 OK\r\n\0", b"alt-data\x001;3,wasm\0", b"\0\0",
                b"e\0" + b"v" * 60000 + b"\0"]
    wanted = []
    for at, key in enumerate(keys):
        version = at % 4 + 1
        flags = 0 if version == 1 else at
        folder.put(name_in(key), made_file(version, key, bodies[at], elements[at], flags))
        wanted.append((name_in(key), made_item(key, bodies[at], elements[at], flags)))
    folder.put("foreign", b"x")
    folder.put(name_in(b":lower").lower(), made_file(3, b":lower"))
    os.mkdir(os.path.join(folder.room, "doomed"))
    status, dump, lines = run(folder.room)
    assert (status, digest(dump), lines) == (0, digest(dump_bytes(*(item for _, item in sorted(wanted)))), [])
    assert [item.name for item in Dump(io.BytesIO(dump)).items()] == [name for name, _ in sorted(wanted)]
    parts = {name_in(key): (body,) for key, body in zip(keys, bodies)}
    # Its element `alt-data` tells of two parts.
    parts[name_in(keys[3])] = bodies[3][:3], bodies[3][3:]
    check_tools_on(dump, folder.room, parts)


def test_alternative_data(folder):
    """Entries with alternative data are taken whole, and dump-extract takes them apart where the element tells of a
    place.
    """
    entries = [(b"hello", value, at) for value, at in PLACES]
    entries += [(os.urandom(size), b"1;%d,x" % at, at) for size,
                at in ((CHUNK, CHUNK - 1), (CHUNK + 1, CHUNK), (2 * CHUNK + 1, 1))]
    wanted, parts = [], {}
    for number, (body, value, at) in enumerate(entries):
        key = b":https://example.com/%d" % number
        # The second element of a name does not count.
        more = b"alt-data-principal\0https://example.com\0alt-data\x001;2,x\0"
        elements = b"request-method\0GET\0alt-data\0" + value + b"\0" + more
        name = folder.add(key, body, elements)
        wanted.append((name, made_item(key, body, elements)))
        parts[name] = (body,) if at is None else (body[:at], body[at:])
    status, dump, lines = run(folder.room)
    assert (status, digest(dump), lines) == (0, digest(dump_bytes(*(item for _, item in sorted(wanted)))), [])
    check_tools_on(dump, folder.room, parts)


# ---- files that are left out

GOOD = made_file(3)
TOO_LONG = longest_elements(1)
# What is said of a file, the key by which it is named, and its bytes.
BAD_FILES = [
    ("empty", EXAMPLE, b""), ("cut", EXAMPLE, b"\0\0\0"), ("cut", EXAMPLE, b"x" * 600000 + b"\xff" * 4),
    ("cut", EXAMPLE, GOOD[:40]),
    # The last four bytes are the number 0 now, and what the header would be begins at 4.
    ("unfit (version)", EXAMPLE, GOOD[:-1]),
    ("cut", EXAMPLE, b"hello" + (2**31 - 1).to_bytes(4, "big")), ("cut", EXAMPLE, made_file(4)[:60]),
    ("cut", EXAMPLE, b"x" * 90 + b"\x80\0\1\0"), ("encrypted", EXAMPLE, os.urandom(90) + b"\0\0\0\4\x80\0\0\5"),
    ("version 0", EXAMPLE, made_file(0)), ("version 5", EXAMPLE, made_file(5)),
    ("unfit (trailer)", EXAMPLE, file_of(b"hello", header_bytes(4, NUMBERS, len(EXAMPLE), 0), EXAMPLE)),
    ("unfit (trailer)", EXAMPLE, made_file(4)[:-8] + b"\0\0\0\5" + made_file(4)[-4:]),
    # The hash of version 4 over the trailer, too.
    ("unfit (hash)", EXAMPLE, b"hello" + hash_of(made_file(4)[9:-4]) + made_file(4)[9:]),
    ("unfit (hash)", EXAMPLE, b"hello" + bytes([GOOD[5] ^ 1]) + GOOD[6:]),
    ("unfit (key end)", EXAMPLE, file_of(b"hello", header_bytes(3, NUMBERS, 20, 0), EXAMPLE)),
    ("unfit (key end)", EXAMPLE, file_of(b"hello", header_bytes(3, NUMBERS, 2**32 - 1, 0), EXAMPLE)),
    ("unfit (elements)", EXAMPLE, made_file(3, elements=b"a\0b")),
    ("unfit (elements)", EXAMPLE, made_file(4, elements=b"a\0b\0c\0")),
    ("unfit (wrong name)", b":https://example.net/", GOOD),
    *(("unfit (too big)", EXAMPLE, made_file(version, elements=TOO_LONG)) for version in (3, 4, 1)),
    *(("bad key", key, made_file(3, key))
      for key in (b"", b"a,", b"a", b"https://x/", b"b,a,:x", b"ax,:y", b":x\ny", b":x\0", b"Ox,,:y",
                  b":" + b"k" * MAX_KEY)),
    ("damaged (0)", EXAMPLE, b"jello" + GOOD[5:]),
    ("damaged (2)", EXAMPLE, made_file(4, body=b"x" * 524288 + b"hello").replace(b"xhello", b"xjello")),
]


@pytest.mark.parametrize("says, key, data", BAD_FILES, ids=[f"{says} {number}" for number,
                                                            (says, _, _) in enumerate(BAD_FILES)])
def test_bad_files(folder, says, key, data):
    """Each by itself beside one that is taken."""
    folder.add(OTHER)
    folder.put(name_in(key), data)
    kind = says.split(" (")[0].removesuffix(" 0").removesuffix(" 5")
    lines = [f"import: {name_in(key)}: {says}", f"import: taken 1, with bodies of 5 bytes; left out 1: 1 {kind}"]
    assert run(folder.room, "--report") == (1, dump_bytes(made_item(OTHER)), lines)


@pytest.mark.parametrize("says, key, data", BAD_FILES, ids=[f"{says} {number}" for number,
                                                            (says, _, _) in enumerate(BAD_FILES)])
def test_the_program_leaves_out_the_same(folder, program, says, key, data):
    folder.add(OTHER, version=3)
    folder.put(name_in(key), data)
    assert program.ends(folder.room, "dump") == (0, dump_bytes(made_item(OTHER)))


@pytest.mark.parametrize("version", [1, 3, 4])
def test_metadata_of_the_most_bytes(folder, version):
    folder.put(NAME, made_file(version, elements=longest_elements()))
    assert run(folder.room) == (0, dump_bytes(made_item(elements=longest_elements())), [])


@pytest.mark.parametrize("size, offset, says", [
    (MAX_BODY + 1, MAX_BODY + 1, "too large"), (2**31 - 1, 2**31 - 1, "too large"), (2**40, 5, "unfit (too big)")])
def test_long_files(folder, size, offset, says):
    """Bodies of more than a dump has. The file has holes."""
    with open(folder.path(NAME), "wb") as file:
        file.truncate(size)
        file.seek(size)
        file.write(GOOD[5:-4] + offset.to_bytes(4, "big"))
    status, dump, lines = run(folder.room, "--report")
    assert (status, dump, lines[0]) == (1, dump_bytes(), f"import: {NAME}: {says}")


def test_what_is_no_file(folder):
    """It is named, and neither opened nor followed."""
    names = [name_in(b":%d" % number) for number in range(5)]
    folder.put("outside", made_file(3, b":0"))
    os.symlink("outside", folder.path(names[0]))
    os.symlink("nowhere", folder.path(names[1]))
    os.mkdir(folder.path(names[2]))
    os.mkfifo(folder.path(names[3]))
    with socket.socket(socket.AF_UNIX) as listener:
        listener.bind(os.path.relpath(folder.path(names[4])))
        status, dump, lines = run(folder.room, "--report")
    assert (status, dump, set(lines[:-1])) == (1, dump_bytes(), {f"import: {name}: no file" for name in names})


@pytest.mark.parametrize("version", [1, 2, 3, 4])
def test_each_byte(folder, version):
    """A file of which one byte is another, or that ends earlier, is never taken."""
    tool = load_tool("import")

    def is_taken(data):
        folder.put(NAME, data)
        try:
            tool.read_entry(folder.room, NAME)
        except (tool.LeftOut, tool.Unfit):
            return False
        return True

    file = made_file(version, elements=b"a\0b\0")
    assert is_taken(file)
    assert [at for at in range(len(file))
            if is_taken(file[:at] + bytes([file[at] ^ 1 << at % 8]) + file[at + 1:])] == []
    assert [at for at in range(len(file)) if is_taken(file[:at])] == []


# ---- folders, streams and the end of a dump

@pytest.mark.parametrize("path", ["nowhere", "none", "file", "file/entries", ""])
def test_folders_that_are_none(tmp_path, path):
    os.makedirs(tmp_path / "none")
    os.makedirs(tmp_path / "file")
    (tmp_path / "file/entries").touch()
    status, dump, lines = run(str(tmp_path / path) if path else "")
    assert (status, dump, len(lines)) == (1, b"", 1)


@pytest.mark.parametrize("words, says", [
    ((), "the following arguments are required: FOLDER"), (("a", "b"), "unrecognized arguments: b"),
    (("--report",), "the following arguments are required: FOLDER"),
    (("--other", "a"), "unrecognized arguments: --other")])
def test_words(words, says):
    assert run(*words) == (2, b"", [f"import: {says}; import --help tells more"])


def test_no_entry(folder):
    assert run(folder.room) == (0, dump_bytes(), [])


def test_streams(folder):
    folder.put(NAME, GOOD)
    folder.put(name_in(b":x"), b"")
    with open("/dev/full", "wb") as full:
        status, _, lines = run(folder.room, stdout=full)
    assert (status, lines[-1]) == (2, "import: standard output: No space left on device")
    says = ["import: standard output: Bad file descriptor"]
    assert run(folder.room, before=lambda: os.close(1))[::2] == (2, says)
    assert run(folder.room) == (1, EXAMPLE_DUMP, ["import: left out 1, of 2; --report names them"])
    assert run(folder.room, "--report", before=lambda: os.close(2))[:2] == (1, EXAMPLE_DUMP)


@pytest.mark.parametrize("more, is_room", [(0, False), (1, True)])
def test_the_longest_dump(more, is_room):
    """What passes the longest dump is not written, and the dump ends well before it."""
    item, out = made_item(), io.BytesIO()
    writer = Writer(out, 8 + len(item) + more)
    assert writer.add(EXAMPLE, b"hello", item[-60:]) == is_room
    writer.end()
    assert out.getvalue() == (dump_bytes(item) if is_room else dump_bytes())


def test_what_comes_after_the_longest_dump(folder):
    tool = load_tool("import")
    for number in range(4):
        folder.add(b":%d" % number, version=3)
    work = tool.Import(folder.room, False, Writer(io.BytesIO(), 8 + 2 * len(made_item(b":0")) + 1))
    reasons = []
    for name in tool.entry_names(folder.room):
        try:
            work.add(name)
            reasons.append("")
        except tool.LeftOut as fault:
            reasons.append(str(fault))
    assert reasons == ["", ""] + ["past the end"] * 2


# ---- the program

@pytest.mark.parametrize("version", [1, 2, 3])
def test_the_program_dumps_each_version(folder, program, version):
    """A file of each version that the program reads comes as version 3, and stays as it is."""
    folder.put(NAME, made_file(version))
    assert program.ends(folder.room, "dump") == (0, EXAMPLE_DUMP)
    assert files_in(folder.room)[f"entries/{NAME}"] == made_file(version)


def test_the_program_loads_the_example(program):
    check_loads(program, EXAMPLE_DUMP, {NAME: GOOD})


def test_the_program_on_kinds(program):
    """Entries of many kinds, in files of version 4 for the tool and of the other versions for the program."""
    bodies = [b"", b"x", b"h" * 262144, b"h" * 262145, os.urandom(600000), b"pinned"]
    elements = [b"", b"a\0b\0", b"response-head\0HTTP/1.1 200 OK\r\n\0", b"alt-data\x001;3,wasm\0",
                b"e\0" + b"v" * 200000 + b"\0", b"\0\0"]
    files = {}
    with Folder() as newer, Folder() as older:
        for at, body in enumerate(bodies):
            key = (b"O^a,:%d", b"a,:%d", b":%d")[at % 3] % at
            version = at % 3 + 1
            flags = 0 if version == 1 else at
            files[name_in(key)] = made_file(3, key, body, elements[at], flags)
            newer.put(name_in(key), made_file(4, key, body, elements[at], flags))
            older.put(name_in(key), made_file(version, key, body, elements[at], flags))
        status, dump, _ = run(newer.room)
        assert (status, program.ends(older.room, "dump") == (0, dump)) == (0, True)
    check_loads(program, dump, files)


@pytest.mark.parametrize("size, is_taken", [(MAX_BODY, True), (MAX_BODY + 1, False)])
def test_the_program_on_long_bodies(folder, program, size, is_taken):
    """The longest body is dumped and loaded, and one byte more is left out."""
    file = made_file(3, body=bytes(size))
    folder.put(NAME, file)
    assert program.ends(folder.room, "list")[1].startswith(b"records 1\n")
    status, dump = program.ends(folder.room, "dump")
    assert (status, digest(dump)) == (0, digest(dump_bytes(*[made_item(body=bytes(size))] * is_taken)))
    check_loads(program, dump, {NAME: file} if is_taken else {})
