"""tools/keys, and how keys are read: those of docs/FORMATS.md, with what it says of each."""
import os

import pytest

from cachelib.keys import key_parts, may_write
from support import EXAMPLE, made_file, name_in, run_tool

NAME = name_in(EXAMPLE)
# The file of `hello` under `:https://example.com/` as docs/FORMATS.md has it, in each version.
NUMBERS = "00000001 000003E8 000003E8 000003E8 FFFFFFFF 00000015"
KEY = "3A68747470733A2F2F6578616D706C652E636F6D2F"
FILES = {
    1: f"68656C6C6F 424D093D 399E 00000001 {NUMBERS} {KEY} 00 00000005",
    2: f"68656C6C6F 29D632F8 399E 00000002 {NUMBERS} 00000000 {KEY} 00 00000005",
    3: f"68656C6C6F 06AB5E9A 399E 00000003 {NUMBERS} 00000000 {KEY} 00 00000005",
    4: f"68656C6C6F B2AB53B4 399E 00000004 {NUMBERS} 00000000 {KEY} 00 00000004 00000005",
}


def test_key_parts():
    assert key_parts(b"a,~x,,y,:https://x/") == ([(b"a", b""), (b"~", b"x,,y")], b"https://x/")
    assert key_parts(b":") == ([], b"")


@pytest.mark.parametrize("key", [b"a,", b"O^x", b"a,O^x,:y", b"a:x", b"", b",:x", b"a,a,:x", b"+x,:y", b",x,:y",
                                 b"Ox,,,,:y"])
def test_malformed_keys(key):
    assert (key_parts(key), may_write(key)) == (None, False)


def test_no_entry(folder):
    assert run_tool("keys", folder.room) == (0, b"", [])


@pytest.mark.parametrize("version", FILES)
def test_versions(folder, version):
    data = bytes.fromhex(FILES[version])
    assert data == made_file(version)
    folder.put(NAME, data)
    assert run_tool("keys", folder.room) == (0, f"{NAME} :https://example.com/\n".encode(), [])


@pytest.mark.parametrize("data, why", [
    (b"", "short"), (b"\xff" * 4, "short"), (b"hello\0\0\0\5", "short"), (b"\x80\0\0\5" * 9, "short"),
    # The header says a key of 20 bytes, so no zero byte comes after it.
    (bytes.fromhex(FILES[3].replace("00000015", "00000014")), "key end"),
    (made_file(0), "version"), (made_file(5), "version"), (made_file(4)[:-8] + b"\0\0\0\5\0\0\0\5", "trailer"),
    (made_file(3, b":https://example.net/"), "wrong name"),
])
def test_files_without_a_key(folder, data, why):
    folder.put(NAME, data)
    assert run_tool("keys", folder.room) == (1, b"", [f"keys: {NAME}: {why}"])


def test_no_files(folder):
    os.mkdir(folder.path(NAME))
    folder.put("foreign", b"\0")
    assert run_tool("keys", folder.room) == (1, b"", [f"keys: {NAME}: no file"])


def test_a_long_block(folder):
    """A block that is longer than what is read of a file's end at first, after a long body."""
    folder.put(NAME, made_file(4, body=b"x" * 600000, elements=b"e\0" + b"v" * 200000 + b"\0"))
    assert run_tool("keys", folder.room)[1] == f"{NAME} :https://example.com/\n".encode()


def test_bytes_that_are_shown_escaped(folder):
    key = b":a\\b\tc\xffd\xc3\xa9\xc2\x85 e"
    folder.add(key)
    assert run_tool("keys", folder.room) == (0, f"{name_in(key)} :a\\\\b\\x09c\\xFFdé\\xC2\\x85 e\n".encode(), [])


def test_keys_of_the_program(program, tmp_path):
    odd = b":a\\b\tc\xffd e"
    script = b"create 0 %s\nappend 0 600000\n%s\nclose 0\n" % (odd, b"1" * 600000)
    assert program.ends(f"{tmp_path}/keyed", "run", given=script) == (0, b"ok\n" * 3)
    assert run_tool("keys", f"{tmp_path}/keyed")[1] == f"{name_in(odd)} :a\\\\b\\x09c\\xFFd e\n".encode()


@pytest.mark.parametrize("words, says", [
    (("nowhere",), "keys: nowhere/entries: No such file or directory"),
    ((), "keys: the following arguments are required: DIR; keys --help tells more"),
])
def test_refusals(words, says):
    assert run_tool("keys", *words) == (2, b"", [says])
