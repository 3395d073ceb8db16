"""tools/dump-list and tools/dump-extract: they read a dump up to its first bad item."""
import os
import subprocess

import pytest

from cachelib.dumps import dump_bytes
from support import EXAMPLE, TOOLS, files_in, made_item, name_in, run_tool

NAME = name_in(EXAMPLE)
LINE = "5 1000 1000 4294967295 :https://example.com/"
ONE = made_item()
# `hello`, and `XY` of the kind `wasm`, as docs/FORMATS.md has them.
WITH = made_item(body=b"helloXY", elements=b"alt-data\x001;5,wasm\0")
WITH_LINE = LINE.replace("5", "7", 1)
KEYS = {"keys": f"{NAME} :https://example.com/\n".encode()}
FILES = {NAME: b"hello", **KEYS}
WITH_FILES = {NAME: b"hello", f"{NAME}.alt": b"XY", **KEYS}
NONE = {"keys": b""}


def older_block():
    """The item with the block of version 2."""
    return ONE.replace(bytes.fromhex("06AB5E9A 399E 00000003"), bytes.fromhex("29D632F8 399E 00000002"))


BAD = {
    "another head": (b"C2DUMP02\0", None, "item 1: this is no dump"),
    "an item twice": (dump_bytes(ONE, ONE), LINE, "item 2: its name is out of order"),
    "a cut": (dump_bytes(ONE)[:-1], LINE, "item 2: the dump ends within it"),
    "a byte more": (dump_bytes(ONE) + b"\0", LINE, "item 2: a byte comes after the end"),
    "an older block": (dump_bytes(older_block()), None, "item 1: its block has version 2"),
    "a damaged block": (dump_bytes(ONE.replace(b"\x5e\x9a", b"\x5e\x9b")), None, "item 1: its block is damaged"),
    "a long body": (dump_bytes(ONE.replace(b"\0\0\0\5hello", b"\xff\xff\xff\xffhello")), None,
                    "item 1: a body of 4294967295 bytes"),
    "a damaged body": (dump_bytes(ONE.replace(b"hello", b"jello")), None, "item 1: its body is damaged"),
    "alternative data, and a cut": (dump_bytes(WITH)[:-1], WITH_LINE, "item 2: the dump ends within it"),
    "damaged alternative data": (dump_bytes(WITH.replace(b"XY", b"Xy")), None, "item 1: its body is damaged"),
}


@pytest.fixture
def dump(tmp_path):
    """Writes a dump to a file and gives its path."""
    def put(data):
        (tmp_path / "dump").write_bytes(data)
        return str(tmp_path / "dump")
    return put


@pytest.mark.parametrize("data, line", [(dump_bytes(), None), (dump_bytes(ONE), LINE), (dump_bytes(WITH), WITH_LINE)])
def test_lists(dump, data, line):
    assert run_tool("dump-list", dump(data)) == (0, f"{line}\n".encode() if line else b"", [])


@pytest.mark.parametrize("what", BAD)
def test_lists_up_to_a_bad_item(dump, what):
    data, line, why = BAD[what]
    assert run_tool("dump-list", dump(data)) == (1, f"{line}\n".encode() if line else b"", [f"dump-list: {why}"])


@pytest.mark.parametrize("data, files", [(dump_bytes(), NONE), (dump_bytes(ONE), FILES),
                                         (dump_bytes(WITH), WITH_FILES)])
def test_extracts(dump, tmp_path, data, files):
    assert run_tool("dump-extract", dump(data), f"{tmp_path}/out") == (0, b"", [])
    assert files_in(f"{tmp_path}/out") == files


@pytest.mark.parametrize("what", BAD)
def test_extracts_up_to_a_bad_item(dump, tmp_path, what):
    data, line, why = BAD[what]
    assert run_tool("dump-extract", dump(data), f"{tmp_path}/out") == (1, b"", [f"dump-extract: {why}"])
    assert files_in(f"{tmp_path}/out") == {None: NONE, LINE: FILES, WITH_LINE: WITH_FILES}[line]


def test_a_folder_that_is_there(dump, tmp_path):
    os.mkdir(f"{tmp_path}/out")
    says = [f"dump-extract: {tmp_path}/out: File exists"]
    assert run_tool("dump-extract", dump(dump_bytes(ONE)), f"{tmp_path}/out") == (2, b"", says)
    assert os.listdir(f"{tmp_path}/out") == []


def test_no_room(dump, tmp_path):
    words = f"ulimit -f 0; exec '{TOOLS}/dump-extract' '{dump(dump_bytes(ONE))}' '{tmp_path}/out'"
    ran = subprocess.run(["bash", "-c", words], stderr=subprocess.PIPE, check=False)
    assert (ran.returncode, ran.stderr.decode()) == (2, f"dump-extract: {tmp_path}/out: File too large\n")


@pytest.mark.parametrize("tool, missing, words", [
    ("dump-list", "DUMP", ("nowhere",)), ("dump-extract", "DUMP, FOLDER", ("nowhere", "out"))])
def test_refusals(tool, missing, words):
    says = f"{tool}: the following arguments are required: {missing}; {tool} --help tells more"
    assert run_tool(tool) == (2, b"", [says])
    assert run_tool(tool, *words) == (2, b"", [f"{tool}: nowhere: No such file or directory"])
