"""tools/report without a browser: what it refuses, and what its page holds."""
import base64
import json
import os
import re
import time
import zlib

import pytest

from cachelib import page
from cachelib.output import Refused
from sites import DAY, SECRET, few_entries, hostile_entries
from support import dump_of, elements_with, made_file, name_in, run_tool

NOW = int(time.time())
GOOD = dump_of(few_entries(NOW))
KEY = "O^partitionKey=%28https%2Cexample.org%29,:"


def data_of(text):
    """What a page tells of the entries."""
    return json.loads(re.search(rb'<script type="application/json" id="data">(.*?)</script>', text)[1])


def blocks_of(text):
    """What opens with the lines of the table."""
    packed = re.findall(rb'<script type="text/plain" id="block-\d+">(.*?)</script>', text)
    return [row for block in packed for row in json.loads(zlib.decompress(base64.b64decode(block)))]


# ---- what is refused

@pytest.mark.parametrize("number", range(len(page.LIBRARIES)))
def test_a_package_that_is_missing(monkeypatch, number):
    package, _ = page.LIBRARIES[number]
    monkeypatch.setattr(page, "LIBRARIES", ((package, "/nowhere.js"),))
    with pytest.raises(Refused, match=f"/nowhere.js is missing: apt-get install {package}"):
        page.Page()


@pytest.mark.parametrize("dump, item", [
    (b"", 1), (b"<html>", 1), (b"C2DUMP02\0", 1), (GOOD[:-1], 4), (GOOD[:3000], 1), (GOOD + b"\0", 4),
    (GOOD.replace(b"xxx", b"xyx", 1), ""), (dump_of([(b"no colon", b"", (0,) * 5, b"")]), 1),
    (dump_of([(b":x", b"", (0,) * 5, b"a\0b")]), 1)],
    ids=["nothing", "no dump", "another head", "no end", "a cut", "a byte more", "another byte", "a malformed key",
         "malformed elements"])
def test_bad_dumps(made, dump, item):
    status, text, lines = run_tool("report", given=dump)
    assert (status, text, len(lines)) == (1, b"", 1) and lines[0].startswith(f"report: item {item}")


@pytest.mark.parametrize("words, says", [
    (("--verify",), "argument --verify: expected one argument; report --help tells more"),
    (("--other",), "unrecognized arguments: --other; report --help tells more"),
    (("a", "b"), "unrecognized arguments: b; report --help tells more"),
    (("a", "--left-out", "b"),
     "--left-out is for a dump: of a FOLDER it is known what is left out; report --help tells more"),
    (("nowhere",), "nowhere: no folder of a cache: it has no folder `entries`"),
    (("--verify", "/nowhere"), "/nowhere: No such file or directory"),
])
def test_refusals(made, words, says):
    assert run_tool("report", *words, given=GOOD) == (2, b"", [f"report: {says}"])


@pytest.mark.parametrize("word, text", [
    *(("--verify", text) for text in ("", "findings 1\n", "findings 0\nx\n", "records 0\n",
                                      f"findings 1\n{'A' * 40} unknown\n", "findings 0")),
    *(("--left-out", text) for text in ("", "x\n", f"import: {'A' * 40}: empty\n",
                                        "import: taken 1, with bodies of 5 bytes; left out 1: 1 cut\n")),
])
def test_files_that_say_something_else(made, tmp_path, word, text):
    (tmp_path / "said").write_text(text)
    what = "verify prints" if word == "--verify" else "import --report says"
    says = [f"report: {tmp_path}/said: this is not what {what}"]
    assert run_tool("report", word, f"{tmp_path}/said", given=GOOD) == (1, b"", says)


def test_streams(made):
    with open("/dev/full", "wb") as full:
        says = ["report: standard output: No space left on device"]
        assert run_tool("report", given=GOOD, stdout=full)[::2] == (2, says)
    assert run_tool("report", given=b"", before=lambda: os.close(2))[:2] == (1, b"")


# ---- what the page holds

def test_data(made):
    text = made(given=GOOD)
    data = data_of(text)
    assert data["prefixes"] == [[KEY, "on example.org"]]
    assert data["sites"] == [["example.com", "example.com"]]
    assert sorted(data["types"]) == ["image/png", "text/css"]
    rows = sorted(zip(data["address"], data["size"], data["status"], data["uses"], data["expires"],
                      (NOW - used for used in data["used"])))
    assert rows == [("https://example.com/apple", 3000, 200, 3, -1, 2 * DAY),
                    ("https://example.com/pear", 20, 200, 3, -1, 400 * DAY),
                    ("https://example.com/plum", 100000, 200, 3, -1, 40 * DAY)]
    assert (data["folder"], data["leftOut"], data["findings"], data["previews"]) == (None, None, None, 0)


def test_blocks(made):
    """Each line has its own details, over the end of a block."""
    entries = [(b":https://example.com/%d" % number, b"", (1,) * 5, elements_with(b"text/css", b"X: %d" % number))
               for number in range(1100)]
    text = made(given=dump_of(entries))
    data, rows = data_of(text), blocks_of(text)
    assert (len(rows), data["block"]) == (1100, 500)
    for address, (name, version, method, main, kind, pinned, headers, preview) in zip(data["address"], rows):
        assert (name, version, method, main, kind, pinned, preview) == (name_in(f":{address}".encode()), 3, "GET", 0,
                                                                        "", 0, None)
        assert headers == ["HTTP/1.1 200 OK", "Content-Type: text/css", f"X: {address.rpartition('/')[2]}"]


def test_nothing_of_an_entry_stands_outside_of_the_data(made):
    text = made(given=dump_of(hostile_entries()))
    before, raw, after = re.split(rb'(?<=<script type="application/json" id="data">)(.*?)(?=</script>)', text,
                                  maxsplit=1)
    after = re.sub(rb'<script type="text/plain" id="block-0">[A-Za-z0-9+/=]+</script>', b"", after, count=1)
    assert SECRET not in text
    assert b"window.hit" not in before + after and b".example" not in before + after
    assert re.findall(rb"[<>&]", raw) == []
    assert re.findall(rb'(?:src|href)="?(?!data:|#)[a-z]+:?//[^" >]*', before) == []


def test_no_entry(made):
    assert data_of(made(given=dump_of([])))["address"] == []


def test_a_folder_and_its_dump_tell_the_same(made, folder):
    for number, (key, body, numbers, elements) in enumerate(few_entries(NOW)):
        folder.add(key, body, elements, number + 2, numbers)
    of_folder, of_dump = data_of(made(folder.room)), data_of(made(given=GOOD))
    assert (of_folder.pop("folder"), of_folder.pop("leftOut")) == (folder.room, [])
    assert of_folder.pop("made") - of_dump.pop("made") < 100
    assert of_folder == {name: value for name, value in of_dump.items() if name in of_folder}


def test_what_is_left_out_is_told(made, folder):
    folder.add(b":https://example.com/")
    folder.put("0" * 40, b"")
    folder.put("1" * 40, made_file(3))
    assert data_of(made(folder.room))["leftOut"] == [["0" * 40, "empty"], ["1" * 40, "unfit (wrong name)"]]


def test_what_import_left_out_is_told(made, folder, tmp_path):
    folder.add(b":https://example.com/")
    folder.put("0" * 40, b"")
    _, dump, lines = run_tool("import", folder.room, "--report")
    (tmp_path / "said").write_text("".join(f"{line}\n" for line in lines))
    assert data_of(made("--left-out", f"{tmp_path}/said", given=dump))["leftOut"] == [["0" * 40, "empty"]]


def test_findings_are_those_of_entries(made, tmp_path):
    names = [name_in(f"{KEY}https://example.com/{fruit}".encode()) for fruit in ("apple", "pear")] + ["0" * 40]
    lines = ("findings 4", f"{names[0]} damaged 0 399E 6DAA", f"{names[1]} missing", f"{names[0]} differs",
             f"{names[2]} unfit short")
    (tmp_path / "said").write_text("".join(f"{line}\n" for line in lines))
    data = data_of(made("--verify", f"{tmp_path}/said", given=GOOD))
    apple, pear = (data["address"].index(f"https://example.com/{fruit}") for fruit in ("apple", "pear"))
    assert data["findings"] == [
        [apple, "Part 1 of its content, of 262,144 bytes each, is not what was written."],
        [pear, "The cache's index does not have it."],
        [apple, "The cache's index and its file disagree."], ["0" * 40, "Its file cannot be read as an entry (short)."]]


# ---- previews

PNG = base64.b64decode("iVBORw0KGgoAAAANSUhEUgAAAAEAAAABCAYAAAAfFcSJAAAADUlEQVR42mNk"
                       "+M9QDwADhgGAWjR9awAAAABJRU5ErkJggg==")
SHOWN = f"data:image/png;base64,{base64.b64encode(PNG).decode()}"
PREVIEWED = [
    (b":https://example.com/shown.png", PNG, elements_with(b"image/png"), SHOWN),
    (b":https://example.com/none.svg", PNG, elements_with(b"image/svg+xml"), None),
    (b":https://example.com/none.html", PNG, elements_with(b"text/html"), None),
    (b":https://example.com/long.png", bytes(65537), elements_with(b"image/png"), None),
    (b":https://example.com/packed.png", PNG, elements_with(b"image/png", b"Content-Encoding: gzip"), None),
    (b":https://example.com/empty.png", b"", elements_with(b"image/png"), None),
]


@pytest.mark.parametrize("is_folder", [True, False])
def test_previews(made, folder, is_folder):
    """Small images are in the page where they are asked for, and nothing else is."""
    for key, body, elements, _ in PREVIEWED:
        folder.add(key, body, elements)
    dump = dump_of([(key, body, (1,) * 5, elements) for key, body, elements, _ in PREVIEWED])
    for words in ((), ("--previews",)):
        text = made(*((folder.room,) if is_folder else ()), *words, given=dump)
        wanted = {name_in(key): preview if words else None for key, _, _, preview in PREVIEWED}
        assert {row[0]: row[7] for row in blocks_of(text)} == wanted
        assert data_of(text)["previews"] == len(words)


def test_a_damaged_image_has_no_preview(made, folder):
    name = folder.add(b":https://example.com/a.png", PNG, elements_with(b"image/png"))
    with open(folder.path(name), "r+b") as file:
        file.write(b"x")
    text = made(folder.room, "--previews")
    assert ([row[7] for row in blocks_of(text)], data_of(text)["leftOut"]) == ([None], [])


def test_previews_have_a_limit_together(made):
    image = b"\x89PNG" + bytes(65532)
    entries = [(b":https://example.com/%d" % number, image, (1,) * 5, elements_with(b"image/png"))
               for number in range(258)]
    text = made("--previews", given=dump_of(entries))
    assert data_of(text)["previews"] == 256
