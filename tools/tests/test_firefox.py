"""The cache that a real Firefox writes: import, extract and the program on it, and Firefox on what they make of it.

Firefox fetches pages from a server here, and compiles their scripts. Each main body in the dump of its cache is
compared with what the server gave, and behind those of scripts has to be what was compiled. Then a profile gets the
entries in other files, and Firefox has to show the pages without the server. An encrypted cache gives nothing.
"""
import collections
import gzip
import os
import shutil
import threading
import time
from http.server import BaseHTTPRequestHandler, ThreadingHTTPServer

import pytest

from browser import Browser
from cachelib.elements import elements_in
from cachelib.entries import entries_in, entry_names, file_of, header_bytes, opened
from cachelib.hashes import CHUNK, chunk_hashes
from cachelib.keys import key_parts
from cachelib.dumps import dump_bytes
from support import digest, files_in, run_tool
from test_import import check_loads, check_tools_on


def script(count):
    """A script of so many functions."""
    return b"".join(b"function told_%d(x) { return x + %d }\n" % (number, number) for number in range(count))


PAGE = b"""<!DOCTYPE html><meta charset=utf-8><title>begun</title>
<link rel=icon href=data:,><link rel=stylesheet href=/style.css>
<script src=/code.js></script><script src=/long.js></script><script src=/packed.js></script>
<script type=module src=/module.js></script>
<p>A page<img src=/0.bin><img src=/1.bin><img src=/262143.bin><img src=/262144.bin><img src=/262145.bin>
<script>
onload = async () => {
  for (const path of ["/900000.bin", "/packed.txt", "/odd%20name?c=%3Cscript%3E&e"]) {
    await (await fetch(path)).arrayBuffer();
  }
  await WebAssembly.compileStreaming(fetch("/code.wasm"));
  document.title = "done";
};
</script>"""
# What the server says of these files before it packs them.
UNPACKED = {"/packed.js": script(500), "/packed.txt": b"text that is stored as it was sent\n" * 1000}
BODIES = {
    "/": PAGE,
    "/style.css": b"body { color: red }",
    "/code.js": script(1000),
    # Its main body alone has more than a chunk.
    "/long.js": b"/*%s*/\n" % (b"x" * CHUNK) + script(100),
    "/module.js": script(200),
    # A module with one function, which gives back 11.
    "/code.wasm": bytes.fromhex("0061736D 01000000 0105016000017F 03020100 07050101660000 0A06010400410B0B"),
    "/odd%20name?c=%3Cscript%3E&e": b"an odd address",
    **{path: gzip.compress(body) for path, body in UNPACKED.items()},
    **{f"/{length}.bin": os.urandom(length) for length in (0, 1, 262143, 262144, 262145, 900000)},
}
TYPES = {"": "application/octet-stream", "/": "text/html", ".css": "text/css", ".js": "text/javascript",
         ".txt": "text/plain", ".wasm": "application/wasm"}
# What Firefox compiles, and how the kind begins of what it keeps of that. With these settings it does so at the first
# use.
CODE = {"/code.wasm": b"wasm-", **{path: b"javascript/moz-" for path in BODIES if path.endswith(".js")}}
KEEPS_CODE = {
    "dom.script_loader.bytecode_cache.strategy": -1,
    "dom.script_loader.disk_cache_delay_ms": 0,
    "javascript.options.wasm_lazy_tiering": False,
}
# The bytes of alternative data, by the addresses that have any.
KEPT_CODE = """
const info = Services.loadContextInfo.custom(false, {partitionKey: "(http,127.0.0.1)"});
return new Promise(resolve => {
  const sizes = {};
  Services.cache2.diskCacheStorage(info).asyncVisitStorage({
    onCacheStorageInfo() {},
    onCacheEntryInfo(uri, id, size, alternative) { if (alternative > 0) sizes[uri.spec] = Number(alternative); },
    onCacheEntryVisitCompleted() { resolve(sizes); },
  }, true);
});
"""


class Pages(BaseHTTPRequestHandler):
    """The server of these pages, which counts what it is asked for."""
    protocol_version = "HTTP/1.1"
    asked = collections.Counter()

    def do_GET(self):
        self.asked[self.path] += 1
        body = BODIES.get(self.path)
        self.send_response(200 if body is not None else 404)
        self.send_header("Content-Type", next(kind for end, kind in reversed(TYPES.items()) if self.path.endswith(end)))
        if "packed" in self.path:
            self.send_header("Content-Encoding", "gzip")
        self.send_header("Content-Length", str(len(body or b"")))
        self.send_header("Cache-Control", "max-age=1000000")
        self.end_headers()
        self.wfile.write(body or b"")

    def log_message(self, *_):
        pass


def show(one, port):
    """Lets Firefox show the page. Whether it got to its end."""
    one.go(f"http://127.0.0.1:{port}/")
    until = time.monotonic() + 20
    while one.run("return document.title") != "done" and time.monotonic() < until:
        time.sleep(0.05)
    return one.run("return document.title") == "done"


def with_code(one, count):
    """The addresses of which Firefox keeps a compiled form, once there are so many."""
    until = time.monotonic() + 20
    while len(kept := one.run_inside(KEPT_CODE)) < count and time.monotonic() < until:
        time.sleep(0.2)
    return sorted(kept)


class Written:
    """The profile of a Firefox that showed the page twice, with what import makes of its cache."""

    def __init__(self, firefox, port, room):
        self.firefox, self.port = firefox, port
        self.profile = str(room / "profile")
        self.cache = os.path.join(self.profile, "cache2")
        self.base = f"http://127.0.0.1:{port}"
        self.browse(self.profile, KEEPS_CODE, len(CODE))
        self.asked = set(Pages.asked)
        self.status, self.dump, self.lines = run_tool("import", self.cache, "--report")

    def browse(self, profile, prefs, kept=0):
        """Lets Firefox show the page twice, and end once it keeps so many compiled forms."""
        with Browser(self.firefox, profile, prefs) as one:
            for _ in range(2):
                show(one, self.port)
            with_code(one, kept)
            one.quit()

    def entries(self):
        """The metadata and the stored body of each entry by its name, read from its file."""
        found = {}
        for name in entry_names(self.cache):
            with opened(self.cache, name) as (number, metadata):
                found[name] = metadata, os.pread(number, metadata.body_len, 0)
        return found

    def older_files(self):
        """The entries as files of version 3."""
        return {name: file_of(body, header_bytes(3, one.numbers, len(one.key), one.flags), one.key, one.elements)
                for name, (one, body) in self.entries().items()}

    def served(self):
        """What the server gave for each entry, by its name."""
        names = {key_parts(one.key)[1].decode(): name for name, (one, _) in self.entries().items()}
        return {names[self.base + path]: (path, body) for path, body in BODIES.items()}

    def copy(self, room, files=None):
        """A copy of the profile, whose cache has these files and no index, and the path of its cache."""
        profile = str(room / "copy")
        shutil.copytree(self.profile, profile, ignore=lambda *_: ["cache2", "lock", "MarionetteActivePort"])
        cache = os.path.join(profile, "cache2")
        if files is not None:
            os.makedirs(entries_in(cache))
            for name, data in files.items():
                with open(os.path.join(entries_in(cache), name), "wb") as file:
                    file.write(data)
        return profile, cache


@pytest.fixture(scope="module")
def written(firefox, tmp_path_factory):
    server = ThreadingHTTPServer(("127.0.0.1", 0), Pages)
    threading.Thread(target=server.serve_forever, daemon=True).start()
    yield Written(firefox, server.server_port, tmp_path_factory.mktemp("written"))
    server.shutdown()


def test_what_firefox_wrote(written):
    assert written.asked & set(BODIES) == set(BODIES)
    assert (written.status, len(written.lines)) == (0, 1) and written.lines[0].endswith("; left out 0")
    assert sorted(written.served()) == sorted(written.entries()) == sorted(os.listdir(entries_in(written.cache)))


@pytest.mark.parametrize("path", BODIES)
def test_bodies(written, path):
    """The main body of an entry is what the server gave, and compiled code comes after it where there has to be any."""
    name, served = next((name, body) for name, (other, body) in written.served().items() if other == path)
    metadata, body = written.entries()[name]
    assert (metadata.hashes, digest(body[:len(served)])) == (chunk_hashes(body), digest(served))
    value = elements_in(metadata.elements).get(b"alt-data")
    if path not in CODE:
        assert (value, len(body)) == (None, len(served))
    else:
        begin = b"1;%d,%s" % (len(served), CODE[path])
        assert value.startswith(begin) and len(body) > len(served)


def test_tools_on_its_dump(written, tmp_path):
    parts = {}
    for name, (path, served) in written.served().items():
        _, body = written.entries()[name]
        parts[name] = (body[:len(served)], body[len(served):]) if path in CODE else (body,)
    check_tools_on(written.dump, tmp_path, parts)


def test_extract(written, tmp_path):
    """What was packed on its way is unpacked in the files."""
    assert run_tool("extract", written.cache, f"{tmp_path}/to", "--headers")[0] == 0
    files = files_in(f"{tmp_path}/to")
    rows = [line.split("\t") for line in files["entries.tsv"].decode().splitlines()]
    wanted = {written.base + path: digest(UNPACKED.get(path, body)) for path, body in BODIES.items()}
    assert {row[5]: digest(files[row[0]]) for row in rows} == wanted
    assert sorted(row[5] for row in rows if f"{row[0]}.alt" in files) == sorted(written.base + path for path in CODE)
    assert all(files[f"{row[0]}.headers"].startswith(b"HTTP/1.1 200 OK\r\n") for row in rows)


def test_ls(written):
    status, out, lines = run_tool("ls", written.cache)
    rows = [line.split("\t") for line in out.decode().splitlines()]
    assert (status, lines) == (0, [])
    assert {row[4]: (int(row[0]), row[2]) for row in rows} == {written.base + path: (len(body), "200") for path,
                                                               body in BODIES.items()}
    assert {row[5] for row in rows} == {"on http://127.0.0.1"}


def test_the_program_loads_it(written, program):
    check_loads(program, written.dump, written.older_files())


def test_firefox_serves_what_the_program_loaded(written, program, tmp_path):
    profile, cache = written.copy(tmp_path)
    assert program.ends(cache, "load", given=written.dump) == (0, b"loaded %d\n" % len(BODIES))
    Pages.asked.clear()
    with Browser(written.firefox, profile) as one:
        assert show(one, written.port)
        one.quit()
    assert [path for path in Pages.asked if path in BODIES] == []


def test_firefox_serves_files_of_version_3(written, tmp_path):
    """Without an index and without the server it shows the page, and has the compiled code."""
    profile, _ = written.copy(tmp_path, written.older_files())
    Pages.asked.clear()
    with Browser(written.firefox, profile, KEEPS_CODE) as one:
        assert show(one, written.port)
        assert with_code(one, len(CODE)) == sorted(written.base + path for path in CODE)
        one.quit()
    assert [path for path in Pages.asked if path in BODIES] == []


def test_an_encrypted_cache(written, tmp_path):
    profile = str(tmp_path / "encrypted")
    written.browse(profile, {"browser.cache.disk.encryption.enabled": True})
    cache = os.path.join(profile, "cache2")
    names = entry_names(cache)
    status, dump, lines = run_tool("import", cache, "--report")
    assert len(names) >= len(BODIES)
    assert (status, dump, lines[:-1]) == (1, dump_bytes(), [f"import: {name}: encrypted" for name in names])
    assert run_tool("ls", cache) == (1, b"", [f"ls: {name}: encrypted" for name in names])
