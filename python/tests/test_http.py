"""Responses: how they are stored, and what of them is read back. Also with a real Firefox."""
import collections
import contextlib
import hashlib
import importlib
import io
import os
import subprocess
import sys
import threading
import time
from http.server import BaseHTTPRequestHandler, ThreadingHTTPServer

import cache2
import pytest
from cache2 import http
from cache2.limits import MAX_BODY

URL = "https://example.com/a?b=c"
TOOLS = os.path.join(os.path.dirname(os.path.dirname(os.path.dirname(os.path.abspath(__file__)))), "tools")


ADDRESSES = [
    (URL, URL),
    ("HTTPS://Example.COM", "https://example.com/"),
    ("https://example.com:443/#top", "https://example.com/"),
    ("http://example.com:443/", "http://example.com:443/"),
    ("http://example.com/a b?c d\"<>", "http://example.com/a%20b?c%20d%22%3C%3E"),
    ("http://b\xfccher.example/\xfc?\xfc", "http://xn--bcher-kva.example/%C3%BC?%C3%BC"),
    ("http://user:word@[::1]:8000/%41", "http://user:word@[::1]:8000/%41"),
    ("http://example.com/a/../b/./c/..", "http://example.com/b/"),
    ("http://example.com/../a//b/%zz", "http://example.com/a//b/%zz"),
    ("http://example.com/{'^`|}~[]?{'^`|}~[]\\", "http://example.com/%7B'%5E%60|%7D~[]?{%27^`|}~[]\\"),
    ("http://example.com\\a\\b", "http://example.com/a/b"),
    ("http://example.com?a", "http://example.com/?a"),
]


@pytest.mark.parametrize("url, spelled", ADDRESSES)
def test_addresses(url, spelled):
    assert http.address(url) == spelled
    assert http.key_for(url) == ":" + spelled


@pytest.mark.parametrize("url", ["", "example.com", "/path", "http://", "http://a:b/", "mailto:a@b"])
def test_what_is_no_address(url):
    with pytest.raises(cache2.BadKey):
        http.key_for(url)


def test_keys():
    partition = http.partition_of("https", "example.org")
    assert http.key_for(URL, partition=partition) == f"O^partitionKey=%28https%2Cexample.org%29,:{URL}"
    port = http.partition_of("http", "127.0.0.1", 8000)
    tags = "O^partitionKey=%28http%2C127.0.0.1%2C8000%29,a,"
    assert http.key_for(URL, partition=port, is_anonymous=True) == f"{tags}:{URL}"
    assert http.key_for(URL, extra="x,y") == f"~x,,y,:{URL}"


def test_a_response_is_stored_as_firefox_does(cache):
    headers = [("Content-Type", "text/html"), ("content-length", "999"), ("X-Two", "1"), ("Set-Cookie", "a=b"),
               ("x-two", "2"), ("Set-Cookie", "c=d"), ("Vary", "Accept-Encoding, Cookie"),
               ("Transfer-Encoding", "chunked"), ("Server", "\xfc")]
    request = {"Accept-Encoding": "gzip, deflate, br, zstd", "cookie": "a=b"}
    http.store(cache, URL, 404, headers, b"<p>none", reason="Not Found", request_headers=request, security_info="MII")
    elements = cache.get(":" + URL).elements
    assert list(elements) == ["security-info", "request-method", "request-Accept-Encoding", "request-Cookie",
                              "response-head", "original-response-headers"]
    assert elements["security-info"] == b"MII"
    assert elements["request-method"] == b"GET"
    assert elements["request-Accept-Encoding"] == b"gzip, deflate, br, zstd"
    # As a Firefox ESR 153 wrote it of this cookie.
    assert elements["request-Cookie"] == b"zP8v7ksV4LRvefhs5dHeWRY7tIM="
    assert elements["response-head"] == (b"HTTP/1.1 404 Not Found\r\nContent-Type: text/html\r\nX-Two: 1, 2\r\n"
                                         b"Vary: Accept-Encoding, Cookie\r\nServer: \xfc\r\nContent-Length: 7\r\n")
    assert elements["original-response-headers"].count(b"Set-Cookie") == 2
    response = http.read(cache, URL + "#part")
    assert (response.status, response.reason, response.version, response.method) == (404, "Not Found", "1.1", "GET")
    assert response.headers == headers
    assert response.header("CONTENT-type") == "text/html" and response.header("none") is None
    assert (response.length, response.body.read()) == (7, b"<p>none")


class Unsized(io.RawIOBase):
    """A source whose length nobody knows."""

    def __init__(self, body):
        self.file = io.BytesIO(body)

    def readable(self):
        return True

    def read(self, count=-1):
        return self.file.read(count)


@pytest.mark.parametrize("source", [bytes, io.BytesIO, Unsized])
@pytest.mark.parametrize("length", [0, 100, 3_000_000])
def test_bodies(cache, source, length):
    body = os.urandom(length)
    http.store(cache, URL, 200, {"Content-Type": "image/png"}, source(body))
    response = http.read(cache, URL)
    assert response.entry.elements["response-head"].endswith(b"Content-Length: %d\r\n" % length)
    assert response.length == length
    assert hashlib.sha256(response.body.read()).digest() == hashlib.sha256(body).digest()


def test_what_is_no_response(cache):
    for words in (dict(status=99), dict(reason="a\r\nb"), dict(version="1\n"), dict(headers={"a b": "c"}),
                  dict(headers={"a": "b\r\nc"}), dict(headers={"": "c"}), dict(headers={"a": "b\0"}),
                  dict(method="G\0")):
        given = {"status": 200, "headers": {}, "body": b"x", **words}
        with pytest.raises(cache2.BadElement):
            http.store(cache, URL, **given)
    cache.put(":" + URL, b"no response")
    with pytest.raises(http.NotAResponse):
        http.read(cache, URL)
    with pytest.raises(cache2.NotFound):
        http.read(cache, "https://example.com/none")


def test_a_response_that_is_too_large_leaves_no_old_one(cache):
    large = bytes(MAX_BODY + 1)
    for headers, body in (({"a": "x" * 40_000}, b"new"), ({}, large), ({}, io.BytesIO(large)), ({}, Unsized(large))):
        http.store(cache, URL, 200, {}, b"old")
        with pytest.raises(cache2.TooLarge):
            http.store(cache, URL, 200, headers, body)
        with pytest.raises(cache2.NotFound):
            http.read(cache, URL)


@pytest.mark.parametrize("length", [3, 700_000])
def test_alternative_data_are_no_part_of_a_response(cache, length):
    body, code = os.urandom(length), os.urandom(300_000)
    for elements, wanted in (({"alt-data": f"1;{length},wasm"}, body),
                             ({"alt-data": f"1;0{length},wasm"}, body + code), ({}, body + code)):
        cache.put(":" + URL, body + code, {"response-head": "HTTP/2 200\r\n", **elements})
        response = http.read(cache, URL)
        assert (response.status, response.reason, response.version) == (200, "", "2")
        assert response.length == len(wanted)
        assert response.body.read() == wanted
        assert cache.get(":" + URL).read() == body + code
    response = http.read(cache, URL)
    response.body.read(10)
    assert cache.has(":" + URL)


# ---- a real Firefox

PAGES = {
    "/": (b"<!DOCTYPE html><meta charset=utf-8><title>begun</title><link rel=icon href=data:,><img src=/0.png>"
          b"<img src=/1.png><link rel=stylesheet href=/style.css><script>onload = async () => {"
          b" await (await fetch('/long.bin')).arrayBuffer(); document.title = 'done' }</script>"),
    "/style.css": b"body { color: red }",
    "/0.png": os.urandom(262_144),
    "/1.png": b"",
    "/long.bin": os.urandom(900_000),
}
TYPES = {"/": "text/html", ".css": "text/css", ".png": "image/png", ".bin": "application/octet-stream"}


class Site(BaseHTTPRequestHandler):
    protocol_version = "HTTP/1.1"
    asked = collections.Counter()

    def do_GET(self):
        self.asked[self.path] += 1
        body = PAGES.get(self.path, b"")
        self.send_response(200)
        for name, value in headers_of(self.path):
            self.send_header(name, value)
        self.send_header("Content-Length", str(len(body)))
        self.end_headers()
        self.wfile.write(body)

    def log_message(self, *_):
        pass


def headers_of(path):
    return [("Content-Type", next(kind for end, kind in TYPES.items() if path.endswith(end))),
            ("Cache-Control", "max-age=1000000"), ("X-Two", "1"), ("X-Two", "2")]


@pytest.fixture
def site():
    server = ThreadingHTTPServer(("127.0.0.1", 0), Site)
    threading.Thread(target=server.serve_forever, daemon=True).start()
    Site.asked.clear()
    yield f"http://127.0.0.1:{server.server_port}"
    server.shutdown()
    server.server_close()


@contextlib.contextmanager
def firefox(profile):
    """A Firefox with a profile, where there is one."""
    sys.path.insert(0, os.path.join(TOOLS, "tests"))
    browser_module = importlib.import_module("browser")
    sys.path.pop(0)
    browser = browser_module.find_browser()
    if not browser:
        pytest.skip("there is no firefox-esr or firefox")
    try:
        running = browser_module.Browser(browser, profile).__enter__()
    except browser_module.NoBrowser as error:
        pytest.skip(f"Firefox does not start: {error}")
    try:
        yield running
        running.quit()
    finally:
        running.end()


def show(browser, site):
    browser.go(site + "/")
    until = time.monotonic() + 20
    while (title := browser.run("return document.title")) != "done" and time.monotonic() < until:
        time.sleep(0.05)
    return title


@pytest.mark.seconds(240)
def test_firefox_serves_what_was_stored(room, site):
    profile = os.path.join(room, "profile")
    with cache2.open(os.path.join(profile, "cache2")) as cache:
        partition = http.partition_of("http", "127.0.0.1")
        for path, body in PAGES.items():
            key = http.key_for(site + path, partition=partition)
            http.store(cache, site + path, 200, headers_of(path), body, key=key)
    # An index of version 10 is none for a Firefox of version 153. It then looks at the files.
    with firefox(profile) as browser:
        assert show(browser, site) == "done"
        color = browser.run("return getComputedStyle(document.body).color")
        spell = "return arguments[0].map(one => { const url = new URL(one); url.hash = ''; return url.href })"
        spelled = browser.run(spell, [url for url, _ in ADDRESSES])
    assert spelled == [one for _, one in ADDRESSES]
    assert color == "rgb(255, 0, 0)"
    assert [path for path in Site.asked if path in PAGES] == []


@pytest.mark.seconds(240)
def test_what_firefox_stored_is_read(room, site):
    profile = os.path.join(room, "profile")
    with firefox(profile) as browser:
        assert show(browser, site) == "done"
    assert Site.asked["/"] == 1
    words = [os.path.join(TOOLS, "import"), os.path.join(profile, "cache2")]
    dump = subprocess.run(words, stdout=subprocess.PIPE, check=True)
    with cache2.open(os.path.join(room, "cache")) as cache:
        assert cache.load(io.BytesIO(dump.stdout)) >= len(PAGES)
        keys = {key.partition(":")[2]: key for key in cache.keys()}
        for path, body in PAGES.items():
            response = http.read(cache, site + path, key=keys[site + path])
            assert (response.status, response.reason, response.method) == (200, "OK", "GET")
            own = [one for one in response.headers if one[0] not in ("Server", "Date", "Content-Length")]
            assert own == headers_of(path)
            assert response.body.read() == body
            # The client makes the key that Firefox made.
            assert http.key_for(site + path, partition=http.partition_of("http", "127.0.0.1")) == keys[site + path]
