"""Crawls by Scrapy with the store as its cache, over a site on this machine."""
import os
import random
import signal
import subprocess
import sys
import tempfile
import time

import cache2
import pytest
from compare import children_of
from small_site import Site, digests

pytest.importorskip("scrapy", reason="Scrapy is not installed")

ROOT = os.path.dirname(os.path.dirname(os.path.abspath(__file__)))
CRAWL = os.path.join(ROOT, "bench", "crawl.py")
# A run by hand may take a larger site.
PAGES = int(os.environ.get("CACHE2_TEST_PAGES", "40"))
KILLS = int(os.environ.get("CACHE2_TEST_KILLS", "2"))
LONG = pytest.mark.seconds(600 + PAGES)
# How many responses are stored without waiting in the crawls that are killed, and how many may be lost: a log has them
# in nearly the order in which they are stored.
WAITING, UNANSWERED = 3, 8


@pytest.fixture
def site():
    with Site(PAGES) as one:
        yield one
        one.shutdown()


class Crawls:
    """Crawls of one spider, one after another, with one folder."""

    def __init__(self, site, room):
        self.site, self.room, self.count = site, room, 0
        self.folder = os.path.join(room, "pages", "cache2")
        self.expected = digests(PAGES)

    def start(self, *settings):
        self.count += 1
        self.log = os.path.join(self.room, f"log{self.count}")
        words = [sys.executable, CRAWL, self.site.url, self.room, self.log, *settings]
        return subprocess.Popen(words, stderr=subprocess.PIPE, text=True, cwd=self.room,
                                env={**os.environ, "PYTHONPATH": ROOT})

    def run(self, *settings):
        """What a crawl prints to standard error."""
        crawl = self.start(*settings)
        said = crawl.communicate(timeout=300)[1]
        assert crawl.returncode == 0
        return said

    def responses(self):
        """By paths, whether the responses of the last crawl came from the cache. Each is the one of the site."""
        found = {}
        if os.path.exists(self.log):
            with open(self.log, encoding="utf-8") as log:
                for line in log.read().split("\n")[:-1]:
                    path, *rest = line.split(" ")
                    if path != "end":
                        digest, came, is_whole = rest[:3]
                        assert (digest, is_whole) == (self.expected[path], "True"), path
                        found[path] = came == "cached"
        return found

    def reason(self):
        with open(self.log, encoding="utf-8") as log:
            return log.read().rstrip("\n").rpartition("\n")[2]


@pytest.fixture
def crawls(site, room):
    return Crawls(site, room)


@LONG
def test_crawls_one_after_another(crawls, site):
    """The second asks for nothing. Uses are counted where wanted. What is damaged or expired is fetched anew."""
    assert crawls.run() == ""
    assert crawls.responses() == dict.fromkeys(crawls.expected, False)
    asked = site.asked
    crawls.run("CACHE2_COUNT_USES=1")
    assert crawls.responses() == dict.fromkeys(crawls.expected, True)
    assert site.asked == asked
    with cache2.open(crawls.folder) as cache:
        assert len(cache.list()) == len(crawls.expected)
        assert cache.verify() == []
        keys = sorted(cache.keys())
        assert {cache.get(key).count for key in keys} == {2}
    # The keys are those of Firefox.
    assert keys == sorted(f":{site.url}{path}" for path in crawls.expected)
    for key in keys[:9]:
        with open(os.path.join(crawls.folder, "entries", cache2.name_of(key)), "r+b") as file:
            file.write(b"torn")
    assert crawls.run().count("is not served from the cache") == 9
    assert site.asked == asked + 9
    assert set(crawls.responses()) == set(crawls.expected)
    crawls.run("HTTPCACHE_EXPIRATION_SECS=1")
    assert site.asked == 2 * asked + 9
    assert crawls.responses() == dict.fromkeys(crawls.expected, False)


@LONG
def test_crawls_that_are_killed(crawls):
    """Nothing torn is served afterwards, and what was there before is served from the cache."""
    chance = random.Random(1)
    before = set()
    for number in range(KILLS):
        crawl = crawls.start("CACHE2_FLUSH_EVERY=5", f"CACHE2_WAITING={WAITING}")
        wanted = len(before) + chance.randrange(1, max(2, len(crawls.expected) // KILLS))
        until = time.monotonic() + 120
        while len(crawls.responses()) < wanted and crawl.poll() is None and time.monotonic() < until:
            time.sleep(0.01)
        time.sleep(chance.random() * 0.02)
        programs = children_of(crawl.pid) if number % 2 and crawl.poll() is None else []
        for one in programs:
            kill(one)
        kill(crawl.pid)
        said = crawl.communicate()[1]
        # One that was done before ended well.
        assert crawl.returncode == -signal.SIGKILL or crawls.reason() == "end finished", said
        served = crawls.responses()
        assert [path for path in before & set(served) if not served[path]] == []
        # What was stored last had no reply yet, and may be lost.
        before |= set(list(served)[:-UNANSWERED])
    crawls.run()
    served = crawls.responses()
    assert set(served) == set(crawls.expected)
    assert [path for path in before if not served[path]] == []
    crawls.run()
    assert crawls.responses() == dict.fromkeys(crawls.expected, True)
    with cache2.open(crawls.folder) as cache:
        assert cache.verify() == []


def kill(pid):
    try:
        os.kill(pid, signal.SIGKILL)
    except ProcessLookupError:
        pass


@LONG
def test_two_spiders_on_one_folder(crawls, site):
    with cache2.open(crawls.folder):
        said = crawls.run()
    assert "the folder is in use by another run" in said
    assert crawls.responses() == {} and site.asked == 0
    assert crawls.reason() == "end cache2: InUse"


HEADERS = [
    {"Content-Type": "text/html; charset=iso-8859-2", "Server": "one", "X-Two": ["1", "2"], "Date": "now"},
    {"x-lower": "1", "Content-Type": ["text/plain", "text/html; charset=cp1251"], "X-EMPTY": ""},
    {"Content-Type": "image/png"},
    {"Content-Disposition": "attachment; filename=a.html", "Content-Type": "application/x-other"},
    {"Content-Encoding": "gzip", "Content-Type": "text/html"},
    {"X-Latin": "caf\xe9".encode("latin-1"), "X-Colon": "a: b:c"},
    {},
]


@pytest.mark.filterwarnings("ignore")
def test_a_response_is_as_scrapy_makes_it(room):
    """Its type, its encoding and its headers with their order. Nothing of it is shared with the next one."""
    from cache2.scrapy import Storage
    from scrapy.http import Headers, Request, Response
    from scrapy.responsetypes import responsetypes
    from scrapy.settings import Settings
    from scrapy.signalmanager import SignalManager
    from scrapy.utils.request import RequestFingerprinter

    class Crawler:
        request_fingerprinter, signals = RequestFingerprinter(None), SignalManager()

    class Spider:
        name, crawler = "one", Crawler

    storage = Storage(Settings({"HTTPCACHE_DIR": room}))
    storage.open_spider(Spider)
    for body in ("<html><p>\u0159".encode("iso-8859-2"), bytes(range(256)), b""):
        for number, words in enumerate(HEADERS):
            url, headers = f"https://example.com/{number}", Headers(words)
            storage.store_response(Spider, Request(url), Response(url, 203, headers, body))
            kind = responsetypes.from_args(headers=headers, url=url, body=body)
            wanted = kind(url, 203, headers, body)
            for _ in range(2):
                found = storage.retrieve_response(Spider, Request(url))
                assert (type(found), found.status, found.url, found.body) == (kind, 203, url, body)
                assert type(found.headers) is Headers and list(found.headers.items()) == list(headers.items())
                assert getattr(found, "encoding", None) == getattr(wanted, "encoding", None)
                assert found.replace(body=b"x").headers == headers
                for values in map(found.headers.getlist, found.headers):
                    values.append(b"more")
    storage.close_spider(Spider)


@pytest.mark.filterwarnings("ignore")
def test_requests_that_scrapy_tells_apart(room):
    """A request by another method, with a body or with a fingerprint of another kind has a key of its own."""
    from cache2.scrapy import Storage
    from scrapy.http import HtmlResponse, Request
    from scrapy.settings import Settings
    from scrapy.signalmanager import SignalManager
    from scrapy.utils.request import RequestFingerprinter

    class Own(RequestFingerprinter):
        pass

    class Crawler:
        request_fingerprinter, signals = RequestFingerprinter(None), SignalManager()

    class Spider:
        name, crawler = "one", Crawler

    storage = Storage(Settings({"HTTPCACHE_DIR": room}))
    storage.open_spider(Spider)
    url = "https://example.com/a#b"
    requests = [Request(url), Request(url, method="HEAD"), Request(url, method="POST", body=b"1"),
                Request(url, method="POST", body=b"2"), Request(url, body=b"3")]
    for number, request in enumerate(requests):
        headers = {"Content-Type": "text/html", "X-Two": ["1", "2"]}
        storage.store_response(Spider, request, HtmlResponse(url, 200 + number, headers, b"%d" % number))
    there = Request("https://example.com/long")
    storage.store_response(Spider, there, HtmlResponse("https://example.com/other", 200, {}, b""))
    for number, request in enumerate(requests):
        found = storage.retrieve_response(Spider, request)
        assert (found.status, found.body, found.url, type(found)) == (200 + number, b"%d" % number, url, HtmlResponse)
        assert found.headers.getlist("X-Two") == [b"1", b"2"]
    assert storage.retrieve_response(Spider, there).url == "https://example.com/other"
    Crawler.request_fingerprinter = Own(None)
    storage.close_spider(Spider)
    storage.open_spider(Spider)
    assert storage.retrieve_response(Spider, requests[0]) is None
    # What cannot be stored leaves no old response, and the crawl goes on.
    Crawler.request_fingerprinter = RequestFingerprinter(None)
    storage.close_spider(Spider)
    storage.open_spider(Spider)
    storage.store_response(Spider, requests[0], HtmlResponse(url, 200, {"X-Long": "x" * 70_000}, b"new"))
    assert storage.retrieve_response(Spider, requests[0]) is None
    storage.close_spider(Spider)


@pytest.mark.filterwarnings("ignore")
def test_responses_are_asked_for_ahead(room, monkeypatch):
    """The responses to the requests that were scheduled last come with the one that is wanted. Each is the one that is
    stored then, also where the program was killed meanwhile. No body goes to a temporary file.
    """
    monkeypatch.delattr(tempfile, "TemporaryFile")
    from cache2.scrapy import Storage
    from scrapy import signals
    from scrapy.http import HtmlResponse, Request
    from scrapy.settings import Settings
    from scrapy.signalmanager import SignalManager
    from scrapy.utils.request import RequestFingerprinter

    class Crawler:
        request_fingerprinter, signals = RequestFingerprinter(None), SignalManager()

    class Spider:
        name, crawler = "one", Crawler

    def body_of(number):
        return b"%d" % number * (900_000 if number % 7 == 6 else 1)

    def scheduled(count, signal=signals.request_scheduled):
        made = [Request(f"https://example.com/{number}") for number in range(count)]
        for request in made:
            Crawler.signals.send_catch_log(signal, request=request, spider=Spider)
        return made

    def found(request):
        response = storage.retrieve_response(Spider, request)
        return response and response.body

    storage = Storage(Settings({"HTTPCACHE_DIR": room}))
    storage.open_spider(Spider)
    requests = scheduled(40)
    for number, request in enumerate(requests):
        storage.store_response(Spider, request, HtmlResponse(request.url, 200, {}, body_of(number)))
    storage.close_spider(Spider)
    storage.open_spider(Spider)
    calls = []
    cache = storage._cache
    send = cache.send_ahead
    cache.send_ahead = lambda key, others: calls.append(1 + len(others)) or send(key, others)

    requests = scheduled(40)
    # One that cannot be stored, and one that was not.
    for url in ("https://example.com/" + "x" * 70_000, "https://example.com/none"):
        Crawler.signals.send_catch_log(signals.request_scheduled, request=Request(url), spider=Spider)
    assert [found(request) for request in reversed(requests)] == [body_of(number) for number in reversed(range(40))]
    assert calls == [9, 9, 9, 9, 4]
    # In another order, and some that were dropped.
    requests = scheduled(40)
    for request in requests[::2]:
        Crawler.signals.send_catch_log(signals.request_dropped, request=request, spider=Spider)
    assert [found(request) for request in requests] == [body_of(number) for number in range(40)]

    # Where they are made anew, as those that Scrapy keeps on the disk, few are asked for in vain.
    calls.clear()
    for _ in range(5):
        assert [found(Request(request.url)) for request in scheduled(40)] == [body_of(number) for number in range(40)]
    assert sum(calls) < 80

    storage.close_spider(Spider)
    storage.open_spider(Spider)
    requests = scheduled(8)
    assert found(requests[-1]) == body_of(7)
    storage.store_response(Spider, requests[3], HtmlResponse(requests[3].url, 200, {}, b"new"))
    assert found(requests[3]) == b"new"
    requests = scheduled(8)
    assert found(requests[-1]) == body_of(7)
    for one in children_of(os.getpid()):
        kill(one)
    # That of 6 is longer than a pipe: it is not served where a part of it has come.
    assert found(requests[6]) in (None, body_of(6))
    assert [found(requests[number]) for number in (6, 5, 2)] == [body_of(number) for number in (6, 5, 2)]
    storage.close_spider(Spider)
