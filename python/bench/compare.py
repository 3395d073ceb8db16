#!/usr/bin/python3
"""Compares the store with the caches that crawlers use now: those of Scrapy, and the FileCache of CacheControl.

compare.py crawl PAGES ROUNDS [NAME]  a crawl by each, or by that one, with an empty cache, and one more: time, in
                                      brackets that of the processor, that of waiting for one and that of the processor
                                      for the cache, and then bytes and files
compare.py fetch PAGES ROUNDS [NAME]  the same by requests with CacheControl, without the time for the cache
compare.py kills COUNT [NAME]         each, or that one, is killed amid storing, so many times: what it serves then

The program is found as by the client. Each line is a row of a table; of the rounds the least counts.
"""
import compileall
import hashlib
import importlib
import json
import os
import random
import shutil
import signal
import subprocess
import sys
import tempfile
import time
import urllib.request
import warnings

HERE = os.path.dirname(os.path.realpath(__file__))
sys.path[:0] = [os.path.dirname(HERE)]
sys.dont_write_bytecode = True
SCRAPY = "scrapy.extensions.httpcache"
STORAGES = {
    "FilesystemCacheStorage": [f"HTTPCACHE_STORAGE={SCRAPY}.FilesystemCacheStorage"],
    "DbmCacheStorage": [f"HTTPCACHE_STORAGE={SCRAPY}.DbmCacheStorage", "HTTPCACHE_DBM_MODULE=dbm.gnu"],
    "cache2": ["HTTPCACHE_STORAGE=cache2.scrapy.Storage"],
}
FETCHES = ("FileCache", "cache2")


# ---- crawls

class Server:
    """The site, in a process of its own."""

    def __init__(self, pages):
        words = [sys.executable, os.path.join(HERE, "small_site.py"), str(pages)]
        self.process = subprocess.Popen(words, stdin=subprocess.PIPE, stdout=subprocess.PIPE)
        self.url = f"http://127.0.0.1:{int(self.process.stdout.readline())}"

    def asked(self):
        with urllib.request.urlopen(self.url + "/asked") as reply:
            return int(reply.read())

    def __enter__(self):
        return self

    def __exit__(self, *_):
        self.process.stdin.close()
        self.process.wait()
        self.process.stdout.close()


def installed(room):
    """The environment of a process that finds the package as one that is installed: its modules are compiled."""
    folder = os.path.join(room, "package")
    shutil.copytree(os.path.join(os.path.dirname(HERE), "cache2"), os.path.join(folder, "cache2"))
    compileall.compile_dir(folder, quiet=1)
    return {**os.environ, "PYTHONPATH": folder, "PYTHONDONTWRITEBYTECODE": "1"}


def timed(words, environment):
    """The seconds of a process, those of the processor for it and what it started, those in which the process could
    have gone on and had no processor, and the number that it prints, if any.
    """
    begun = time.monotonic()
    child = subprocess.Popen(words, env=environment, stdout=subprocess.PIPE)
    # It is still there, so that the system tells of it.
    os.waitid(os.P_PID, child.pid, os.WEXITED | os.WNOWAIT)
    ended = time.monotonic()
    with open(f"/proc/{child.pid}/schedstat", encoding="ascii") as file:
        queued = int(file.read().split()[1]) / 1e9
    _, status, usage = os.wait4(child.pid, 0)
    child.returncode = os.waitstatus_to_exitcode(status)
    assert child.returncode == 0, words
    with child.stdout:
        printed = child.stdout.read()
    return ended - begun, usage.ru_utime + usage.ru_stime, queued, *map(float, printed.split())


def on_disk(folder):
    """The bytes that the files of a folder take, and their number."""
    paths = [os.path.join(place, name) for place, _, names in os.walk(folder) for name in names]
    return sum(os.lstat(path).st_blocks * 512 for path in paths), len(paths)


def served(log):
    """The digests by paths, and how many came from the cache."""
    with open(log, encoding="utf-8") as file:
        lines = [line.split() for line in file if not line.startswith("end")]
    return {words[0]: words[1] for words in lines}, sum(words[2] == "cached" for words in lines)


def crawl_twice(server, pages, room, words, environment):
    """The times of two crawls, and what the cache takes."""
    from small_site import digests
    shutil.rmtree(room, ignore_errors=True)
    os.mkdir(room)
    expected, log, times = digests(pages), os.path.join(room, "log"), []
    for number in range(2):
        before = server.asked()
        times.append(timed(words(server.url, os.path.join(room, "cache"), log), environment))
        found, cached = served(log)
        os.remove(log)
        assert found == expected, "another body"
        wanted = (len(expected), 0) if number == 0 else (0, len(expected))
        assert (server.asked() - before, cached) == wanted, (server.asked() - before, cached)
    return (*times, on_disk(os.path.join(room, "cache")))


def scrapy_words(name):
    return lambda url, folder, log: [sys.executable, os.path.join(HERE, "crawl.py"), url, folder, log, *STORAGES[name]]


def fetch_words(name):
    return lambda url, folder, log: [sys.executable, os.path.join(HERE, "fetch.py"), url, folder, log, name]


def compare_crawls(names, words, pages, rounds, only=""):
    """A row for each: the least of each number."""
    pages, rounds = int(pages), int(rounds)
    found = {name: [] for name in names if only in name}
    with Server(pages) as server, tempfile.TemporaryDirectory() as room:
        environment = installed(room)
        for _ in range(rounds):
            for name in found:
                found[name].append(crawl_twice(server, pages, os.path.join(room, "one"), words(name), environment))
    print(f"load {os.getloadavg()[0]:.1f}, least of {rounds} rounds")
    for name, each in found.items():
        least = [[min(column) for column in zip(*(one[at] for one in each))] for at in (0, 1)]
        columns = ["{:.2f} ({})".format(first, ", ".join(f"{one:.2f}" for one in others)) for first, *others in least]
        size, count = each[-1][2]
        print(f"| {name} | {' | '.join(columns)} | {size / 1e6:.1f} | {count:,} |", flush=True)


# ---- kills

def body_of(number, turn):
    return random.Random(f"{number}/{turn}").randbytes(2000 + number * 7919 % 60_000)


class Scrapy:
    """A storage of Scrapy, without a crawl."""

    def __init__(self, name):
        self.name = name

    def open(self, folder):
        from scrapy.settings import Settings
        from scrapy.signalmanager import SignalManager
        from scrapy.utils.misc import load_object
        from scrapy.utils.request import RequestFingerprinter

        class Crawler:
            request_fingerprinter, signals = RequestFingerprinter(None), SignalManager()

        class Spider:
            name, crawler = "one", Crawler
        settings = Settings({"HTTPCACHE_DIR": folder, **dict(one.split("=", 1) for one in STORAGES[self.name])})
        self.spider = Spider
        self.storage = load_object(settings["HTTPCACHE_STORAGE"])(settings)
        self.storage.open_spider(Spider)

    def store(self, number, turn):
        from scrapy.http import HtmlResponse, Request
        url = f"http://example.com/{number}"
        headers = {"Content-Type": "text/html", "X-Turn": str(turn)}
        self.storage.store_response(self.spider, Request(url), HtmlResponse(url, 200, headers, body_of(number, turn)))

    def served(self, number):
        """The turn that the headers tell, and the body, or None."""
        from scrapy.http import Request
        response = self.storage.retrieve_response(self.spider, Request(f"http://example.com/{number}"))
        return response and (int(response.headers["X-Turn"]), response.body)

    def close(self):
        self.storage.close_spider(self.spider)


class CacheControl:
    """A cache of CacheControl, with what it stores of a response."""

    def __init__(self, name):
        self.name = name

    def open(self, folder):
        self.store_of = None
        if self.name == "FileCache":
            from cachecontrol.caches import FileCache
            self.cache = FileCache(folder)
        else:
            import cache2
            from cache2.cachecontrol import Cache
            self.store_of = cache2.open(folder)
            self.cache = Cache(self.store_of)

    def request(self, number):
        import requests
        return requests.Request("GET", f"http://example.com/{number}", headers={"A": "b"}).prepare()

    def store(self, number, turn):
        from cachecontrol.serialize import Serializer
        from urllib3 import HTTPResponse
        body = body_of(number, turn)
        response = HTTPResponse(body, {"X-Turn": str(turn), "Content-Length": str(len(body))}, 200)
        self.cache.set(f"http://example.com/{number}", Serializer().dumps(self.request(number), response, body))

    def served(self, number):
        from cachecontrol.serialize import Serializer
        response = Serializer().loads(self.request(number), self.cache.get(f"http://example.com/{number}"))
        return response and (int(response.headers["X-Turn"]), response.read())

    def close(self):
        if self.store_of:
            self.store_of.close()


KEYS = 60


def store_until_killed(one, folder, log, first_turn, begun):
    """Stores responses to one key after another, and tells in the log what was begun and what is done."""
    one.open(folder)
    os.write(begun, b"x")
    numbers = random.Random(first_turn).sample(range(KEYS), KEYS)
    for turn in range(first_turn, first_turn + 100_000):
        for number in numbers:
            os.write(log, b"begin %d %d\n" % (number, turn))
            one.store(number, turn)
            os.write(log, b"done %d %d\n" % (number, turn))


def children_of(pid):
    with open(f"/proc/{pid}/task/{pid}/children", encoding="ascii") as file:
        return list(map(int, file.read().split()))


def kill_once(one, folder, log_path, first_turn, chance, with_program):
    """Lets a process store, and kills it after a moment."""
    read, write = os.pipe()
    child = os.fork()
    if not child:
        os.close(read)
        log = os.open(log_path, os.O_WRONLY | os.O_CREAT | os.O_APPEND, 0o600)
        try:
            store_until_killed(one, folder, log, first_turn, write)
        finally:
            os._exit(1)
    os.close(write)
    os.read(read, 1)
    os.close(read)
    time.sleep(chance.uniform(0.02, 0.4))
    # It is held meanwhile, so that it does not go on without the program.
    os.kill(child, signal.SIGSTOP)
    for pid in [*(children_of(child) if with_program else []), child]:
        os.kill(pid, signal.SIGKILL)
    os.waitpid(child, 0)


def look(one, folder, log_path, out, first_turn):
    """What is served of each key that was begun before this kill: right, torn, an error, another version, or none."""
    with open(log_path, encoding="ascii") as log:
        lines = [line.split() for line in log.read().split("\n")[:-1]]
    done, begun = {}, {}
    for word, number, turn in lines:
        (done if word == "done" else begun)[int(number)] = int(turn)
    begun = {number: turn for number, turn in begun.items() if turn >= first_turn}
    counts = dict(stored=len(begun), right=0, torn=0, raised=0, wrong=0, missing=0, missing_stored=0)
    is_open = False
    for number in begun:
        try:
            if not is_open:
                one.open(folder)
                is_open = True
            found = one.served(number)
        except Exception:
            counts["raised"] += 1
            continue
        if found is None:
            counts["missing"] += 1
            counts["missing_stored"] += begun[number] == done.get(number)
            continue
        turn, body = found
        is_whole = hashlib.sha256(body).digest() == hashlib.sha256(body_of(number, turn)).digest()
        kind = "torn" if not is_whole else "right" if turn in (begun[number], done.get(number)) else "wrong"
        counts[kind] += 1
    if is_open:
        one.close()
    with open(out, "w", encoding="ascii") as file:
        json.dump(counts, file)


def load_modules():
    """Imports here what each fork would import otherwise."""
    for name in ("cachecontrol.caches", "cachecontrol.serialize", "cache2.cachecontrol", "cache2.scrapy", "dbm.gnu",
                 "requests", "scrapy.extensions.httpcache", "scrapy.http", "scrapy.settings", "scrapy.utils.request",
                 "urllib3"):
        importlib.import_module(name)


def compare_kills(count, only=""):
    load_modules()
    kinds = [("FilesystemCacheStorage", Scrapy, False), ("DbmCacheStorage", Scrapy, False), ("cache2", Scrapy, False),
             ("cache2", Scrapy, True), ("FileCache", CacheControl, False), ("cache2", CacheControl, False),
             ("cache2", CacheControl, True)]
    print("| cache | stored | right | torn | raised | other version | missing | missing, said to be stored |")
    for name, kind, with_program in kinds:
        label = f"{name} ({kind.__name__}{', program killed, too' if with_program else ''})"
        if only not in label:
            continue
        chance, sums = random.Random(1), {}
        with tempfile.TemporaryDirectory() as room:
            log, out = os.path.join(room, "log"), os.path.join(room, "out")
            one = kind(name)
            for number in range(count):
                first_turn = 1 + number * 1_000_000
                kill_once(one, os.path.join(room, "cache"), log, first_turn, chance, with_program)
                # The look has a process of its own, since the reading of a broken file may end it.
                child = os.fork()
                if not child:
                    try:
                        look(one, os.path.join(room, "cache"), log, out, first_turn)
                    finally:
                        os._exit(0)
                os.waitpid(child, 0)
                with open(out, encoding="ascii") as file:
                    for what, many in json.load(file).items():
                        sums[what] = sums.get(what, 0) + many
                os.remove(out)
        print(f"| {label} | " + " | ".join(f"{many:,}" for many in sums.values()) + " |", flush=True)


def main():
    warnings.simplefilter("ignore")
    what, *numbers = sys.argv[1:]
    if what == "crawl":
        compare_crawls(list(STORAGES), scrapy_words, *numbers)
    elif what == "fetch":
        compare_crawls(FETCHES, fetch_words, *numbers)
    elif what == "kills":
        compare_kills(int(numbers[0]), *numbers[1:])
    else:
        sys.exit(__doc__)


if __name__ == "__main__":
    main()
