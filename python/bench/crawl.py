#!/usr/bin/python3
"""crawl.py URL FOLDER LOG [SETTING=VALUE ..]

Crawls a site of small_site.py by Scrapy, with a cache in FOLDER. LOG gets a line for each response when it comes: its
path, the SHA-256 of its body, whether it came from the cache, whether its headers are whole, and its type. The last
line is the reason of the end. It prints the seconds of the processor that went to the cache: to the calls of the
storage, without the garbage that was collected meanwhile, and to the processes that it started.
"""
import functools
import gc
import hashlib
import os
import re
import resource
import sys
import time
from urllib.parse import urlsplit

import scrapy
from scrapy.crawler import CrawlerProcess
from scrapy.utils.misc import load_object

LINK = re.compile(rb'href="([^"]+)"')


class Meter:
    """The seconds of the processor in which this thread was within some calls, and collected no garbage."""

    def __init__(self):
        self.seconds = self.collecting = 0.0
        gc.callbacks.append(self.collected)

    def collected(self, phase, _):
        self.collecting += time.thread_time() if phase == "stop" else -time.thread_time()

    def metered(self, method):
        @functools.wraps(method)
        def call(*words):
            begun = time.thread_time() - self.collecting
            try:
                return method(*words)
            finally:
                self.seconds += time.thread_time() - self.collecting - begun
        return call

    def storage(self, kind):
        """A storage of that kind whose calls count."""
        calls = ("open_spider", "retrieve_response", "store_response", "close_spider")
        return type("Metered", (kind,), {name: self.metered(getattr(kind, name)) for name in calls})


class Pages(scrapy.Spider):
    name = "pages"

    def __init__(self, url, log):
        super().__init__()
        self.start_urls = [url + "/p/0"]
        self.log_file = os.open(log, os.O_WRONLY | os.O_CREAT | os.O_APPEND, 0o600)

    def say(self, line):
        os.write(self.log_file, line.encode() + b"\n")

    def parse(self, response):
        kind = response.headers.get("Content-Type", b"").decode()
        came = "cached" if "cached" in response.flags else "fetched"
        whole = response.status == 200 and len(response.headers.getlist("Set-Cookie")) == 2
        self.say(f"{urlsplit(response.url).path} {hashlib.sha256(response.body).hexdigest()} {came} {whole} {kind}")
        if kind.startswith("text/html"):
            for link in LINK.findall(response.body):
                yield scrapy.Request(response.urljoin(link.decode()), self.parse)

    def closed(self, reason):
        self.say(f"end {reason}")


def main():
    url, folder, log, *words = sys.argv[1:]
    settings = {"HTTPCACHE_STORAGE": "cache2.scrapy.Storage", **dict(word.split("=", 1) for word in words)}
    meter = Meter()
    settings["HTTPCACHE_STORAGE"] = meter.storage(load_object(settings["HTTPCACHE_STORAGE"]))
    process = CrawlerProcess({
        "LOG_LEVEL": "WARNING", "TELNETCONSOLE_ENABLED": False, "COOKIES_ENABLED": False, "RETRY_ENABLED": False,
        "CONCURRENT_REQUESTS_PER_DOMAIN": 16, "REQUEST_FINGERPRINTER_IMPLEMENTATION": "2.7",
        "HTTPCACHE_ENABLED": True, "HTTPCACHE_DIR": folder, **settings})
    process.crawl(Pages, url=url, log=log)
    process.start()
    started = resource.getrusage(resource.RUSAGE_CHILDREN)
    print(meter.seconds + started.ru_utime + started.ru_stime)


if __name__ == "__main__":
    main()
