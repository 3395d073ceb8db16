"""A store for Scrapy's cache of responses.

    HTTPCACHE_ENABLED = True
    HTTPCACHE_STORAGE = "cache2.scrapy.Storage"

Each spider has a folder of its own in HTTPCACHE_DIR, which one crawl has at a time. Responses to a plain GET have the
keys that Firefox gives them. CACHE2_FLUSH_EVERY is after how many responses all is synced (100), and CACHE2_WAITING how
many may be on their way to the disk while the crawl goes on (4); a crawl that is killed may lose those. With
CACHE2_COUNT_USES each response that is served counts as a use, by which `evict` chooses. HTTPCACHE_EXPIRATION_SECS is
heeded. The responses to the requests that were scheduled last are read along with one that is served.
"""
from __future__ import annotations

import hashlib
import logging
import os
import time
from http.client import responses as reasons
from typing import Any, Dict, List, Optional, Set

from scrapy import signals
from scrapy.exceptions import IgnoreRequest
from scrapy.responsetypes import responsetypes
from scrapy.utils.project import data_path
from scrapy.utils.request import RequestFingerprinter

from . import http, keys
from .ahead import Ahead
from .cache import Cache
from .errors import Cache2Error, Damaged, NotFound, Refused
from .pipeline import Pipeline

logger = logging.getLogger(__name__)

Headers = Dict[bytes, List[bytes]]

# How many names of entries are held at the most, so that no other response is asked for. More are not held.
NAMES = 200_000
# The address of a response that is not the one that was asked for.
ADDRESS = "scrapy-url"
CONTENT_TYPE = b"Content-Type"


class Storage:
    """Keeps the responses of a spider, which are stored while the crawl goes on."""

    def __init__(self, settings: Any) -> None:
        self._room = data_path(settings["HTTPCACHE_DIR"])
        self._expiration = settings.getint("HTTPCACHE_EXPIRATION_SECS")
        self._flush_every = settings.getint("CACHE2_FLUSH_EVERY", 100) or None
        self._waiting = settings.getint("CACHE2_WAITING", 4)
        self._counts_uses = settings.getbool("CACHE2_COUNT_USES")
        self._failure: Optional[Cache2Error] = None
        self._names: Optional[Set[bytes]] = None
        self._cache: Cache
        self._pipeline: Pipeline

    def open_spider(self, spider: Any) -> None:
        self._fingerprinter = spider.crawler.request_fingerprinter
        path = os.path.join(self._room, spider.name, "cache2")
        try:
            self._cache = Cache(path, flush_every=self._flush_every)
        except Cache2Error as error:
            # A crawl without the cache would ask for each page once more, so there is none.
            self._failure = error
            logger.error("The cache is not open, so the spider is closed: %s", error, extra={"spider": spider})
            spider.crawler.engine.close_spider(spider, f"cache2: {type(error).__name__}")
            return
        self._pipeline = self._cache.pipeline()
        self._ahead = Ahead(self._cache, self._stored_key)
        try:
            self._names = self._cache.names(NAMES)
        except Cache2Error as error:
            logger.warning("Each response is asked for, since there is no list of them: %s", error)
        if self._names:
            spider.crawler.signals.connect(self._ahead.expect, signals.request_scheduled)
            spider.crawler.signals.connect(self._ahead.forget, signals.request_dropped)
        logger.debug("Using the cache in %s", path, extra={"spider": spider})

    def close_spider(self, spider: Any) -> None:
        if self._failure:
            return
        try:
            self._settle(0)
        finally:
            self._cache.close()

    def _settle(self, left: int) -> None:
        """Waits until at most so many calls have no reply. What was not stored is asked for again in the next crawl."""
        try:
            self._pipeline.wait(left)
        except Cache2Error as error:
            logger.warning("A response was not stored: %s", error)

    def _key(self, request: Any) -> bytes:
        """The key of a request: Firefox's for a plain GET, and one with the fingerprint for what Scrapy tells apart."""
        is_plain = request.method == "GET" and not request.body and type(self._fingerprinter) is RequestFingerprinter
        extra = None if is_plain else self._fingerprinter.fingerprint(request).hex()
        return keys.encoded(http.key_for(request.url, extra=extra))

    def _stored_key(self, request: Any) -> Optional[bytes]:
        """The key of a request, or None where no response is stored under it."""
        key = self._key(request)
        is_there = self._names is None or hashlib.sha1(key).digest() in self._names
        return key if is_there else None

    def retrieve_response(self, spider: Any, request: Any) -> Any:
        """The response that is stored, or None."""
        if self._failure:
            raise IgnoreRequest(f"the cache is not open: {self._failure}")
        try:
            entry = self._ahead.read(request)
            if entry is None:
                return None
            line, head = http.head_in(entry)
            if 0 < self._expiration < time.time() - entry.modified:
                entry.close()
                return None
            body = entry.read()
            if self._counts_uses:
                self._pipeline.use(entry.key)
        except Cache2Error as error:
            return self._missed(request, error)
        url = entry.elements.get(ADDRESS, b"").decode() or request.url
        return response_of(url, line.status, headers_of(head), body)

    def _missed(self, request: Any, error: Cache2Error) -> None:
        """What is not served is fetched anew, and stored in its place."""
        if not isinstance(error, NotFound):
            logger.warning("%s is not served from the cache: %s", request, error)
        if isinstance(error, Damaged):
            key = self._key(request)
            self._ahead.drop(key)
            self._pipeline.doom(key)

    def store_response(self, spider: Any, request: Any, response: Any) -> None:
        if self._failure:
            return
        try:
            key = self._key(request)
            self._ahead.drop(key)
            head = http.made_head(
                response.status, [(name, value) for name, values in response.headers.items() for value in values],
                method=request.method, reason=reasons.get(response.status, ""),
                request_headers=[(name, b", ".join(values)) for name, values in request.headers.items()],
                elements={} if response.url == request.url else {ADDRESS: response.url})
            try:
                self._pipeline.put(key, response.body, head.with_length(len(response.body)))
            except Refused:
                # What is stored there is not this response.
                self._pipeline.doom(key)
                raise
            if self._names is not None:
                self._names.add(hashlib.sha1(key).digest())
        except Cache2Error as error:
            logger.warning("%s is not stored: %s", request, error)
        self._settle(self._waiting)


def headers_of(head: bytes) -> Headers:
    """Headers as Scrapy has them: the values of each name, whose words begin with capitals."""
    found: Headers = {}
    for line in head.split(b"\r\n"):
        name, colon, value = line.partition(b":")
        if colon:
            name = name.title()
            value = value.strip(b" \t")
            if name in found:
                found[name].append(value)
            else:
                found[name] = [value]
    return found


def response_of(url: str, status: int, headers: Headers, body: bytes) -> Any:
    """A response of the type that Scrapy finds for it, with these headers."""
    last = {name: values[-1] for name, values in headers.items()}
    kind = responsetypes.from_args(headers=last, url=url, body=body)
    # Scrapy would bring each header twice into the form that it has already. While a response is made only its content
    # type counts, so the others come afterwards.
    types = headers.get(CONTENT_TYPE)
    response = kind(url=url, headers={CONTENT_TYPE: types} if types else None, status=status, body=body)
    response.headers.clear()
    dict.update(response.headers, headers)
    return response
