"""What requests fetches, cached by CacheControl in the store."""
import concurrent.futures
import datetime
import hashlib
import os
import time

import cache2
import pytest
from small_site import Site, digests

cachecontrol = pytest.importorskip("cachecontrol", reason="CacheControl is not installed")
requests = pytest.importorskip("requests", reason="requests is not installed")

PAGES = 40


@pytest.fixture
def site():
    with Site(PAGES) as one:
        yield one
        one.shutdown()


def session_on(store, **more):
    from cache2.cachecontrol import Cache
    return cachecontrol.CacheControl(requests.Session(), cache=Cache(store, **more))


def fetch_all(session, site):
    for path, digest in digests(PAGES).items():
        response = session.get(site.url + path)
        assert response.status_code == 200
        assert hashlib.sha256(response.content).hexdigest() == digest


def test_the_second_time_nothing_is_asked_for(path, site):
    with cache2.open(path) as store, session_on(store) as session:
        fetch_all(session, site)
        asked = site.asked
        fetch_all(session, site)
    with cache2.open(path) as store, session_on(store, counts_uses=True) as session:
        fetch_all(session, site)
        assert site.asked == asked == len(digests(PAGES))
        assert {store.get(key).count for key in store.keys()} == {2}
        assert store.verify() == []


def test_several_threads(path, site):
    with cache2.open(path) as store, concurrent.futures.ThreadPoolExecutor(8) as threads:
        with session_on(store) as session:
            for future in [threads.submit(fetch_all, session, site) for _ in range(8)]:
                future.result()
        assert len(store.list()) == len(digests(PAGES))


def test_what_is_damaged_or_too_large_is_fetched_anew(path, site, caplog):
    from cache2.cachecontrol import key_of
    url = site.url + "/p/1"
    with cache2.open(path) as store, session_on(store) as session:
        body = session.get(url).content
        with open(os.path.join(path, "entries", cache2.name_of(key_of(url))), "r+b") as file:
            file.write(b"torn")
        assert session.get(url).content == body
        assert site.asked == 2
        assert session.get(url).content == body
        assert site.asked == 2
        session.adapters["http://"].cache.set(url, bytes(cache2.limits.MAX_BODY + 1))
        assert session.get(url).content == body
        assert site.asked == 3
    assert [record.levelname for record in caplog.records if record.name == "cache2.cachecontrol"] == ["WARNING"] * 2


def test_the_calls_of_a_cache(path):
    from cache2.cachecontrol import Cache
    now = datetime.datetime.now(datetime.timezone.utc)
    with cache2.open(path) as store:
        cache = Cache(store)
        url = "http://example.com/"
        assert cache.get(url) is None
        for expires, is_there in ((None, True), (100, True), (-1, False), (now + datetime.timedelta(1), True),
                                  (now - datetime.timedelta(1), False)):
            cache.set(url, b"value", expires)
            assert cache.get(url) == (b"value" if is_there else None)
        cache.set(url, b"value")
        cache.delete(url)
        cache.delete(url)
        assert cache.get(url) is None
        for call in (lambda: cache.get("no address"), lambda: cache.set("no address", b"x"),
                     lambda: cache.delete("no address")):
            assert call() is None
        cache.close()


def test_a_program_that_dies(path, site, started):
    with cache2.open(path) as store, session_on(store) as session:
        fetch_all(session, site)
        started[-1].kill()
        time.sleep(0.05)
        fetch_all(session, site)
        # The one call that met the end was answered by the server.
        assert site.asked == len(digests(PAGES)) + 1
