"""A cache for CacheControl, which caches what requests fetches.

    with cache2.open("/srv/cache") as store:
        session = CacheControl(requests.Session(), cache=cache2.cachecontrol.Cache(store))

What CacheControl keeps of a response stands under the key of its address, with the tag `~cachecontrol` before it.
"""
from __future__ import annotations

import datetime
import logging
import time
from typing import Optional, Union

from cachecontrol.cache import BaseCache

from . import http
from .cache import Cache as Store
from .errors import Cache2Error, Damaged, NotFound, Refused

logger = logging.getLogger(__name__)

# When a response is to be forgotten, in seconds since 1970. No command sets the time of expiration of an entry.
EXPIRES = "expires"


class Cache(BaseCache):
    """Keeps responses in a store that is open. A response that cannot be stored or read is fetched anew."""

    def __init__(self, store: Store, counts_uses: bool = False) -> None:
        self._store = store
        self._counts_uses = counts_uses

    def get(self, key: str) -> Optional[bytes]:
        try:
            name = key_of(key)
            entry = self._store.get(name)
            if time.time() >= float(entry.elements.get(EXPIRES, b"inf")):
                entry.close()
                return None
            if self._counts_uses:
                self._store.use(name)
            return entry.read()
        except NotFound:
            return None
        except Cache2Error as error:
            logger.warning("%s is not served from the cache: %s", key, error)
            if isinstance(error, Damaged):
                self.delete(key)
            return None

    def set(self, key: str, value: bytes, expires: Union[None, int, datetime.datetime] = None) -> None:
        try:
            name = key_of(key)
            try:
                self._store.put(name, value, elements_of(expires))
            except Refused:
                # What is stored there is not this response.
                self._store.doom(name)
                raise
        except Cache2Error as error:
            logger.warning("%s is not stored: %s", key, error)

    def delete(self, key: str) -> None:
        try:
            self._store.doom(key_of(key))
        except Cache2Error as error:
            logger.warning("%s is not removed: %s", key, error)

    def close(self) -> None:
        self._store.flush()


def key_of(key: str) -> str:
    return http.key_for(key, extra="cachecontrol")


def elements_of(expires: Union[None, int, datetime.datetime]) -> "dict[str, str]":
    """`expires` is a moment, or in how many seconds it is."""
    if expires is None:
        return {}
    if isinstance(expires, datetime.datetime):
        return {EXPIRES: str(expires.replace(tzinfo=expires.tzinfo or datetime.timezone.utc).timestamp())}
    return {EXPIRES: str(time.time() + expires)}
