"""The folder of a cache, which one run has at a time."""
from __future__ import annotations

import fcntl
import os
import time
from typing import Union

from .errors import InUse, NotACache

Path = Union[str, "os.PathLike[str]"]

# What may stand in the folder of a cache that has no `entries` yet.
NAMES = {"doomed", "index", "index.log", "index.tmp", "clear", "synced"}
# How long to wait between two tries to lock a folder.
PAUSE = 0.02


class Folder:
    """A folder that nobody else has. It is made where it is missing.

    The lock is the program's own, which takes it at its first call of the disk and holds it to its end. Here it is only
    asked for, and given up at once, so that a folder in use is told soon, and by its name.
    """

    def __init__(self, path: Path, wait: float) -> None:
        self._number = -1
        self._wait = wait
        self.path = os.path.abspath(os.fspath(path))
        self._make()
        try:
            self._number = os.open(self.path, os.O_RDONLY | os.O_DIRECTORY | os.O_CLOEXEC)
        except OSError as error:
            raise NotACache(f"{self.path}: {error.strerror}") from error
        try:
            self._check()
            self.wait_until_free()
        except BaseException:
            self.close()
            raise

    def _make(self) -> None:
        try:
            self.path.encode("utf-8")
        except UnicodeEncodeError:
            raise NotACache(f"the path of a cache is UTF-8, and this is not: {self.path!r}") from None
        try:
            os.makedirs(self.path, 0o700, exist_ok=True)
        except OSError as error:
            raise NotACache(f"{self.path}: {error.strerror}") from error

    def _check(self) -> None:
        """A folder of other things is not made a cache by mistake."""
        names = set(os.listdir(self._number))
        if names - NAMES and not os.path.isdir(os.path.join(self.path, "entries")):
            raise NotACache(f"{self.path}: the folder has other things in it, and no folder `entries`")

    def is_free(self) -> bool:
        """Whether no run has the folder."""
        try:
            fcntl.flock(self._number, fcntl.LOCK_EX | fcntl.LOCK_NB)
        except BlockingIOError:
            return False
        except OSError as error:
            raise NotACache(f"{self.path}: the folder cannot be locked: {error.strerror}") from error
        fcntl.flock(self._number, fcntl.LOCK_UN)
        return True

    def wait_until_free(self) -> None:
        """Waits as long as was said, and then tells that the folder is in use."""
        until = time.monotonic() + self._wait
        while not self.is_free():
            if time.monotonic() >= until:
                raise self.in_use()
            time.sleep(PAUSE)

    def in_use(self) -> InUse:
        return InUse(f"{self.path}: the folder is in use by another run")

    def __del__(self) -> None:
        self.close()

    def close(self) -> None:
        if self._number >= 0:
            os.close(self._number)
            self._number = -1
