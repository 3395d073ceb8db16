"""A client of cache2, a disk store in the format of Firefox's HTTP cache that gives every body back.

    with cache2.open("/srv/cache") as cache:
        cache.put(":https://example.com/", b"hello", {"note": "first"})
        print(cache.get(":https://example.com/").read())

The program `cache2` does the work. It is found by CACHE2_PROGRAM, on the PATH, or in the repository of this package.
"""
from .cache import Cache, open
from .entry import Entry
from .errors import (
    BadDump, BadElement, BadKey, BadReply, Busy, Cache2Error, Closed, Damaged, DiskFailed, Fault, Finished,
    HasAlternative, InputFailed, InUse, Killed, Malformed, NoAlternative, NoFreeSlot, NoSlot, NotACache,
    NotBuilt, NotFound, NotWriter, OutOfMemory, OutputFailed, ProgramEnded, ProgramNotFound, Refused,
    SessionFull, SlotTaken, SystemRefused, TimedOut, TooLarge, Unfinished, WrongProcess,
)
from .keys import name_of
from .pipeline import Pipeline
from .reader import Reader
from .records import Finding, Record
from .reply import Reply
from .writer import Writer

__all__ = [
    "BadDump", "BadElement", "BadKey", "BadReply", "Busy", "Cache", "Cache2Error", "Closed", "Damaged",
    "DiskFailed", "Entry", "Fault", "Finding", "Finished", "HasAlternative", "InUse", "InputFailed", "Killed",
    "Malformed", "NoAlternative", "NoFreeSlot", "NoSlot", "NotACache", "NotBuilt", "NotFound", "NotWriter",
    "OutOfMemory", "OutputFailed", "Pipeline", "ProgramEnded", "ProgramNotFound", "Reader", "Record",
    "Refused", "Reply", "SessionFull", "SlotTaken", "SystemRefused", "TimedOut", "TooLarge", "Unfinished",
    "WrongProcess", "Writer", "name_of", "open",
]
