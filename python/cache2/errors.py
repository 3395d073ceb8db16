"""The exceptions of the client: for each refusal of the program, for each way in which it ends, and for bad calls."""
from __future__ import annotations

from typing import Dict, Optional, Type


class Cache2Error(Exception):
    """The base of all of them."""


# ---- what the program refuses: nothing was changed

class Refused(Cache2Error):
    """A command was refused and changed nothing."""


class NotFound(Refused):
    """There is no entry under the key."""


class Unfinished(Refused):
    """The entry is still being written."""


class Damaged(Refused):
    """A chunk of the body is not what was written."""

    def __init__(self, chunk: int, stored: str, found: str) -> None:
        super().__init__(f"chunk {chunk} of the body has the hash {found}, and not {stored}")
        self.chunk = chunk
        self.stored = stored
        self.found = found


class BadKey(Refused):
    """No entry may be written under the key."""


class BadElement(Refused):
    """The name of an element is empty or too long, or there is a byte in name or value that may not be there."""


class TooLarge(Refused):
    """The body or the elements have more bytes than an entry may have."""


class NotWriter(Refused):
    """Only the writer of an entry may do this."""


class Finished(Refused):
    """The entry is finished, so its body does not grow."""


class SlotTaken(Refused):
    """The program has the slot in use."""


class NoSlot(Refused):
    """The program does not have the slot in use."""


class HasAlternative(Refused):
    """The entry has alternative data already."""


class NoAlternative(Refused):
    """The entry has no alternative data."""


class Fault(Cache2Error):
    """The disk could not be read. Nothing was changed, and the next command may do well."""


class BadDump(Cache2Error):
    """An item of a dump is bad or cut. The items before it are stored."""

    def __init__(self, item: int) -> None:
        super().__init__(f"item {item} of the dump is bad or cut; the {item - 1} before it are stored")
        self.item = item


# ---- what the client refuses, and sends nothing

class NoFreeSlot(Cache2Error):
    """As many readers and writers are open as the program has slots."""


class SessionFull(Cache2Error):
    """The run has had as many bytes as a script may have. A new one begins once all readers and writers are closed."""


class Busy(Cache2Error):
    """Readers or writers are open, and this cannot be done beside them."""


class Closed(Cache2Error, ValueError):
    """The cache, the reader or the writer is closed."""


class WrongProcess(Cache2Error):
    """The cache was opened by another process, of which this one is a fork."""


class ProgramNotFound(Cache2Error):
    """There is no program `cache2`."""


class NotACache(Cache2Error):
    """The path is no folder, or a folder of other things."""


class InUse(Cache2Error):
    """Another run has the folder."""


# ---- the program ended

class ProgramEnded(Cache2Error):
    """The program ended. What it had acknowledged stands, and the next call starts it anew."""
    meaning = "the program ended"

    def __init__(self, status: Optional[int], detail: str = "") -> None:
        super().__init__(f"{self.meaning} (status {status}){': ' if detail else ''}{detail}")
        self.status = status


class OutOfMemory(ProgramEnded):
    meaning = "the program ran out of memory"


class Malformed(ProgramEnded):
    """The program read a malformed command, which the client should not have sent."""
    meaning = "a command was malformed"


class InputFailed(ProgramEnded):
    meaning = "the program could not read what it was sent"


class OutputFailed(ProgramEnded):
    meaning = "the program could not send its replies"


class DiskFailed(ProgramEnded):
    """The disk failed, as by no space or no rights. What was acknowledged stands."""
    meaning = "the disk failed"


class SystemRefused(ProgramEnded):
    meaning = "the system gave the program no words, or `/` could not be opened; nothing was touched"


class NotBuilt(ProgramEnded):
    meaning = "the launcher could not build the program"


class Killed(ProgramEnded):
    meaning = "the program was killed by a signal"


class TimedOut(ProgramEnded):
    """The program did not answer within the time that was allowed, and was killed."""
    meaning = "the program did not answer in time, and was killed"


class BadReply(ProgramEnded):
    """What came is no reply of the program, which was ended."""
    meaning = "this is no reply of the program"


REFUSALS: Dict[bytes, Type[Refused]] = {
    b"absent": NotFound,
    b"unfinished": Unfinished,
    b"bad key": BadKey,
    b"bad element": BadElement,
    b"too large": TooLarge,
    b"not writer": NotWriter,
    b"finished": Finished,
    b"slot taken": SlotTaken,
    b"no slot": NoSlot,
    b"has alt": HasAlternative,
    b"no alt": NoAlternative,
}

STATUSES: Dict[int, Type[ProgramEnded]] = {
    1: OutOfMemory,
    2: Malformed,
    3: Malformed,
    4: InputFailed,
    5: OutputFailed,
    6: DiskFailed,
    8: SystemRefused,
    9: NotBuilt,
}


def refusal(line: bytes) -> Optional[Cache2Error]:
    """What a line refuses, or None where it is no refusal."""
    if line == b"fault":
        return Fault("the disk could not be read; nothing was changed")
    words = line.split(b" ")
    if words[0] == b"damaged" and len(words) == 4 and words[1].isdigit():
        return Damaged(int(words[1]), words[2].decode("ascii", "replace"), words[3].decode("ascii", "replace"))
    kind = REFUSALS.get(line)
    return kind(kind.__doc__) if kind else None


def ending(status: int, detail: str = "") -> ProgramEnded:
    """What the status of a program that ended means."""
    if status < 0:
        return Killed(status, detail or f"signal {-status}")
    if status > 128:
        return Killed(status, detail)
    return STATUSES.get(status, ProgramEnded)(status, detail)
