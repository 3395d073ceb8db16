"""A cache that is open."""
from __future__ import annotations

import os
import subprocess
import threading
import time
import weakref
from typing import IO, Any, BinaryIO, Callable, Dict, Iterator, List, Optional, Sequence, Set, Union, cast

from . import elements as elements_of
from . import keys as keys_of
from . import program as programs
from .conversation import LINE, LONG, Conversation, Parse, Pending, parse_numbers, parse_ok, refused
from .elements import Elements
from .entry import Entry, entry_parse
from .errors import BadDump, BadElement, Busy, Closed, DiskFailed, NotFound, Refused, TooLarge, ending
from .folder import Folder, Path
from .keys import Key
from .limits import LAST_MOMENT, MAX_BODY, MAX_NAME, MAX_PIECE
from .pipeline import Pipeline
from .pipes import Bytes, Replies
from .reader import Reader
from .records import Finding, Record, finding_in, key_in, lines_after, parse_names, record_in
from .reply import Reply
from .writer import Writer


class Cache:
    """A cache in a folder, and the program that works on it. It may be used from several threads, one call at a time.

    Where the program ends by a failure the call that meets it says so, and the next one starts it anew. What was
    acknowledged stands then. `flush_every` is after how many entries a `flush` is made, or None: what was stored before
    an answered `flush` no power cut takes. `wait` is for how many seconds a folder that is in use is waited for,
    `slot_wait` for how many a slot is where all are in use (None: without an end). After `timeout` seconds without a
    reply the program is killed.
    """

    def __init__(self, path: Path, *, program: Optional[str] = None, clock: Callable[[], float] = time.time,
                 flush_every: Optional[int] = 100, wait: float = 5.0, slot_wait: Optional[float] = 0.0,
                 timeout: Optional[float] = None) -> None:
        self.writers: "weakref.WeakSet[Writer]" = weakref.WeakSet()
        # By keys, the number of the writer that made the entry which stands there and is not finished.
        self.newest: Dict[bytes, int] = {}
        self._lock = threading.RLock()
        self._program = programs.find_program(program)
        self._clock = clock
        self._flush_every = flush_every
        self._slot_wait = slot_wait
        self._timeout = timeout
        self._unflushed = 0
        self._moment = 0
        self._talk: Optional[Conversation] = None
        self._is_open = True
        self._readers: "weakref.WeakSet[Reader]" = weakref.WeakSet()
        self._folder = Folder(path, wait)
        try:
            with self._lock:
                self._run()
        except BaseException:
            self._folder.close()
            raise

    @property
    def path(self) -> str:
        return self._folder.path

    # ---- runs

    def _run(self) -> Conversation:
        """The run that goes on, or a new one where there is none, or where it has had its share."""
        if not self._is_open:
            raise Closed("the cache is closed")
        if self._talk and self._talk.is_full and self._talk.is_idle():
            self._end_run()
        talk = self._talk
        if talk is None or talk.error:
            talk = self._begin_run()
        if talk.lost:
            self._end_lost(talk)
        return talk

    def _begin_run(self) -> Conversation:
        self._moment = self._talk.moment if self._talk else self._moment
        self.newest.clear()
        self._talk = Conversation(self._program, self._folder, self._clock, self._moment, self._timeout, self._lock)
        # The first reply comes when the cache is opened.
        try:
            self._talk.answer(self._talk.send(b"state", parse_state))
        except DiskFailed:
            # Another run was first, and the program has waited in vain.
            if not self._folder.is_free():
                raise self._folder.in_use() from None
            raise
        return self._talk

    def _end_lost(self, talk: Conversation) -> None:
        """Gives up the slots of readers and writers that nobody has any more, and leaves no entry of such a writer."""
        while talk.lost:
            slot, key, number = talk.lost.pop()
            if key is not None and self.is_newest(key, number):
                del self.newest[key]
                self.send_doom(talk, key)
            talk.send_close(slot)

    def is_newest(self, key: bytes, number: int) -> bool:
        """Whether the entry of that writer stands under its key. Otherwise it is doomed already."""
        return self.newest.get(key) == number

    def _end_run(self) -> None:
        talk, self._talk = self._talk, None
        if talk:
            self._moment = talk.moment
            if not talk.error:
                talk.end()

    def _ask(self, line: bytes, parse: Parse = parse_ok, owed: int = LINE) -> Any:
        with self._lock:
            talk = self._run()
            return talk.answer(talk.send(line, parse, owed=owed))

    def take_slot(self, talk: Conversation) -> int:
        return talk.take_slot(self._slot_wait)

    def close(self) -> None:
        """Aborts the writers, closes the readers and ends the program, which closes the cache."""
        with self._lock:
            if not self._is_open:
                return
            try:
                if self._talk and self._talk.is_own_process:
                    for writer in [*self.writers]:
                        writer.abort()
                    for reader in [*self._readers]:
                        reader.close()
                self._end_run()
            finally:
                self._is_open = False
                self._folder.close()

    def __enter__(self) -> "Cache":
        return self

    def __exit__(self, *_: object) -> None:
        self.close()

    # ---- entries

    def get(self, key: Key, only_main: bool = False) -> Entry:
        """An entry, whose body is checked. With `only_main` the body has no alternative data."""
        data = keys_of.encoded(key)
        with self._lock:
            talk = self._run()
            return cast(Entry, talk.ask(b"get " + data, entry_parse(talk, data, only_main), LONG))

    def send_get(self, key: Key) -> Reply:
        data = keys_of.encoded(key)
        with self._lock:
            talk = self._run()
            reply = Reply(talk, [talk.send(b"get " + data, entry_parse(talk, data, False), owed=LONG)])
            talk.push()
            return reply

    def send_ahead(self, key: Key, others: Sequence[Key]) -> List[Reply]:
        """Asks for an entry without its alternative data, and for those that may be read next. Of these one whose body
        has over 256 KiB is None, so that no body goes to a temporary file.
        """
        data = [keys_of.encoded(one) for one in (key, *others)]
        with self._lock:
            talk = self._run()
            replies = [Reply(talk, [talk.send(b"get " + one, entry_parse(talk, one, True, number > 0), owed=LONG)])
                       for number, one in enumerate(data)]
            talk.push()
            return replies

    def put(self, key: Key, body: Union[Bytes, BinaryIO], elements: Optional[Elements] = None,
            is_pinned: bool = False) -> None:
        """Stores a body, or what is read of a file, under the key.

        What is too large is refused before the old entry is touched, where its length can be known.
        """
        if isinstance(body, (bytes, bytearray, memoryview)):
            reply = self.send_put(key, body, elements, is_pinned)
            try:
                reply.result()
            except Refused:
                # All was checked before, so this should not come. It leaves no part of an entry.
                self.doom(key)
                raise
        else:
            self._put_file(key, body, elements, is_pinned)

    def send_put(self, key: Key, body: Bytes, elements: Optional[Elements] = None, is_pinned: bool = False) -> Reply:
        data, pairs = keys_of.encoded(key), elements_of.encoded(elements)
        view = memoryview(body).cast("B")
        check_length(len(view))
        with self._lock:
            writer = Writer(self, self._run(), data, pairs, is_pinned)
            writer.write(view)
            return writer.send_close()

    def _put_file(self, key: Key, file: BinaryIO, elements: Optional[Elements], is_pinned: bool) -> None:
        keys_of.encoded(key)
        check_length(length_of(file))
        # A source that fails at once leaves the old entry.
        piece = file.read(MAX_PIECE)
        with self.create(key, elements, is_pinned) as writer:
            while piece:
                writer.write(piece)
                piece = file.read(MAX_PIECE)

    def create(self, key: Key, elements: Optional[Elements] = None, is_pinned: bool = False) -> Writer:
        """A writer of an entry whose body comes in pieces. The entry that stood under the key is gone from now on."""
        data, pairs = keys_of.encoded(key), elements_of.encoded(elements)
        with self._lock:
            writer = Writer(self, self._run(), data, pairs, is_pinned)
            writer.wait()
            return writer

    def open(self, key: Key) -> Reader:
        """A reader of an entry. Other readers, and its writer, may be open beside it."""
        data = keys_of.encoded(key)
        with self._lock:
            talk = self._run()
            slot = self.take_slot(talk)
            try:
                talk.answer(talk.send(b"open %d %s" % (slot, data)))
            except BaseException:
                talk.give_slot(slot)
                raise
            reader = Reader(talk, slot)
            self._readers.add(reader)
            return reader

    def doom(self, key: Key) -> bool:
        """Removes an entry. Whether there was one."""
        return bool(self.send_doom_of(key).result())

    def send_doom_of(self, key: Key) -> Reply:
        data = keys_of.encoded(key)
        with self._lock:
            talk = self._run()
            reply = Reply(talk, [self.send_doom(talk, data)])
            talk.push()
            return reply

    def send_doom(self, talk: Conversation, key: bytes) -> Pending:
        return talk.send(b"doom " + key, parse_doom, is_end=True)

    def use(self, key: Key) -> None:
        """Counts a use of an entry, by which `evict` chooses. A `get` counts none."""
        self.send_use(key).result()

    def send_use(self, key: Key) -> Reply:
        data = keys_of.encoded(key)
        with self._lock:
            talk = self._run()
            slot = self.take_slot(talk)
            try:
                opened = talk.send(b"open %d %s" % (slot, data))
            except BaseException:
                talk.give_slot(slot)
                raise
            try:
                used = talk.send(b"use %d" % slot)
            finally:
                closed = talk.send_close(slot)
            talk.push()
            return Reply(talk, [opened, used, closed])

    def has(self, key: Key) -> Optional[bool]:
        """Whether an entry stands under the key, be it damaged. None where that is not known before an `update`."""
        found: Optional[bool] = self._ask(b"has " + keys_of.encoded(key), parse_has)
        return found

    def pipeline(self) -> Pipeline:
        """Calls that are sent one after another without waiting for their replies."""
        return Pipeline(self)

    # ---- all entries

    def list(self) -> List[Record]:
        """The record of each entry, in the order of their names."""
        return cast(List[Record], self._ask(b"list", lines_after(b"records", record_in), LONG))

    def names(self, most: int = LAST_MOMENT) -> Optional[Set[bytes]]:
        """The names of all entries, each the SHA-1 of its key. None where there are more than so many."""
        return cast(Optional[Set[bytes]], self._ask(b"list", parse_names(most), LONG))

    def keys(self) -> Iterator[str]:
        """The key of each entry, in the order of their names. They are read from the ends of the entry files."""
        for record in self.list():
            with self._lock:
                key = key_in(os.path.join(self.path, "entries", record.name))
            if key is not None:
                yield keys_of.decoded(key)

    def evict(self, kilobytes: int) -> List[str]:
        """Removes the least valuable entries, until all take at most so many times 1,024 bytes. Their names."""
        if not 0 <= kilobytes <= LAST_MOMENT:
            raise ValueError(f"a size from 0 to {LAST_MOMENT}, and not {kilobytes}")
        return cast(List[str], self._ask(b"evict %d" % kilobytes, lines_after(b"evicted", str), LONG))

    def clear(self, origin: str = "") -> int:
        """Removes the entries of an origin that are not pinned, or of none, and syncs that. Their number."""
        data = origin.encode("utf-8", "surrogateescape")
        if b"\n" in data or len(data) > MAX_NAME:
            raise BadElement(f"an origin has no newline and at most {MAX_NAME} bytes")
        return cast(int, self._ask(b"clear " + data, parse_count(b"cleared")))

    def flush(self) -> None:
        """Syncs all that was changed: after that it is found whatever happens."""
        with self._lock:
            self._unflushed = 0
            self._ask(b"flush")

    def flush_if_due(self, talk: Conversation) -> List[Pending]:
        """Counts an entry that was stored, and sends a `flush` where it is time for one."""
        self._unflushed += 1
        if self._flush_every is None or self._unflushed < self._flush_every:
            return []
        self._unflushed = 0
        return [talk.send(b"flush")]

    def verify(self) -> List[Finding]:
        """Reads every file. What is wrong with it, or with its record."""
        return cast(List[Finding], self._ask(b"verify", lines_after(b"findings", finding_in), LONG))

    def rebuild(self) -> int:
        """Reads every file and writes the index anew. The number of entries."""
        return cast(int, self._ask(b"rebuild", parse_count(b"rebuilt")))

    def update(self, count: int) -> int:
        """Reads the files of so many names of which the index does not know yet. How many are left."""
        if not 0 <= count <= LAST_MOMENT:
            raise ValueError(f"a number from 0 to {LAST_MOMENT}, and not {count}")
        return cast(int, self._ask(b"step %d" % count, parse_state))

    # ---- dumps

    def dump(self, file: BinaryIO) -> None:
        """Writes all whole entries to a file as one stream. It is whole only where this raises nothing."""
        with self._lock, self._other_run("dump", subprocess.DEVNULL) as process:
            first = copy(cast(IO[bytes], process.stdout), file)
            status = process.wait()
            if status or first.startswith(b"fault"):
                raise ending(status, "the dump is not whole")

    def load(self, file: BinaryIO) -> int:
        """Stores the entries of a dump that is read from a file, with their times and counts. Their number."""
        with self._lock, self._other_run("load", subprocess.PIPE) as process:
            stdin = cast(IO[bytes], process.stdin)
            try:
                copy(file, stdin)
            except BrokenPipeError:
                # The program has read as much as it wants, and says why.
                pass
            stdin.close()
            line = cast(IO[bytes], process.stdout).read(100).strip()
            status = process.wait()
        words = line.split(b" ")
        if status == 3 and words[:2] == [b"bad", b"dump"]:
            raise BadDump(int(words[2]))
        if status or words[0] != b"loaded":
            raise ending(status, repr(line))
        return int(words[1])

    def _other_run(self, verb: str, stdin: int) -> "OtherRun":
        if not self._run().is_idle():
            raise Busy(f"readers or writers are open: close them before a {verb}")
        self._end_run()
        self._moment = max(self._moment, min(max(int(self._clock()), 0), LAST_MOMENT))
        self._folder.wait_until_free()
        return OtherRun(programs.start(self._program, [self.path, str(self._moment), verb], stdin))


class OtherRun:
    """A run of another verb, which has ended when its `with` has."""

    def __init__(self, process: "subprocess.Popen[bytes]") -> None:
        self._process = process

    def __enter__(self) -> "subprocess.Popen[bytes]":
        return self._process

    def __exit__(self, kind: Optional[type], *_: object) -> None:
        for pipe in (self._process.stdin, self._process.stdout):
            if pipe:
                pipe.close()
        # With its pipes closed the program ends by itself. A cut dump is no dump, and what was stored of one stands.
        self._process.wait()


def copy(source: IO[bytes], target: IO[bytes]) -> bytes:
    """Copies a file piece by piece, and gives the beginning of what was copied."""
    first = b""
    while True:
        piece = source.read(MAX_PIECE)
        if not piece:
            return first
        first = first or piece[:100]
        left = memoryview(piece)
        while left:
            # A pipe may take less than was given.
            written = target.write(left)
            left = left[len(left) if written is None else written:]


def check_length(length: Optional[int]) -> None:
    if length is not None and length > MAX_BODY:
        raise TooLarge(f"a body has at most {MAX_BODY} bytes, and this has {length}")


def length_of(file: BinaryIO) -> Optional[int]:
    """How much is left to read of a file, where it can tell."""
    try:
        at = file.tell()
        end = file.seek(0, os.SEEK_END)
        file.seek(at)
    except (OSError, AttributeError, ValueError):
        return None
    return end - at


def parse_count(word: bytes) -> Parse:
    return lambda replies: parse_numbers(replies, word, 1)[0]


def parse_doom(replies: Replies) -> bool:
    line = replies.line()
    if line == b"ok":
        return True
    error = refused(line, replies)
    if isinstance(error, NotFound):
        return False
    raise error


def parse_has(replies: Replies) -> Optional[bool]:
    line = replies.line()
    if line not in (b"yes", b"no", b"unknown"):
        raise refused(line, replies)
    return None if line == b"unknown" else line == b"yes"


def parse_state(replies: Replies) -> int:
    line = replies.line()
    words: Sequence[bytes] = line.split(b" ")
    if line == b"ready":
        return 0
    if words[0] == b"updating" and len(words) == 2 and words[1].isdigit():
        return int(words[1])
    raise refused(line, replies)


def open(path: Path, **words: Any) -> Cache:
    """Opens the cache in a folder, which is made where it is missing. The words are those of `Cache`."""
    return Cache(path, **words)
