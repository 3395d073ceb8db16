"""A run of the program, to which commands are sent and from which replies come.

Each side could wait for the other: a program that cannot send its reply reads no further, and a client that is not done
with sending reads no reply. So one rule holds for whatever is sent. Before it is, either all that is not answered yet
fits into the pipe to the program, with it, or all replies that come before its last do fit into the pipe from the
program. Then one of the two can always go on.
"""
from __future__ import annotations

import os
import signal
import subprocess
import tempfile
import threading
import time
import weakref
from collections import deque
from typing import IO, Any, Callable, Deque, List, NoReturn, Optional, Tuple, cast

from . import program as programs
from .body import Body, Stream
from .errors import (BadReply, Cache2Error, Fault, NoFreeSlot, ProgramEnded, Refused, SessionFull, TimedOut,
                     WrongProcess, ending, refusal)
from .folder import Folder
from .limits import FULL_SCRIPT, KEPT_FOR_ENDS, LAST_MOMENT, MAX_SCRIPT, SLOTS
from .pipes import Bytes, Replies, Requests

# What a pipe of Linux holds at the least.
PIPE = 4096
# No reply to a command that is answered by a line alone is longer. A longer one counts as one that fits into no pipe.
LINE = 32
LONG = PIPE + 1
# So many commands are sent as one at the most. All replies to them fit into a pipe.
TOGETHER = 32
# How long a program may take to end after it has closed its output, before it is killed.
LAST_SECONDS = 30.0

Parse = Callable[[Replies], Any]


class Pending:
    """A command that was sent, and the reply to it once it was read."""
    __slots__ = ("parse", "asked", "owed", "is_done", "result", "error")

    def __init__(self, parse: Parse, asked: int, owed: int) -> None:
        self.parse = parse
        self.asked = asked
        self.owed = owed
        self.is_done = False
        self.result: Any = None
        self.error: Optional[Cache2Error] = None

    def fail(self, error: Cache2Error) -> None:
        self.is_done = True
        self.error = error


def refused(line: bytes, replies: Replies) -> Cache2Error:
    """What a line says that is not the reply to be expected."""
    error = refusal(line)
    if not error and line.startswith(b"script "):
        # The program ends after this line, and its status tells more.
        replies.take(1)
    return error or BadReply(None, repr(line[:100]))


def parse_ok(replies: Replies) -> None:
    """The reply `ok`, or a refusal."""
    line = replies.line()
    if line != b"ok":
        raise refused(line, replies)


def parse_all(count: int) -> Parse:
    """Reads the replies to so many commands that are answered by `ok`. The first refusal is the cause of the others."""
    def parse(replies: Replies) -> None:
        first: Optional[Cache2Error] = None
        for _ in range(count):
            try:
                parse_ok(replies)
            except (Refused, Fault) as error:
                first = first or error
        if first:
            raise first
    return parse


def parse_numbers(replies: Replies, word: bytes, count: int) -> List[int]:
    """The numbers after the first word of a reply, or what it refuses."""
    line = replies.line()
    first, *words = line.split(b" ")
    if first == word and len(words) == count and all(words) and b"".join(words).isdigit():
        return [*map(int, words)]
    raise refused(line, replies)


def wrong_process() -> WrongProcess:
    return WrongProcess("a cache is used in the process that opened it")


class Conversation:
    """One run. Who calls has the lock."""

    def __init__(self, program: str, folder: Folder, clock: Callable[[], float], earliest: int,
                 seconds: Optional[float], lock: Any) -> None:
        self.lock = lock
        self.error: Optional[ProgramEnded] = None
        self.free_slots: List[int] = list(range(SLOTS - 1, -1, -1))
        # The slots of readers and writers that were dropped and not closed, with the key and the number of a writer.
        self.lost: List[Tuple[int, Optional[bytes], int]] = []
        self._clock = clock
        self.moment = max(earliest, self._now())
        self._owner = os.getpid()
        self._queue: Deque[Pending] = deque()
        self._asked = self._owed = self._sent = 0
        self._stream: Optional[Stream] = None
        folder.wait_until_free()
        self._process = programs.start(program, [folder.path, str(self.moment), "run"], subprocess.PIPE)
        stdin, stdout = cast(IO[bytes], self._process.stdin), cast(IO[bytes], self._process.stdout)
        self._slot_is_free = threading.Condition(lock)
        self._requests = Requests(stdin.fileno(), seconds, self._late)
        self._replies = Replies(stdout, seconds, self._late, self._ended)

    # ---- sending

    def _now(self) -> int:
        return min(max(int(self._clock()), 0), LAST_MOMENT)

    @property
    def is_full(self) -> bool:
        """Whether a new run should follow."""
        return self._sent > FULL_SCRIPT

    def is_idle(self) -> bool:
        """Whether no slot is in use, once all was answered."""
        while self._queue:
            self.read_next()
        return len(self.free_slots) == SLOTS

    @property
    def is_own_process(self) -> bool:
        """Whether this process opened the cache, and is no fork of that one."""
        return os.getpid() == self._owner

    def check(self) -> None:
        """Refuses what comes after the end, or in another process."""
        if self.error:
            raise type(self.error)(self.error.status, "in a call before this one")
        if os.getpid() != self._owner:
            raise wrong_process()

    def send(self, line: bytes, parse: Parse = parse_ok, data: Optional[Bytes] = None, owed: int = LINE,
             is_end: bool = False) -> Pending:
        """Sends a command, with the bytes after its line, at the present moment. It may go out with a later one."""
        self._begin(is_end)
        return self._send(line, parse, data, owed, is_end)

    def ask(self, line: bytes, parse: Parse, owed: int) -> Any:
        """Sends a command and waits for the reply, by the short way where all before it was answered."""
        self._begin(False)
        if self._queue or self._stream:
            return self.answer(self._send(line, parse, None, owed, False))
        # All was answered, so the next reply is the one to this command, and neither side waits for the other.
        self._count(len(line) + 1, False)
        try:
            self._requests.gather(line + b"\n")
            self._requests.push()
            return parse(self._replies)
        except (Refused, Fault):
            raise
        except BaseException as error:
            self._give_up(error)
            raise

    def send_all(self, commands: List[bytes]) -> List[Pending]:
        """Sends commands that are answered by `ok`, many as one. The bytes of each stand after its line."""
        self._begin(False)
        pendings: List[Pending] = []
        for at in range(0, len(commands), TOGETHER):
            group = commands[at:at + TOGETHER]
            pendings.append(self._send(b"\n".join(group), parse_all(len(group)), None, LINE * len(group), False,
                                       LINE * (len(group) - 1)))
        return pendings

    def _begin(self, is_end: bool) -> None:
        self.check()
        if is_end:
            # What ends an entry has no moment.
            return
        now = min(int(self._clock()), LAST_MOMENT)
        # A clock that goes back is not followed: no entry is used before it was made.
        if now > self.moment:
            self._send(b"at %d" % now, parse_ok, None, LINE, False)
            self.moment = now

    def _count(self, size: int, is_end: bool) -> None:
        """Counts bytes that are sent in this run, which has room for them."""
        if self._sent + size > MAX_SCRIPT - (0 if is_end else KEPT_FOR_ENDS):
            raise SessionFull("this run has had as much as it may have: close all readers and writers for a new one")
        self._sent += size

    def _send(self, line: bytes, parse: Parse, data: Optional[Bytes], owed: int, is_end: bool,
              early: int = 0) -> Pending:
        """Of the replies that are `owed` for it, `early` bytes may come before it is sent whole."""
        size = len(line) + 1 + (0 if data is None else len(data) + 1)
        self._count(size, is_end)
        try:
            if self._stream or (self._asked + size > PIPE and self._owed + early > PIPE):
                self._make_room(size, early)
                self.check()
            pending = Pending(parse, size, owed)
            self._queue.append(pending)
            self._asked += size
            self._owed += owed
            self._requests.gather(line + b"\n")
            if data is not None:
                self._requests.gather(data)
                self._requests.gather(b"\n")
        except BaseException as error:
            self._give_up(error)
            raise
        return pending

    def _make_room(self, size: int, early: int) -> None:
        """Reads replies until the two sides cannot wait for each other."""
        self._free_pipe()
        while self._queue and self._asked + size > PIPE and self._owed + early > PIPE:
            self.read_next()
            self._free_pipe()

    # ---- replies

    def push(self) -> None:
        """Sends what waits to be sent with a later command."""
        try:
            self._requests.push()
        except BaseException as error:
            self._give_up(error)
            raise

    def answer(self, pending: Pending) -> Any:
        """The reply to a command. Those to the ones before it are read first."""
        self.wait(pending)
        if pending.error:
            raise pending.error
        return pending.result

    def wait(self, pending: Pending) -> None:
        while not pending.is_done:
            self.read_next()

    def read_next(self) -> None:
        """Reads the reply to the first command that has none yet."""
        if os.getpid() != self._owner:
            raise wrong_process()
        pending = self._queue[0]
        try:
            self._requests.push()
            if self._stream:
                self._free_pipe()
            try:
                pending.result = pending.parse(self._replies)
            except (Refused, Fault) as refused:
                pending.error = refused
            pending.is_done = True
            self._queue.popleft()
            self._asked -= pending.asked
            self._owed -= pending.owed
        except ProgramEnded as ended:
            self._give_up(ended)
        except BaseException as error:
            self._give_up(error)
            raise

    # ---- slots

    def take_slot(self, seconds: Optional[float]) -> int:
        """A slot that is not in use. It may become free within so many seconds, or at any time where none are given."""
        until = None if seconds is None else time.monotonic() + seconds
        while not self.free_slots:
            self.check()
            if self._queue:
                self.read_next()
            elif not self._slot_is_free.wait(None if until is None else max(0.0, until - time.monotonic())):
                raise NoFreeSlot(f"{SLOTS} readers and writers are open, and there are no more slots")
        return self.free_slots.pop()

    def give_slot(self, slot: int) -> None:
        self.free_slots.append(slot)
        self._slot_is_free.notify()

    def send_close(self, slot: int) -> Pending:
        """Gives a slot up, which is free again once that is answered."""
        def parse(replies: Replies) -> None:
            line = replies.line()
            self.give_slot(slot)
            if line != b"ok":
                raise refused(line, replies)
        return self.send(b"close %d" % slot, parse, is_end=True)

    # ---- the body in the pipe

    def begin_body(self, wanted: int, after: int) -> Body:
        """A body that is read from the pipe: so many bytes, and then so many that nobody wants."""
        self._stream = Stream(wanted, after)
        body = Body(self, self._stream)
        self._stream.body = weakref.ref(body)
        return body

    def read_body(self, stream: Stream, view: memoryview) -> int:
        """The next bytes of a body, and how many. None come only at its end: where the program fails that is told."""
        if stream.error:
            raise stream.error
        view = view[:stream.wanted]
        if not view:
            return 0
        if stream.kept:
            count = stream.kept.readinto(view)  # type: ignore[attr-defined]
        else:
            try:
                count = self._replies.take_into(view)
            except BaseException as error:
                self._give_up(error)
                raise
        stream.wanted -= count
        if not stream.wanted and stream is self._stream:
            self._free_pipe()
        return cast(int, count)

    def _free_pipe(self) -> None:
        """Takes the rest of a body out of the pipe, so that replies can follow. What is still wanted goes to a file."""
        stream, self._stream = self._stream, None
        if not stream:
            return
        try:
            if stream.wanted and stream.is_wanted():
                self._keep(stream)
            else:
                self._replies.skip(stream.wanted)
            self._replies.skip(stream.after)
            self._replies.end_line()
        except BaseException as error:
            self._give_up(error)
            stream.error = stream.error or self.error
            raise

    def _keep(self, stream: Stream) -> None:
        left = stream.wanted
        try:
            stream.kept = tempfile.TemporaryFile()
            while left:
                piece = self._replies.take(min(left, 1 << 18))
                left -= len(piece)
                stream.kept.write(piece)
            stream.kept.seek(0)
        except OSError as error:
            # The body is lost, and the run is not.
            stream.error = error
            if stream.kept:
                stream.kept.close()
            self._replies.skip(left)

    # ---- the end

    def _late(self) -> NoReturn:
        raise TimedOut(None)

    def _ended(self) -> NoReturn:
        """The program has closed its output: its status tells why."""
        raise self._reap()

    def _reap(self, detail: str = "") -> ProgramEnded:
        try:
            status = self._process.wait(LAST_SECONDS)
        except subprocess.TimeoutExpired:
            self._kill()
            return TimedOut(None, "it had closed its output")
        return ending(status, detail)

    def _kill(self) -> None:
        """Kills the program and what a launcher started: its session has no others."""
        try:
            os.killpg(self._process.pid, signal.SIGKILL)
        except ProcessLookupError:
            pass
        self._process.wait()

    def _close_pipes(self) -> None:
        for pipe in (self._process.stdin, self._process.stdout):
            if pipe:
                pipe.close()

    def _give_up(self, error: BaseException) -> None:
        """Ends the run after a failure within a command, and tells it to all commands that have no reply."""
        if self.error or not self.is_own_process:
            return
        self.error = error if isinstance(error, ProgramEnded) else ProgramEnded(None, f"it was ended after {error!r}")
        if isinstance(error, (TimedOut, BadReply)):
            self._kill()
        self._close_pipes()
        if self._process.poll() is None:
            self._wait_or_kill()
        if self._stream and not self._stream.error:
            self._stream.error = self.error
        while self._queue:
            self._queue.popleft().fail(self.error)
        self._asked = self._owed = 0
        self._slot_is_free.notify_all()

    def _wait_or_kill(self) -> None:
        """Lets the program end by itself, since its pipes are closed. What keeps it from that ends it at once."""
        try:
            self._process.wait(LAST_SECONDS)
        except BaseException as error:
            self._kill()
            if not isinstance(error, subprocess.TimeoutExpired):
                raise

    def end(self) -> None:
        """Ends the run: the program closes the cache. All replies are read before."""
        if not self.is_own_process:
            return self._close_pipes()
        self.is_idle()
        if self.error:
            return
        try:
            self._free_pipe()
            self._requests.push()
            cast(IO[bytes], self._process.stdin).close()
            rest = self._replies.rest()
            error = self._reap()
            self._close_pipes()
        except BaseException as failure:
            self._give_up(failure)
            raise
        if rest or error.status:
            self.error = error if error.status else BadReply(0, repr(rest[:100]))
            raise self.error
        self.error = ProgramEnded(0, "the run was closed")
