"""What is easily got wrong where a program is talked to over two pipes."""
import io
import os
import random
import signal
import subprocess
import sys
import threading
import time

import cache2
import pytest
from cache2 import conversation, limits, pipes
from cache2.limits import LAST_MOMENT, MAX_BODY, MAX_ELEMENTS

KEY = ":https://example.com/"


class Source(io.RawIOBase):
    """A source whose length nobody knows, and which may fail."""

    def __init__(self, length, fails_at=None):
        self.left, self.fails_at = length, fails_at

    def readable(self):
        return True

    def read(self, count=-1):
        if self.fails_at is not None and self.left <= self.fails_at:
            raise OSError("the source failed")
        count = min(count, self.left)
        self.left -= count
        return bytes(count)


# ---- too large: the program would keep a shortened body

@pytest.mark.parametrize("kind", [bytes, bytearray, io.BytesIO])
def test_a_body_that_is_known_to_be_too_large_leaves_the_old_entry(cache, kind):
    cache.put(KEY, b"old")
    with pytest.raises(cache2.TooLarge):
        cache.put(KEY, kind(bytes(MAX_BODY + 1)))
    assert cache.get(KEY).read() == b"old"


def test_a_body_that_turns_out_too_large_leaves_no_entry(cache):
    with pytest.raises(cache2.TooLarge):
        cache.put(KEY, Source(MAX_BODY + 1))
    with pytest.raises(cache2.NotFound):
        cache.get(KEY)
    writer = cache.create(KEY)
    with pytest.raises(cache2.TooLarge):
        for _ in range(51):
            writer.write(bytes(1 << 20))
    with pytest.raises(cache2.Closed):
        writer.write(b"x")
    writer.close()
    with pytest.raises(cache2.NotFound):
        cache.get(KEY)
    assert cache.list() == []


def test_the_program_itself_refuses_what_is_too_large(cache, monkeypatch):
    """The client dooms and closes the entry also where it did not see that before."""
    monkeypatch.setattr("cache2.writer.MAX_BODY", 1 << 40)
    with pytest.raises(cache2.TooLarge):
        cache.put(KEY, Source(MAX_BODY + 1))
    with pytest.raises(cache2.NotFound):
        cache.get(KEY)
    monkeypatch.setattr("cache2.elements.MAX_ELEMENTS", 1 << 40)
    for put in (lambda one: cache.put(one, b"x", {"a": "v" * MAX_ELEMENTS}),
                lambda one: cache.create(one, {"a": "v" * MAX_ELEMENTS})):
        with pytest.raises(cache2.TooLarge):
            put(":elements")
    cache.put(":after", b"x")


# ---- a slot that is left open

def test_slots_are_given_up_after_each_failure(cache):
    for _ in range(70):
        with pytest.raises(OSError):
            cache.put(KEY, Source(3_000_000, 1_000_000))
        with pytest.raises(cache2.NotFound):
            cache.open(":absent")
        with pytest.raises(cache2.NotFound):
            cache.use(":absent")
        with pytest.raises(RuntimeError):
            with cache.create(":other"):
                raise RuntimeError
    assert cache.list() == []


def test_a_source_that_fails_at_once_leaves_the_old_entry(cache):
    cache.put(KEY, b"old")
    with pytest.raises(OSError):
        cache.put(KEY, Source(10, 10))
    assert cache.get(KEY).read() == b"old"
    with pytest.raises(OSError):
        cache.put(KEY, Source(3_000_000, 1_000_000))
    with pytest.raises(cache2.NotFound):
        cache.get(KEY)


def test_a_create_that_was_refused_touches_no_entry(cache, path):
    """A folder stands in the place of the file, so that the program answers `fault`."""
    cache.put(":other", b"other")
    os.mkdir(os.path.join(path, "entries", cache2.name_of(KEY)))
    for call in (lambda: cache.put(KEY, b"x", {"a": "b"}), lambda: cache.put(KEY, io.BytesIO(b"x")),
                 lambda: cache.create(KEY), lambda: cache.get(KEY), lambda: cache.open(KEY), lambda: cache.use(KEY)):
        for _ in range(70):
            with pytest.raises(cache2.Fault):
                call()
    with cache.pipeline() as pipeline:
        bad, good = pipeline.put(KEY, b"x"), pipeline.put(":good", b"good")
        with pytest.raises(cache2.Fault):
            bad.result()
        good.result()
    assert cache.get(":good").read() == b"good"
    assert cache.get(":other").read() == b"other"
    os.rmdir(os.path.join(path, "entries", cache2.name_of(KEY)))
    cache.put(KEY, b"x")


# ---- two pipes that are full

def test_large_replies_and_large_commands_at_once(cache):
    body = os.urandom(300_000)
    cache.put(KEY, body)
    with cache.pipeline() as pipeline:
        for _ in range(20):
            got = pipeline.get(KEY)
            pipeline.put(":copy", body)
            pipeline.put(":" + "k" * 16_000, body[:50_000])
            assert got.result().read() == body
    entries = [cache.get(KEY) for _ in range(10)]
    cache.put(":last", body)
    assert [entry.read() == body for entry in entries] == [True] * 10


def test_twenty_thousand_unread_replies(cache):
    cache.put(KEY, b"x" * 1000)
    with cache.pipeline() as pipeline:
        replies = [pipeline.get(KEY) for _ in range(20_000)]
    assert all(reply.is_done for reply in replies)
    assert replies[-1].result().read() == b"x" * 1000


def test_a_pipeline_of_thousands_of_entries(cache):
    with cache.pipeline() as pipeline:
        for number in range(1000):
            pipeline.put(f":{number}", b"%d" % number * 100)
        doomed = pipeline.doom(":5")
        used = pipeline.use(":6")
    assert doomed.result() is True and used.result() is None
    with cache.pipeline() as pipeline:
        absent, there = pipeline.get(":5"), pipeline.get(":6")
        with pytest.raises(cache2.NotFound):
            absent.result()
    assert there.result().read() == b"6" * 100 and there.result().count == 2
    assert len(cache.list()) == 999
    with pytest.raises(cache2.NotFound):
        with cache.pipeline() as pipeline:
            pipeline.get(":5")
            pipeline.get(":6")


def test_thousands_of_elements(cache):
    elements = {str(number): b"%d" % number for number in range(2_000)}
    cache.put(KEY, b"x" * 5_000)
    with cache.pipeline() as pipeline:
        for number in range(3):
            pipeline.get(KEY)
            pipeline.put(f":{number}", b"y" * 5_000, elements, is_pinned=True)
    for number in range(3):
        entry = cache.get(f":{number}")
        assert (entry.elements, entry.is_pinned, entry.read()) == (elements, True, b"y" * 5_000)


def test_an_element_that_is_refused_among_others(path, other_program):
    program = other_program("for _ in range(7): ask()\n"
                            "say(b'ok\\nok\\ntoo large\\nok\\n')\n"
                            "heard = ask(); say(b'ok\\n'); heard += ask(); say(b'ok\\n'); ask()\n"
                            "say(b'no\\n' if heard == b'doom :key\\nclose 0\\n' else b'yes\\n'); sys.stdin.read()")
    with cache2.open(path, program=program) as cache:
        with pytest.raises(cache2.TooLarge):
            cache.create(":key", {"a": b"1", "b": b"2", "c": b"3"})
        assert cache.has(":key") is False


@pytest.mark.parametrize("piece", [1 << 10, 1 << 17, 1 << 20])
def test_replies_that_come_in_pieces(piece):
    chance = random.Random(piece)
    parts = [chance.randbytes(chance.choice((0, 3, 5_000, 100_000, limits.CHUNK, 300_000))).replace(b"\n", b"x")
             for _ in range(60)]
    data = b"".join(part + b"\n" for part in parts)
    read, write = os.pipe()

    def send():
        with open(write, "wb", buffering=0) as pipe:
            for at in range(0, len(data), piece):
                pipe.write(data[at:at + piece])
    sender = threading.Thread(target=send)
    sender.start()
    with open(read, "rb", buffering=0) as pipe:
        replies = pipes.Replies(pipe, 30.0, lambda: pytest.fail("late"), lambda: pytest.fail("ended"))
        for number, part in enumerate(parts):
            if number % 3 == 0 and len(part) <= pipes.LONGEST:
                assert replies.line() == part
                continue
            if number % 3 == 1:
                replies.skip(len(part))
            elif number % 2:
                assert replies.block(len(part)) == part
                continue
            else:
                assert replies.take(len(part)) == part
            replies.end_line()
        assert replies.rest() == b""
    sender.join()


# ---- what ends a session is not sent

def test_pieces_and_lines_are_never_too_long(cache):
    with cache.create(":" + "k" * 16_383, {"n" * 19_900: "v"}) as writer:
        writer.write(bytes(3 << 20))
    assert cache.get(":" + "k" * 16_383).length == 3 << 20
    with pytest.raises(cache2.BadElement):
        cache.clear("x" * 20_000)
    with pytest.raises(cache2.BadElement):
        cache.clear("x\ny")
    with pytest.raises(ValueError):
        cache.evict(1 << 32)
    with pytest.raises(ValueError):
        cache.update(-1)


@pytest.mark.parametrize("now", [-5, LAST_MOMENT, LAST_MOMENT + 1, 1e18])
def test_a_clock_that_is_out_of_range(path, now):
    with cache2.open(path, clock=lambda: now) as cache:
        cache.put(KEY, b"x")
        assert cache.get(KEY).modified == min(max(now, 0), LAST_MOMENT)


def test_a_new_run_begins_before_the_script_is_full(path, started, monkeypatch):
    monkeypatch.setattr(conversation, "FULL_SCRIPT", 3 << 20)
    monkeypatch.setattr(conversation, "MAX_SCRIPT", (8 << 20) + limits.KEPT_FOR_ENDS)
    with cache2.open(path) as cache:
        for number in range(12):
            cache.put(f":{number}", bytes(1 << 20))
        assert len(started) == 4
        reader = cache.open(":1")
        with pytest.raises(cache2.SessionFull):
            for number in range(12, 30):
                cache.put(f":{number}", bytes(1 << 20))
        for call in (lambda: cache.has(":" + "k" * 16_000), lambda: cache.has(":" + "k" * 200), lambda: cache.use(":1"),
                     lambda: cache.open(":1"), lambda: cache.create(":w"), lambda: cache.list(),
                     lambda: cache.put(":big", io.BytesIO(bytes(9 << 20)))):
            with pytest.raises(cache2.SessionFull):
                for _ in range(10_000):
                    call()
        # The one that did not get through is doomed. The reader is told, too, until it is closed.
        assert len(started) == 5
        with pytest.raises(cache2.SessionFull):
            reader.read(5)
        reader.close()
        with pytest.raises(cache2.NotFound):
            cache.get(f":{number}")
        cache.put(":after", bytes(1 << 20))
        assert len(started) == 6
        assert len(cache.list()) == number + 1
        assert cache.verify() == []


# ---- signals

def test_an_interrupt_does_not_reach_the_program(cache, started):
    assert os.getsid(started[0].pid) != os.getsid(0)
    assert os.getpgid(started[0].pid) != os.getpgid(0)


@pytest.mark.parametrize("when", ["put", "get"])
def test_an_interrupt_in_a_call_ends_the_run_and_nothing_else(path, started, when):
    body = os.urandom(8 << 20)

    def interrupt(_signal, frame):
        # What is raised in a `__del__` is dropped, so it comes a little later.
        if frame.f_code.co_name == "__del__":
            signal.setitimer(signal.ITIMER_VIRTUAL, 0.001)
            return
        raise KeyboardInterrupt
    with cache2.open(path) as cache:
        cache.put(":before", b"before")
        cache.put(KEY, body)
        before = signal.signal(signal.SIGVTALRM, interrupt)
        try:
            with pytest.raises(KeyboardInterrupt):
                signal.setitimer(signal.ITIMER_VIRTUAL, 0.01)
                while True:
                    cache.put(KEY, body) if when == "put" else cache.get(KEY).read()
        finally:
            signal.setitimer(signal.ITIMER_VIRTUAL, 0)
            signal.signal(signal.SIGVTALRM, before)
        assert cache.get(":before").read() == b"before"
        cache.put(KEY, b"after")
        assert cache.get(KEY).read() == b"after"


def is_running(pid):
    """Whether a process runs that may be a child of nobody here."""
    try:
        with open(f"/proc/{pid}/stat", encoding="ascii") as file:
            return file.read().rpartition(")")[2].split()[0] != "Z"
    except FileNotFoundError:
        return False


def test_the_end_of_a_client_ends_the_program(path, started):
    """A client that is killed leaves a program that closes the cache and ends."""
    code = ("import cache2, os, sys\ncache = cache2.open(sys.argv[1])\ncache.put(':kept', b'kept')\n"
            "writer = cache.create(':half')\nwriter.write(bytes(500000))\nwriter.wait()\n"
            "print(cache._talk._process.pid, flush=True)\nos.kill(os.getpid(), 9)\n")
    root = os.path.dirname(os.path.dirname(os.path.abspath(__file__)))
    ran = subprocess.run([sys.executable, "-c", code, path], stdout=subprocess.PIPE, check=False,
                         env={**os.environ, "PYTHONPATH": root})
    with cache2.open(path) as cache:
        assert not is_running(int(ran.stdout))
        assert cache.get(":kept").read() == b"kept"
        with pytest.raises(cache2.NotFound):
            cache.get(":half")
        assert cache.verify() == []


# ---- faults and ends

ENDS = {1: cache2.OutOfMemory, 2: cache2.Malformed, 3: cache2.Malformed, 4: cache2.InputFailed, 5: cache2.OutputFailed,
        6: cache2.DiskFailed, 8: cache2.SystemRefused, 9: cache2.NotBuilt, 0: cache2.ProgramEnded,
        77: cache2.ProgramEnded, 137: cache2.Killed}


@pytest.mark.parametrize("status", sorted(ENDS))
def test_each_end_of_the_program_has_a_name(path, other_program, status):
    program = other_program(f"ask(); sys.exit({status})")
    with cache2.open(path, program=program) as cache:
        with pytest.raises(ENDS[status]) as told:
            cache.get(KEY)
        assert type(told.value) is ENDS[status] and told.value.status == status


def test_a_program_that_is_killed_is_said_to_be_and_started_anew(path, started):
    with cache2.open(path) as cache:
        cache.put(KEY, b"acknowledged")
        reader, writer = cache.open(KEY), cache.create(":half")
        writer.write(b"x" * 300_000)
        for number in range(3):
            started[-1].kill()
            with pytest.raises(cache2.Killed):
                cache.get(KEY)
            assert cache.get(KEY).read() == b"acknowledged"
            assert len(started) == number + 2
        for call in (lambda: reader.read(1), lambda: reader.element("a"), lambda: writer.write(b"x"), writer.close):
            with pytest.raises(cache2.Killed):
                call()
        reader.close()
        writer.abort()
        with pytest.raises(cache2.NotFound):
            cache.get(":half")


def test_a_body_that_does_not_come_whole_is_no_shorter_one(path, other_program):
    program = other_program("ask(); say(b'found 1 1 1 1 4294967295 0 0 900000\\n\\n' + bytes(500000)); sys.exit(6)")
    for call in (lambda cache, entry: entry.read(), lambda cache, entry: cache.has(KEY)):
        with cache2.open(path, program=program) as cache:
            entry = cache.get(KEY)
            with pytest.raises(cache2.DiskFailed):
                call(cache, entry)
            with pytest.raises(cache2.DiskFailed):
                entry.read()


def test_replies_before_the_end_count(path, other_program):
    """What was acknowledged before the program ended is told so."""
    program = other_program("for _ in range(2): [ask() for _ in range(4)]; say(b'ok\\nok\\nok\\n')\nsys.exit(6)")
    with cache2.open(path, program=program, flush_every=None) as cache:
        pipeline = cache.pipeline()
        replies = [pipeline.put(f":{number}", b"x") for number in range(5)]
        with pytest.raises(cache2.DiskFailed):
            pipeline.wait()
        assert [reply.error is None for reply in replies] == [True, True, False, False, False]


def test_what_is_no_reply(path, other_program, started):
    for reply in (b"what\n", b"found 1 2\n", b"found a 1 1 1 1 1 1 1\n", b"found 1 1 1 1 1 0 0 1\n\nxy\n", b"ok\n",
                  b"found 1 1 1 1 1 0 2 1\nab\0x\n"):
        program = other_program(f"ask(); say({reply!r}); time.sleep(100)")
        with cache2.open(path, program=program) as cache:
            with pytest.raises(cache2.BadReply):
                cache.get(KEY).read()
    for code, error in (("say(b'script 2\\n'); sys.exit(3)", cache2.Malformed),
                        ("say(b'x' * 1000000); time.sleep(100)", cache2.BadReply)):
        with cache2.open(path, program=other_program(f"ask(); {code}")) as cache:
            with pytest.raises(error):
                cache.get(KEY)


def test_a_program_that_does_not_answer(path, other_program, started):
    for code in ("ask(); time.sleep(100)", "time.sleep(100)",
                 "ask(); say(b'found 1 1 1 1 1 0 0 900000\\n\\n'); time.sleep(100)"):
        begun = time.monotonic()
        with cache2.open(path, program=other_program(code), timeout=3.0) as cache:
            with pytest.raises(cache2.TimedOut):
                cache.put(KEY, bytes(3 << 20)) if code.startswith("time") else cache.get(KEY).read()
        assert time.monotonic() - begun < 20


# ---- moments, uses, syncs

def test_each_command_has_its_moment_and_none_goes_back(path):
    moment = [1000]
    with cache2.open(path, clock=lambda: moment[0]) as cache:
        cache.put(":a", b"x")
        moment[0] = 900
        cache.put(":b", b"x")
        moment[0] = 1100
        cache.put(":c", b"x")
        assert [cache.get(key).modified for key in (":a", ":b", ":c")] == [1000, 1000, 1100]


def test_the_moment_does_not_go_back_over_runs_of_a_cache(path, started):
    moment = [1000]
    with cache2.open(path, clock=lambda: moment[0]) as cache:
        started[-1].kill()
        with pytest.raises(cache2.Killed):
            cache.list()
        moment[0] = 500
        cache.put(":a", b"x")
        cache.dump(io.BytesIO())
        cache.put(":b", b"x")
        assert cache.get(":a").modified == cache.get(":b").modified == 1000


def test_a_get_counts_no_use_and_a_use_does(cache):
    cache.put(KEY, b"x")
    for _ in range(3):
        cache.get(KEY)
    assert cache.get(KEY).count == 1
    cache.use(KEY)
    assert cache.get(KEY).count == 2


def calls_of(cache, monkeypatch):
    """The words of the commands that a cache sends from now on."""
    words = []
    send = conversation.Conversation._send

    def recorded(talk, line, *more):
        words.append(line.split(b" ")[0].decode())
        return send(talk, line, *more)
    monkeypatch.setattr(conversation.Conversation, "_send", recorded)
    return words


@pytest.mark.parametrize("every, flushes", [(None, 0), (1, 10), (4, 2), (100, 0)])
def test_when_a_flush_is_made(path, monkeypatch, every, flushes):
    with cache2.open(path, flush_every=every) as cache:
        words = calls_of(cache, monkeypatch)
        for number in range(4):
            cache.put(f":{number}", b"x")
        for number in range(2):
            with cache.create(f":w{number}") as writer:
                writer.write(b"x")
        with cache.pipeline() as pipeline:
            for number in range(4):
                pipeline.put(f":p{number}", b"x")
        assert words.count("flush") == flushes
        cache.flush()
        assert words.count("flush") == flushes + 1


def test_an_entry_that_is_made_anew(path, started):
    """From `create` on the old entry is gone. A program that is killed in between leaves neither, and no torn one."""
    with cache2.open(path) as cache:
        cache.put(KEY, b"old")
        writer = cache.create(KEY)
        writer.write(b"new")
        started[-1].kill()
        with pytest.raises(cache2.Killed):
            writer.close()
        with pytest.raises(cache2.NotFound):
            cache.get(KEY)


def test_a_folder_is_ready_when_it_is_open(path, monkeypatch):
    with cache2.open(path) as cache:
        for number in range(50):
            cache.put(f":{number}", b"x")
        os.remove(os.path.join(path, "entries", cache2.name_of(":1")))
        os.mkdir(os.path.join(path, "entries", cache2.name_of(":1")))
    os.rmdir(os.path.join(path, "entries", cache2.name_of(":1")))
    with cache2.open(path) as cache:
        words = calls_of(cache, monkeypatch)
        assert cache.update(100) == 0
        assert words == ["step"]
