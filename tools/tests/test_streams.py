"""Runs whose standard streams do not wait, and what docs/GUIDE.md says of them.

Of such a pipe or socket a read fails where nothing is there yet, and a write where it is full. The program then ends
with status 4 or 5. A pipe that is opened anew by `/dev/stdin` or `/dev/stdout` waits again, and so does a pipe or
socket whose flag is taken away."""
import os
import socket
import subprocess
import threading
import time

import pytest

from support import Cache

SECONDS = 60
# More than a pipe or a socket holds.
BODY = bytes(number % 251 for number in range(3_000_000))
AS_IT_IS = '"$@"'
WAITING = "python3 -c 'import os; os.set_blocking(0, True); os.set_blocking(1, True)'; \"$@\""


def ends_of(kind):
    """Two descriptors, of which the first is read and the second written."""
    return os.pipe() if kind == "pipe" else tuple(end.detach() for end in socket.socketpair())


def begun(line, cache, words, **streams):
    """A run of a shell's line that has the program and its words as `$@`."""
    return subprocess.Popen(["bash", "-c", line, "sh", cache.program.path, cache.path, "1000", *words],
                            stderr=subprocess.DEVNULL, **streams)


def late_input(kind, line, cache):
    """Status and reply of a `put` whose standard input does not wait, and is empty at first."""
    reads, writes = ends_of(kind)
    os.set_blocking(reads, False)
    run = begun(line, cache, ["put", ":x"], stdin=reads, stdout=subprocess.PIPE)
    os.close(reads)
    time.sleep(0.5)
    try:
        os.write(writes, b"hello")
    except BrokenPipeError:
        pass
    os.close(writes)
    printed = run.communicate(timeout=SECONDS)[0]
    return run.returncode, printed


def full_output(kind, line, cache):
    """Status and bytes of a `dump` whose standard output does not wait, and is full for a while."""
    reads, writes = ends_of(kind)
    os.set_blocking(writes, False)
    run = begun(line, cache, ["dump"], stdin=subprocess.DEVNULL, stdout=writes)
    os.close(writes)
    time.sleep(0.5)
    timer = threading.Timer(SECONDS, run.kill)
    timer.start()
    with open(reads, "rb") as stream:
        printed = stream.read()
    status = run.wait()
    timer.cancel()
    return status, printed


@pytest.mark.parametrize("kind, line, status, reply, body", [
    ("pipe", AS_IT_IS, 4, b"", b"absent\n"), ("socket", AS_IT_IS, 4, b"", b"absent\n"),
    ("pipe", WAITING, 0, b"ok\n", b"main 5\nhello\n"), ("socket", WAITING, 0, b"ok\n", b"main 5\nhello\n"),
    ("pipe", f"{AS_IT_IS} </dev/stdin", 0, b"ok\n", b"main 5\nhello\n"),
])
def test_late_input(cache, kind, line, status, reply, body):
    assert late_input(kind, line, cache) == (status, reply)
    assert cache.run("main", ":x")[1] == body


@pytest.fixture(scope="module")
def dumped(program, module_room):
    """A folder with a long body, and its dump."""
    cache = Cache(program, os.path.join(module_room, "dumped"))
    assert cache.run("put", ":x", given=BODY) == (0, b"ok\n")
    return cache, cache.run("dump")[1]


@pytest.mark.parametrize("kind", ["pipe", "socket"])
def test_full_output(dumped, kind):
    cache, whole = dumped
    status, printed = full_output(kind, AS_IT_IS, cache)
    assert (status, whole.startswith(printed), len(printed) < len(whole)) == (5, True, True)


@pytest.mark.parametrize("kind, line", [("pipe", WAITING), ("socket", WAITING), ("pipe", f"{AS_IT_IS} >/dev/stdout")])
def test_full_output_that_waits(dumped, kind, line):
    cache, whole = dumped
    assert full_output(kind, line, cache) == (0, whole)
