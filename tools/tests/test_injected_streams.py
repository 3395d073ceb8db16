"""Calls of the program that do less than was asked or are interrupted, and streams that fail."""
import errno
import os

import pytest

from injecting import (BODY, LOADED, MADE_AT_500, SCRIPT, case, fresh, is_within, nth, plain, traced)
from support import dump_of, files_in

pytestmark = pytest.mark.usefixtures("injected")


COMMANDS = [
    (["put", ":new"], BODY),
    (["run"], SCRIPT),
    (["get", ":old"], b""),
    (["getalt", ":old"], b""),
    (["main", ":old"], b""),
    (["doom", ":old"], b""),
    (["list"], b""),
    (["verify"], b""),
    (["rebuild"], b""),
    (["evict", "1"], b""),
    (["clear", ""], b""),
    (["flush"], b""),
    (["dump"], b""),
    (["load"], LOADED),
]


def same_as_without(words, given, plan_for):
    """A command prints the same, ends the same and leaves the same files as without the plan."""
    left = fresh("without", (":old", b"old"), (":older", BODY))
    wanted = plain(left, *words, given=given)
    folder = fresh("with", (":old", b"old"), (":older", BODY))
    ran = traced(folder, words, given, plan_for(folder))
    same = (ran.status, ran.out, files_in(folder)) == (wanted.status, wanted.out, files_in(left))
    case(words[0], same and ran.injected(), ran.status, ran.out[:80])


def short(most):
    """Every read and write of a stream or of a file of the folder does so many bytes at most."""

    def plan_for(folder):
        within = is_within(folder)

        def plan(call):
            wanted = call.name in ("read", "write") and (call.fd in (0, 1) or within(call))
            return ("short", most) if wanted and call.count > most else None

        return plan

    return plan_for


def interrupted(folder):
    """Every other call that a signal may interrupt is interrupted."""
    within = is_within(folder)
    last = None

    def plan(call):
        nonlocal last
        again = (call.name, call.fd, call.path)
        # A listing is not interrupted.
        wanted = call.fd in (0, 1) or (within(call) and not call.path.endswith("/"))
        if call.name not in ("read", "write", "fsync", "ftruncate", "openat") or not wanted or again == last:
            last = None
            return None
        last = again
        return ("error", errno.EINTR)

    return plan


@pytest.mark.parametrize("words, given", COMMANDS, ids=[words[0] for words, _ in COMMANDS])
@pytest.mark.parametrize("most", [1, 2, 3])
def test_few_bytes_a_call(most, words, given):
    same_as_without(words, given, short(most))


@pytest.mark.parametrize("words, given", COMMANDS, ids=[words[0] for words, _ in COMMANDS])
def test_every_other_call_is_interrupted(words, given):
    same_as_without(words, given, interrupted)


@pytest.mark.parametrize("code", [errno.EIO, errno.EAGAIN])
def test_standard_input_that_fails(code):
    """A stream that fails is not taken for one that ends."""
    large = bytes(3_000_000)
    for number in (1, 2, 3):
        folder = fresh("source", (":old", b"old"))

        def wanted(call):
            return call.name == "read" and call.fd == 0

        ran = traced(folder, ["put", ":new"], large, nth(number, wanted, ("error", code)))
        what = f"put, {errno.errorcode[code]} at read {number}"
        case(f"{what}: status 4 and nothing printed", (ran.status, ran.out) == (4, b""), ran.status, ran.out)
        case(f"{what}: nothing is stored", plain(folder, "get", ":new").out == b"absent\n")
        case(f"{what}: the other entry stays", plain(folder, "get", ":old").out.endswith(b"old\n"))
        folder = fresh("source", (":old", b"old"))
        dump = dump_of([(b":new", large, MADE_AT_500, b""), (b":a", b"a", MADE_AT_500, b"")])
        ran = traced(folder, ["load"], dump, nth(number, wanted, ("error", code)))
        what = f"load, {errno.errorcode[code]} at read {number}"
        case(f"{what}: status 4 and nothing printed", (ran.status, ran.out) == (4, b""), ran.status, ran.out)
        case(f"{what}: nothing is stored of an item that is not whole", plain(folder, "get", ":new").out == b"absent\n")
        case(f"{what}: the other entry stays", plain(folder, "get", ":old").out.endswith(b"old\n"))
        case(f"{what}: nothing stands aside", not os.listdir(os.path.join(folder, "doomed")))
    folder = fresh("source")
    ran = traced(folder, ["run"], SCRIPT, nth(2, wanted, ("error", code)))
    case(f"run, {errno.errorcode[code]} at read 2: status 4", ran.status == 4, ran.status)


@pytest.mark.parametrize("code", [errno.EIO, errno.EAGAIN, errno.ENOSPC, errno.EPIPE])
def test_standard_output_that_fails(code):
    folder = fresh("sink", (":old", b"old"))

    def wanted(call):
        return call.name == "write" and call.fd == 1

    ran = traced(folder, ["get", ":old"], b"", nth(1, wanted, ("error", code)))
    case(f"get, {errno.errorcode[code]} at its first write: status 5", (ran.status, ran.out) == (5, b""), ran.status)
    for number, front in ((1, b""), (2, b"C2DUMP01")):
        ran = traced(folder, ["dump"], b"", nth(number, wanted, ("error", code)))
        what = f"dump, {errno.errorcode[code]} at write {number}"
        case(f"{what}: status 5, and the dump is cut", (ran.status, ran.out) == (5, front), ran.status, ran.out)
