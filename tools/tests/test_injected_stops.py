"""A full disk, and a kill at each call of a `put` and of a script: what was there before is there whole, and what a
killed run costs those after it."""
import errno
import os
import shutil
import signal
import subprocess

import pytest

from injecting import BODY, SCRIPT, case, each_number, fresh, is_within, nth, plain, traced
from tracing import STATS

pytestmark = pytest.mark.usefixtures("injected")
WRITERS = b"""create 0 :s
append 0 5
first
create 1 :s
append 1 5
hello
create 2 :t
finish 0
append 2 3
abc
finish 1
finish 2
"""


def checks_kept(what, folder, ran, status):
    """The run ended so, printed `ok` only where the new entry is there, and what was there before is there whole."""
    case(f"{what}: status", ran.status == status, ran.status)
    case(f"{what}: the other entry stays", plain(folder, "get", ":old").out.endswith(b"3\n\nold\n"))
    new = plain(folder, "get", ":new")
    is_new = new.out.endswith(BODY + b"\n")
    is_one = is_new or new.out == b"absent\n" or new.out.endswith(b"8\n\nprevious\n")
    case(f"{what}: one version or none", is_one, new.status, new.out[:60])
    case(f"{what}: ok only for the new one", is_new or ran.out == b"", ran.out)
    case(f"{what}: verify", plain(folder, "verify").out == b"findings 0\n")


@pytest.mark.parametrize("name, code", [("write", errno.ENOSPC), ("write", errno.EAGAIN), ("fsync", errno.EIO),
                                        ("fsync", errno.ENOSPC)])
def test_full_disks(name, code):
    """Each write and sync of a `put` that fails, one at a time."""

    def make():
        return fresh("full", (":old", b"old"), (":new", b"previous"))

    def run(folder, number):
        within = is_within(folder)

        def wanted(call):
            return call.name == name and within(call)

        return traced(folder, ["put", ":new"], BODY, nth(number, wanted, ("error", code)))

    def check(what, folder, ran):
        checks_kept(what, folder, ran, 6)
        after = ran.log[[action is not None for _, action in ran.log].index(True) + 1:]
        follows = [call.name for call, _ in after if call.changes() or call.name == "fsync"]
        case(f"{what}: no change and no sync follows", not follows, follows)

    each_number(f"put, {errno.errorcode[code]} at {name}", make, run, check)


def test_closes():
    """An error of `close` comes after the sync of the descriptor that wrote the file, and so loses nothing."""
    folder = fresh("closes", (":old", b"old"), (":a", b"a"), (":b", b"b"))
    script = (b"open 0 :a\nopen 1 :b\nuse 0\nuse 1\ncreate 2 :c\nappend 2 1\nc\ncreate 3 :d\nfinish 3\nset 1 1 x\ny\n"
              b"finish 2\nflush\n")
    within = is_within(folder)

    def plan(call):
        return ("error", errno.EIO) if call.name == "close" and within(call) else None

    ran = traced(folder, ["run"], script, plan)
    case("every close fails: status 0", ran.status == 0, ran.status)
    unsynced, lost = set(), []
    for call, _ in ran.log:
        if call.name == "write" and within(call):
            unsynced.add(call.fd)
        elif call.name == "fsync":
            unsynced.discard(call.fd)
        elif call.name == "close" and call.fd in unsynced:
            lost.append(call.path)
    case("every close fails: what was written was synced by the same descriptor before", not lost, lost)
    case("every close fails: the entries stand", plain(folder, "verify").status == 0)


def test_a_put_that_is_killed():
    """A kill at each call: what was there before is there whole, and the entry has one version or none."""

    def make():
        return fresh("killed", (":old", b"old"), (":new", b"previous"))

    def run(folder, number):
        within = is_within(folder)

        # Before one that asks for a size or a place all is as before the next one.
        def wanted(call):
            return within(call) and call.name not in STATS | {"lseek", "getdents64"}

        return traced(folder, ["put", ":new"], BODY, nth(number, wanted, ("kill", None)))

    def check(what, folder, ran):
        checks_kept(what, folder, ran, -signal.SIGKILL)

    each_number("put, killed at call", make, run, check)


@pytest.mark.parametrize("script", [SCRIPT, WRITERS], ids=["a script", "two writers of a key"])
def test_a_script_that_is_killed(script):
    """At each change or sync."""
    def run_script(script):
        def run(folder, number):
            within = is_within(folder)

            def wanted(call):
                return within(call) and (call.changes() or call.name == "fsync")

            return traced(folder, ["run"], script, nth(number, wanted, ("kill", None)))

        return run

    def check_script(what, folder, ran):
        before = plain(folder, "get", ":old").out
        case(f"{what}: the other entry stays", before.endswith(b"3\n\nold\n"), before)
        for key, bodies in ((":s", (b"hello\n", b"hellode\n")), (":t", b"abc\n")):
            found = plain(folder, "get", key).out
            case(f"{what}: {key} is whole or absent", found == b"absent\n" or found.endswith(bodies), found)
        case(f"{what}: rebuild", plain(folder, "rebuild").status == 0)
        case(f"{what}: nothing is left among the doomed", not os.listdir(os.path.join(folder, "doomed")))

    def make():
        return fresh("killed", (":old", b"old"))

    each_number("killed at change", make, run_script(script), check_script)


def syncs(folder, *words, given=b""):
    ran = traced(folder, list(words), given, lambda call: None)
    return sum(call.name == "fsync" for call, _ in ran.log)


def test_after_a_kill():
    """The first run after a kill syncs all that stands, and those after it do not."""
    keys = [f":{i}" for i in range(40)]
    folder = fresh("after", *((key, b"x") for key in keys))
    within = is_within(folder)

    def wanted(call):
        return within(call) and call.name == "rename" and "doomed" in call.path

    ran = traced(folder, ["put", ":new"], BODY, nth(1, wanted, ("kill", None)))
    case("after a kill: killed", ran.status == -signal.SIGKILL, ran.status)
    case("after a kill: the first get syncs all", syncs(folder, "get", ":1") >= 40)
    for words in (["get", ":2"], ["get", ":3"], ["flush"]):
        case(f"after a kill: {words[0]} syncs nothing", syncs(folder, *words) == 0)
    case("after a kill: put syncs what is its own", syncs(folder, "put", ":5", given=b"y") < 10)
    case("after a kill: get syncs nothing after it", syncs(folder, "get", ":5") == 0)
    copy = folder + ".copy"
    shutil.rmtree(copy, ignore_errors=True)
    subprocess.run(["cp", "-a", folder, copy], check=True)
    case("after a kill: a copy is synced", syncs(copy, "get", ":2") >= 40)
    with open(os.path.join(folder, "entries", "foreign"), "w"):
        pass
    case("after a kill: what another program made is synced", syncs(folder, "get", ":2") >= 40)
    case("after a kill: rebuild", plain(folder, "rebuild").status == 0)
    case("after a kill: a closed folder has no note", sorted(os.listdir(folder)) == ["doomed", "entries", "index",
                                                                                     "index.log"])
    plan = nth(1, lambda call: within(call) and call.name == "unlink" and call.path.endswith("synced"),
               ("error", errno.EIO))
    shutil.copy(os.path.join(copy, "synced"), os.path.join(folder, "synced"))
    ran = traced(folder, ["put", ":6"], b"z", plan)
    case("a note that cannot be removed: status 6", ran.status == 6, ran.status)
    case("a note that cannot be removed: nothing is changed",
         not [c for c, a in ran.log if c.changes() and not a and within(c)])
