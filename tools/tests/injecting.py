"""What the tests share in which calls of the system fail, do less or are the last: folders, cases and plans for the
tracer."""
import os
import shutil
import subprocess

import tracing
from cachelib.entries import NO_EXPIRATION
from cachelib.keys import name_of
from support import dump_of
from tracing import Run

SECONDS = 60
SCRIPT = b"""create 0 :s
append 0 5
hello
set 0 2 n
vv
finish 0
create 1 :t
append 1 3
abc
use 0
pin 0
putalt 0 2 t
de
unpin 0
getalt :s
main :s
flush
open 2 :s
doom :s
read 2 0 5
get :s
close 1
get :t
create 5 O^a,:u
append 5 1
u
finish 5
clear ^a
read 5 0 1
close 5
list
"""
BODY = bytes(i * 7 % 251 for i in range(3000))
MADE_AT_500 = (1, 500, 500, 500, NO_EXPIRATION)
# An entry of a new key, and one of a key that stands.
LOADED = dump_of([(b":n", b"loaded", MADE_AT_500, b""), (b":old", BODY, MADE_AT_500, b"")])


class Place:
    """Where the folders are, the program, and what was wrong in a test."""
    room, program, faults = None, None, []


def case(what, is_right, *seen):
    if not is_right:
        Place.faults.append((what, *seen))


def traced(folder, words, given, plan):
    return tracing.traced(Place.program, folder, words, given, plan)


def plain(folder, *words, given=b"", **how):
    """A run that is not traced."""
    ran = subprocess.run([Place.program, folder, "1000", *words], input=given, capture_output=True, timeout=SECONDS,
                         **how)
    return Run(ran.returncode, ran.stdout, [])


def is_within(folder):
    return lambda call: call.path == folder or call.path.startswith(folder + "/")


def entry_file(folder, key):
    return os.path.join(folder, "entries", name_of(key))


def fresh(name, *entries):
    """A new folder with these entries, closed."""
    folder = os.path.join(Place.room, name)
    shutil.rmtree(folder, ignore_errors=True)
    for key, body in entries:
        assert plain(folder, "put", key, given=body).status == 0
    return folder


def nth(number, wanted, action):
    """A plan that does so to the call with this number, from 1 on, among those that are wanted."""
    count = 0

    def plan(call):
        nonlocal count
        if wanted(call):
            count += 1
            if count == number:
                return action
        return None

    return plan


def each_number(what, make, run, check):
    """Tries a plan at the first call of a kind, at the second and so on, to the first that is not met."""
    for number in range(1, 500):
        folder = make()
        ran = run(folder, number)
        if not ran.injected():
            case(f"{what}: some call was met", number > 1)
            return
        check(f"{what} {number}", folder, ran)
    case(f"{what}: it comes to an end", False)
