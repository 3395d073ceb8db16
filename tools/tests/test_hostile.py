"""Every verb of the program on hostile folders, and what came of it.

Each run has to end within its time, with a status that docs/COMMANDS.md names. Who looks at an entry that cannot be
read is answered by the line `fault`, and all others are served. Each run has to leave all that lies outside the folder
as it was: names, contents, rights and times. Names that are none of the cache's have to stay as well. What `dump`
prints with status 0 has to be a dump, and `load` is given hostile streams, too. No choice of names may make a run
expensive: names that agree in a part take at most five times the processor time of as many drawn ones. The runs of all
tests that were chosen go side by side."""
import concurrent.futures
import hashlib
import io
import os
import random
import shutil
import socket
import stat
import subprocess
import tempfile
from typing import NamedTuple

import pytest

from cachelib.dumps import HEAD, BadItem, Dump, dump_bytes
from cachelib.index import index_bytes, journal_bytes, mark_bytes, record_bytes
from cachelib.keys import name_of
from support import made_file, made_item

SECONDS = 60
NAMED = range(9)
DISK = 6
FAULT = b"fault\n"
# What a look that fails comes to, and what a call comes to that fails for good.
LOOK = (DISK, FAULT)
FOR_GOOD = (DISK, b"")
ROOT = os.getuid() == 0
SCRIPT = b"""create 0 :x
append 0 3
abc
set 0 1 a
b
finish 0
use 0
pin 0
read 0 0 3
set 0 2 a
bc
element 0 a
unset 0 a
unpin 0
putalt 0 2 t
de
getalt :x
main :x
open 1 :x
doom :x
create 2 :x
close 2
get :x
has :x
open 3 :y
use 3
close 3
list
state
step 1
verify
rebuild
flush
evict 0
create 4 :z
append 4 3
fgh
finish 4
clear ^a
clear \n\
read 4 0 3
close 4
at 2000
close 1
"""
# Five of its lines are bytes of commands.
COMMANDS = SCRIPT.count(b"\n") - 5


# The entries that a filled folder has, in the order of their names.
X, Y = made_item(b":x", b"hello"), made_item(b":y", bytes(300000))
BOTH = dump_bytes(*([X, Y] if name_of(":x") < name_of(":y") else [Y, X]))
VERBS = [(["run"], SCRIPT), (["put", ":x"], b"hello")]
VERBS += [(words.split(" "), b"") for words in ("get :x", "getalt :x", "main :x", "doom :x", "evict 0", "clear ",
                                                "flush", "list", "verify", "rebuild", "dump")]
VERBS += [(["load"], dump_bytes(X))]
CLEAR = VERBS[7]
SOME = VERBS[:5] + [CLEAR] + VERBS[10:]
OPENING = [VERBS[0], VERBS[8]]
# What stands in the place of other files.
ENTRY = made_file(3, b":x", b"hello")
# The verbs that look at one entry.
LOOKING = ("get", "getalt", "main")
# The kilobytes with which a run gets by that takes no memory of a large file's size.
LITTLE = 1 << 20


def looks(path):
    """What a name is, without what a reader changes."""
    found = os.lstat(path)
    seen = [found.st_mode, found.st_uid, found.st_mtime_ns, found.st_nlink]
    if stat.S_ISLNK(found.st_mode):
        return seen + [os.readlink(path)]
    if stat.S_ISREG(found.st_mode):
        if found.st_size > 1 << 24:
            return seen + [found.st_size]
        with open(path, "rb") as file:
            return seen + [hashlib.sha256(file.read()).digest()]
    return seen


def tree(top):
    """All below a folder, by the path from there."""
    found = {}
    for folder, folders, files in os.walk(os.fsencode(top)):
        for name in folders + files:
            path = os.path.join(folder, name)
            found[os.path.relpath(path, os.fsencode(top))] = looks(path)
    return found


def result_of(words, given, cwd, **how):
    """The status of a run, or None where it did not end, and what it printed."""
    try:
        ran = subprocess.run(words, input=given, cwd=cwd, stdout=subprocess.PIPE, stderr=subprocess.DEVNULL,
                             timeout=SECONDS, check=False, **how)
        return ran.returncode, ran.stdout
    except subprocess.TimeoutExpired:
        return None, b""


# ---- the folder and its surroundings

class Place:
    """Where the runs are, and a folder with two entries there. The program stands where every user finds it."""

    def __init__(self, program, base, shared):
        os.chmod(base, 0o755)
        self.base, self.program = base, shutil.copy(program.path, os.path.join(shared, "cache2"))
        os.chmod(self.program, 0o755)
        # One that is built with a sanitizer wants more room than a limit leaves.
        with open(self.program, "rb") as file:
            self.is_limited = b"AddressSanitizer" not in file.read()
        self.filled = os.path.join(base, "filled")
        for key, body in ((":x", b"hello"), (":y", bytes(300000))):
            assert result_of([self.program, self.filled, "1000", "put", key], body, base) == (0, b"ok\n")
        os.makedirs(os.path.join(self.filled, "doomed"), exist_ok=True)


class Room:
    """A folder `dir`, empty or with two entries and their index, and `around` beside it."""

    def __init__(self, place, filled):
        self.is_limited = place.is_limited
        self.top = tempfile.mkdtemp(dir=place.base)
        os.chmod(self.top, 0o755)
        self.dir = os.path.join(self.top, "dir")
        self.around = os.path.join(self.top, "around")
        if filled:
            shutil.copytree(place.filled, self.dir)
        else:
            for folder in ("entries", "doomed"):
                os.makedirs(os.path.join(self.dir, folder))
        folder = os.path.join(self.around, "folder")
        os.makedirs(folder)
        for name in (name_of(":x"), name_of(":z"), "0", "7", "index", "index.log", "index.tmp"):
            with open(os.path.join(folder, name), "wb") as file:
                file.write(ENTRY)
        shutil.copy(os.path.join(folder, "0"), os.path.join(self.around, "file"))
        self.place = os.path.join(self.dir, "nothing")

    def clear(self, place):
        """Makes room for something else at the place."""
        self.place = os.path.join(self.dir, place)
        if os.path.isdir(self.place) and not os.path.islink(self.place):
            shutil.rmtree(self.place)
        elif os.path.lexists(self.place):
            os.remove(self.place)
        os.makedirs(os.path.dirname(self.place), exist_ok=True)


def link_to(target):
    return lambda room: os.symlink(target.replace("AROUND", room.around), room.place)


def a_pipe(room):
    os.mkfifo(room.place)


def a_socket(room):
    with socket.socket(socket.AF_UNIX) as made:
        made.bind(room.place)


def a_folder(room):
    os.mkdir(room.place)


def a_full_folder(room):
    os.mkdir(room.place)
    shutil.copy(os.path.join(room.around, "file"), os.path.join(room.place, "0"))


def a_file(room):
    shutil.copy(os.path.join(room.around, "file"), room.place)


KINDS = {
    "a link to a file": link_to("AROUND/file"),
    "a link to a folder": link_to("AROUND/folder"),
    "a link to nothing": link_to("AROUND/nothing"),
    "a link to itself": lambda room: os.symlink(os.path.basename(room.place), room.place),
    "a link to endless bytes": link_to("/dev/zero"),
    "a pipe": a_pipe,
    "a socket": a_socket,
    "a folder": a_folder,
    "a folder that is not empty": a_full_folder,
}


class Attempt(NamedTuple):
    """A verb on a room of its own, which `make` changes first. `wanted` are the statuses that are due, `words` those
    before the program's. `stays` are paths in the folder that have to stay, `gone` such as have to be gone, `made`
    names that may be new in the current folder, and `due` the status and what is printed, or None where that is open.
    It may be done by another `user`, and may need `mounts`."""
    what: str
    verb: list
    given: bytes
    make: callable
    wanted: tuple
    filled: bool
    words: callable
    stays: tuple
    gone: tuple
    made: tuple
    due: tuple
    user: bool
    mounts: bool


ATTEMPTS = []


def attempt(what, make, wanted=NAMED, filled=True, words=None, stays=(), gone=(), verbs=None, made=(), due=None,
            user=False, mounts=False):
    """The verbs that are tried so; `due` by the verb."""
    for verb, given in verbs or VERBS:
        line = f"{what}, {'with two entries' if filled else 'empty'}: {' '.join(verb)}"
        ATTEMPTS.append(Attempt(line, verb, given, make, wanted, filled, words, stays, gone, made,
                                (due or {}).get(verb[0]), user, mounts))


def faults_of(place, one):
    """What is wrong with what came of it."""
    room = Room(place, one.filled)
    try:
        target = one.make(room)
        before = tree(room.around)
        entries = os.path.join(room.dir, "entries")
        is_idle = one.verb[0] == "dump" and not os.path.lexists(os.path.join(room.dir, "clear"))
        idle = tree(entries) if is_idle else None
        full = {path: os.path.join(os.fsencode(room.dir), path) for path in (*one.stays, *one.gone)}
        kept = {path: looks(full[path]) for path in one.stays}
        words = [*(one.words(room) if one.words else []), place.program, room.dir if target is None else target, "1000",
                 *one.verb]
        status, out = result_of(words, one.given, room.top, **(AS_NOBODY if one.user else {}))
        faults = {
            f"status {status}, wanted {list(one.wanted)}": status not in one.wanted,
            f"status {status}, printed {out[:80]}, due {one.due}":
                one.due is not None and (status != one.due[0] or one.due[1] not in (None, out)),
            "a script that is read to its end lacks replies":
                one.given is SCRIPT and status == 0 and out.count(b"\n") < COMMANDS,
            f"with the line `fault` came status {status}, or more was printed":
                one.verb[0] != "run" and FAULT in out and (status, out) != LOOK,
            "it is no dump": one.verb[0] == "dump" and status == 0 and not is_dump(out),
            "an entry was touched": is_idle and tree(entries) != idle,
            "something outside was touched": tree(room.around) != before,
            f"made beside: {os.listdir(room.top)}": set(os.listdir(room.top)) - set(one.made) != {"around", "dir"},
        }
        faults |= {f"{path} does not stay": not os.path.lexists(full[path]) or looks(full[path]) != found
                   for path, found in kept.items()}
        faults |= {f"{path} is not gone": os.path.lexists(full[path]) for path in one.gone}
        return [fault for fault, is_so in faults.items() if is_so]
    finally:
        clear_up(room.top)


def is_dump(data):
    try:
        return all(Dump(io.BytesIO(data)).items())
    except BadItem:
        return False


def clear_up(top):
    subprocess.run(["chmod", "-R", "u+rwX", top], stderr=subprocess.DEVNULL)
    shutil.rmtree(top)


# ---- what is tried

def placed(place, make):
    """Puts this there, in the place of what stands."""
    def prepare(room):
        room.clear(place)
        make(room)
    return prepare


def no_files_of_the_cache():
    """What is no file, under each kind of name. At the places of the index no run gets on."""
    for kind, make in KINDS.items():
        for filled in (False, True):
            extra = f"findings 1\n{name_of(':x')} extra\n".encode() if filled else b"findings 0\n"
            due = {**dict.fromkeys(("put", *LOOKING), LOOK), "run": (0, None), "verify": (7 if filled else 0, extra),
                   "rebuild": (0, None)}
            due["dump"] = (0, dump_bytes(*[Y] * filled))
            due["load"] = FOR_GOOD
            # The record of what is no file any more is cleared too.
            due["clear"] = (0, b"cleared 2\n" if filled else b"cleared 0\n")
            attempt(f"{kind} for an entry", placed(f"entries/{name_of(':x')}", make), (0, 6, 7), filled, verbs=SOME,
                    due=due)
            attempt(f"{kind} for a doomed file", placed("doomed/0", make), (0, 6, 7), filled, verbs=SOME)
            for place in ("index", "index.log", "index.tmp"):
                attempt(f"{kind} for {place}", placed(place, make), (DISK,), filled, verbs=OPENING,
                        due={"run": FOR_GOOD, "flush": FOR_GOOD})
        attempt(f"{kind} for another entry", placed(f"entries/{name_of(':z')}", make), (0, 7), verbs=SOME)


# Bytes that may stand at `clear`: a mark of an origin that no entry has, and what is no mark.
MARKS = {
    "a mark of another origin": mark_bytes(b"^nobody"),
    "a mark with a wrong hash": mark_bytes(b"")[:11] + b"\0",
    "a mark that was cut": mark_bytes(b"")[:11],
    "a mark and a byte": mark_bytes(b"") + b"\0",
    "no bytes": b"",
    "5 MB": bytes(5_000_000),
}


def bytes_there(data):
    """Makes a file of these bytes."""
    def make(room):
        with open(room.place, "wb") as file:
            file.write(data)
    return make


def what_stands_for_a_mark():
    """The mark of an origin clears its entries, whatever the verb. Another file in its place goes, and nothing else.
    What is no file ends each run, and stays."""
    kept = [b"entries/" + name_of(key).encode() for key in (":x", ":y")]
    found = (0, b"found 1 1000 1000 1000 4294967295 0 0 5\n\nhello\n")
    idle = [verb for verb in VERBS if verb[0][0] in ("getalt", "main", "flush", "list", "verify", "rebuild", "dump")]
    for what, make in KINDS.items():
        there = placed("clear", make)
        due = dict.fromkeys((verb[0] for verb, _ in VERBS), FOR_GOOD)
        attempt(f"{what} for a mark", there, (DISK,), stays=[b"clear", *kept], due=due)
        attempt(f"{what} for a mark", there, (DISK,), False, verbs=SOME, stays=[b"clear"], due=due)
    for what, data in MARKS.items():
        there = placed("clear", bytes_there(data))
        attempt(f"{what} for a mark", there, (0, 7), verbs=idle, stays=kept, gone=[b"clear"],
                due={"verify": (0, b"findings 0\n"), "dump": (0, BOTH)})
        attempt(f"{what} for a mark", there, (0,), verbs=VERBS[1:3], gone=[b"clear"], due={"get": found})
        attempt(f"{what} for a mark", there, (0,), verbs=[VERBS[0], CLEAR], gone=[b"clear"],
                due={"clear": (0, b"cleared 2\n")})
        attempt(f"{what} for a mark", there, (0, 6, 7), False, verbs=SOME, gone=[b"clear"])
    there = placed("clear", bytes_there(mark_bytes(b"")))
    due = {"run": (0, None), "put": (0, b"ok\n"), "evict": (0, b"evicted 0\n"), "clear": (0, b"cleared 0\n"),
           "flush": (0, b"ok\n"),
           "list": (0, b"records 0\n"), "verify": (0, b"findings 0\n"), "rebuild": (0, b"rebuilt 0\n"),
           "dump": (0, dump_bytes()),
           "load": (0, b"loaded 1\n")}
    due |= dict.fromkeys(("get", "getalt", "main", "doom"), (7, b"absent\n"))
    attempt("a mark of no origin", there, (0, 7), gone=[b"clear", kept[1]], due=due)
    attempt("a mark of no origin", there, (0, 7), verbs=VERBS[2:-1], gone=[b"clear", *kept])
    attempt("a mark of no origin", there, (0, 6, 7), False, verbs=SOME, gone=[b"clear"])


def no_folders_of_the_cache():
    """What is no folder in the place of a folder of the cache, or of the whole."""
    for kind, make in {**KINDS, "a file": a_file}.items():
        if kind.startswith("a folder"):
            continue
        none = dict.fromkeys((verb[0] for verb, _ in SOME), FOR_GOOD)
        # A link is met at the opening, and all else in the place of the entries by who looks there.
        looks = none if "link" in kind else {**dict.fromkeys(none, LOOK), "run": (0, None), "load": FOR_GOOD}
        for place, due in (("entries", looks), ("doomed", none)):
            attempt(f"{kind} for {place}", placed(place, make), (0, DISK), verbs=SOME, due=due)
        if kind != "a link to a folder":
            def prepare(room, make=make):
                shutil.rmtree(room.dir)
                room.place = room.dir
                make(room)
            attempt(f"{kind} for all", prepare, (DISK,), verbs=SOME)


def foreign_names():
    """Names of another form stay as they are."""
    name = name_of(":z").encode()
    entries = [b"a" * 255, b"\xff\xfe\x80", name.lower(), name[:39], name + b"0", b" " + name[1:], b"G" * 40,
               name[:20] + name[20:].lower(), "é".encode() * 20, b"\n", b"-", b"...", b"\x01" * 40, b"\xff" * 255]
    doomed = [b"007", b"-1", b"4294967296", b"1 ", b" 1", b"+1", b"1" * 255, b"0x1", b"\xff", b"1\n", "١".encode(),
              b"00"]
    stays = [b"entries/" + one for one in entries] + [b"doomed/" + one for one in doomed]
    stays += [b"INDEX", b"index.LOG", b"Entries", b"x" * 255, b"\xff"]

    def prepare(room):
        for path in stays:
            full = os.path.join(os.fsencode(room.dir), path)
            os.makedirs(os.path.dirname(full), exist_ok=True)
            with open(full, "wb") as file:
                file.write(ENTRY)
    for filled in (False, True):
        attempt(f"{len(stays)} foreign names", prepare, (0, 7), filled, stays=stays)


def folders_by_name():
    """DIR itself: long, missing, with odd bytes."""
    def long_one(length):
        def prepare(room):
            path = room.dir
            while length - len(path) > 201:
                path += "/" + "d" * 200
            return path + "/" + "d" * (length - len(path) - 1)
        return prepare
    for length in (1000, 4000, 4040):
        attempt(f"DIR of {length} bytes", long_one(length), (0, 7), verbs=SOME)
    for length in (4090, 4096, 100000):
        attempt(f"DIR of {length} bytes", long_one(length), (DISK,), verbs=OPENING)
    few = {"verbs": OPENING}
    attempt("DIR with a name of 256 bytes", lambda room: os.path.join(room.dir, "d" * 256), (DISK,), **few)
    attempt("DIR with a name of 255 bytes", lambda room: os.path.join(room.dir, "d" * 255), (0, 7), **few)
    attempt("DIR that is no text", lambda room: os.fsencode(room.dir) + b"/\xff", **few)
    attempt("DIR with a newline", lambda room: room.dir + "/a\nb", (0, 7), **few)
    attempt("DIR through a file", lambda room: room.around + "/file/dir", (DISK,), **few)
    attempt("DIR without a name", lambda room: b"", (0, 7), made=("doomed", "entries", "index", "index.log"), **few)


VERSION_BYTES, HASHED = index_bytes([], 0, 0)[:4], 41 * 3 * 10 ** 7
LARGE = 41 * 10 ** 11
# Large files that are no index, and no journal: the place, the size, the first bytes, and those with which the last
# record begins.
LARGE_INDEXES = [("index", LARGE + 20, b"", b""), ("index", LARGE + 20, VERSION_BYTES, b""),
                 ("index", LARGE + 20, b"", b"\1"),
                 ("index", HASHED + 20, VERSION_BYTES, b"\1"), ("index.log", LARGE + 4, b"", b""),
                 ("index.log", HASHED + 4, b"", b"\1")]
LISTED = "".join(sorted(f"{name_of(key)} 1000 DA39A3EE5E6B4B0D 65535 65535 0 80000{size:03X}\n" for key,
                        size in ((":x", 1), (":y", 294))))


def sizes():
    """Files that are as long as they can be, of zeros that take no room. A run may take 4 GB."""
    few = limited(4 << 20)
    for size in (LARGE, (1 << 32) - 1, (1 << 32) + 3, 262144, 262148, 262149, 262152):
        attempt(f"an entry of {size} zeros", long_at(f"entries/{name_of(':x')}", size), (0, 7), verbs=SOME, **few)
    attempt(f"a doomed file of {LARGE} zeros", long_at("doomed/7", LARGE), (0, 7), verbs=OPENING, **few)
    attempt(f"index.tmp of {LARGE} zeros", long_at("index.tmp", LARGE), (0, 7), verbs=OPENING, **few)


def long_at(place, size, front=b"", last=b""):
    """A file of zeros, but for its first bytes and for those with which its last record begins."""
    def make(room):
        with open(room.place, "wb") as file:
            file.write(front)
            try:
                file.truncate(size)
            except OSError as error:
                pytest.skip(f"files of {size} bytes: {error.strerror}")
            file.seek(size - 45)
            file.write(last)
    return placed(place, make)


def limited(kilobytes):
    """A run that may take so much room."""
    return {"words": lambda room: ["sh", "-c", f'ulimit -v {kilobytes}; exec "$@"', ""] if room.is_limited else []}


def large_indexes():
    """They are seen to be none without room for them, and the records are those of the entries: at once where the
    version is another or the last two records have one name, and else when they are hashed."""
    for place, size, front, last in LARGE_INDEXES:
        attempt(f"{place} of {size} zeros after {front}, with {last} in the last record",
                long_at(place, size, front, last), (0,),
                verbs=[*OPENING, (["list"], b"")], due={"list": (0, f"records 2\n{LISTED}".encode())},
                **limited(LITTLE))


AS_NOBODY = {"user": "nobody", "group": "nogroup", "extra_groups": []} if ROOT else {}


def rights():
    """Folders and files that the user may not read or may not change."""
    for place in (".", "entries", "doomed", f"entries/{name_of(':x')}", "doomed/0", "index", "index.log"):
        for mode in (0o000, 0o444, 0o555, 0o333):
            def prepare(room, place=place, mode=mode):
                path = os.path.join(room.dir, place)
                if not os.path.exists(path):
                    shutil.copy(os.path.join(room.around, "file"), path)
                if ROOT:
                    subprocess.run(["chown", "-R", "nobody:nogroup", room.dir], check=True)
                os.chmod(path, mode)
            attempt(f"{place[:12]} with the rights {mode:o}", prepare, (0, 6, 7), verbs=SOME,
                    due=due_by_rights(place, mode), user=True)

    def unreadable(room):
        if ROOT:
            subprocess.run(["chown", "-R", "nobody:nogroup", room.dir], check=True)
        os.chmod(os.path.join(room.dir, "entries", name_of(":x")), 0)
    served = b"found 1 1000 1000 1000 4294967295 0 0 300000\n\n" + bytes(300000) + b"\nok\ndata 2\n\0\0\nyes\n"
    script = b"open 0 :x\nget :x\nverify\nget :y\nopen 1 :y\nread 1 5 2\nhas :x\n"
    attempt("an entry that cannot be read", unreadable, (0,), verbs=[(["run"], script)],
            due={"run": (0, 3 * FAULT + served)}, user=True)
    verbs = [*(([verb, ":x"], b"") for verb in LOOKING), (["verify"], b""), (["doom", ":x"], b""), (["rebuild"], b"")]
    attempt("an entry that cannot be read", unreadable, (DISK,), verbs=verbs, due={verb[0]: LOOK for verb, _ in verbs},
            user=True)
    # By a trusted index a `dump` comes to it when its head is out.
    attempt("an entry that cannot be read", unreadable, (DISK,), verbs=[(["dump"], b"")], due={"dump": (DISK, None)},
            user=True)

    def marked(mode, without=()):
        def prepare(room):
            placed("clear", bytes_there(mark_bytes(b"")))(room)
            unreadable(room)
            os.chmod(room.place, mode)
            for place in without:
                os.remove(os.path.join(room.dir, place))
        return prepare
    name = b"entries/" + name_of(":x").encode()
    none = dict.fromkeys((verb[0] for verb, _ in VERBS), FOR_GOOD)
    # By a trusted index it is cleared unread. Where it has to be read no run gets on, nor where the mark cannot be
    # read.
    attempt("a mark and an entry that cannot be read", marked(0o600), (0,), verbs=[VERBS[9]], gone=[b"clear", name],
            due={"list": (0, b"records 0\n")}, user=True)
    attempt("a mark and an entry that has to be read", marked(0o600, ("index", "index.log")), (DISK,), stays=[b"clear"],
            due=none, user=True)
    attempt("a mark that cannot be read", marked(0), (DISK,), stays=[b"clear"], due=none, user=True)


def due_by_rights(place, mode):
    """What looks at entries come to, by the rights of one and of their folder: the right to list and that to look
    up."""
    may_list, may_enter = bool(mode & 0o400), bool(mode & 0o100)
    if place.startswith("entries/"):
        fails = () if may_list else (*LOOKING, "verify", "rebuild")
        clears = (0, b"cleared 2\n")
        dumps = (0, BOTH) if may_list else (DISK, None)
    elif place == "entries":
        fails = [*(() if may_enter else LOOKING), *(() if may_list and may_enter else ("verify", "rebuild"))]
        # Where the names may be listed they may not be removed.
        clears = FOR_GOOD if may_list and may_enter else LOOK
        dumps = (0, BOTH) if may_list and may_enter else LOOK
    else:
        return {}
    return {"get": (0, None), "getalt": (7, b"no alt\n"), "main": (0, b"main 5\nhello\n"),
            "verify": (0, b"findings 0\n"),
            "clear": clears, "dump": dumps, **dict.fromkeys(fails, LOOK)}


# ---- hostile streams

def bad_streams():
    """What is no dump, and the number of its bad item."""
    key = (2).to_bytes(4, "big") + b":x"
    most = (1 << 32) - 1
    yield "no bytes", 1, b""
    yield "a head alone", 1, HEAD
    yield "another head", 1, b"C2DUMP02\0"
    yield "a script", 1, SCRIPT
    yield "an entry file", 1, ENTRY
    yield "drawn bytes", 1, random.Random(1).randbytes(100000)
    yield "drawn bytes after the head", 1, HEAD + random.Random(2).randbytes(100000)
    yield "zeros after the end", 1, dump_bytes() + bytes(1000000)
    yield "a second dump", 2, dump_bytes(X) + dump_bytes(X)
    for length in (most, 1 << 31, 16385, 0):
        yield f"a key of {length} bytes", 1, HEAD + b"\1" + length.to_bytes(4, "big") + b":x" * 10000
    for length in (most, 1 << 31, 52428801, 52428800):
        yield f"a body of {length} bytes", 1, HEAD + b"\1" + key + length.to_bytes(4, "big") + bytes(300000)
    for length in (most, 1 << 31, 262145, 0):
        yield f"a block of {length} bytes", 1, HEAD + b"\1" + key + bytes(4) + length.to_bytes(4, "big") + bytes(300000)
    for bad in (b"", b"x", b"a:x", b":x\0", b":\n", b"../../around/file", b"/etc/passwd", b":" + b"k" * 16384):
        yield f"the key {bad[:20]}", 1, dump_bytes(made_item(bad, b""))
    yield "an item twice", 2, dump_bytes(X, X)
    yield "1,000 items of one key", 2, dump_bytes(*[X] * 1000)
    yield "items out of order", 2, dump_bytes(*([Y, X] if name_of(":x") < name_of(":y") else [X, Y]))
    yield "a body that is not the block's", 1, dump_bytes(X.replace(b"hello", b"jello"))
    yield "a block of another key", 1, dump_bytes(X.replace(b":x", b":z", 1))
    yield "a block that is cut", 1, dump_bytes(X)[:-2]


def other_file_systems():
    """A folder of the cache on another file system is refused, and nothing is changed before."""
    for folder in ("entries", "doomed"):
        def words(room, folder=folder):
            return ["unshare", "-m", "sh", "-c", 'mount -t tmpfs tmpfs "$0"; exec "$@"', os.path.join(room.dir, folder)]
        stays = [b"index", b"index.log"] + [b"entries/" + name_of(key).encode() for key in (":x", ":y")]
        attempt(f"`{folder}` on another file system", lambda room: None, (DISK,), True, words, stays,
                due=dict.fromkeys((verb[0] for verb, _ in VERBS), FOR_GOOD), mounts=True)


def streams():
    """What is loaded of a bad stream is what comes before its bad item, and of any key whose item is bad nothing is
    left."""
    for what, number, data in bad_streams():
        for filled in (False, True):
            stays = [b"entries/" + name_of(":y").encode()] if filled and data.count(Y) == 0 else []
            line = b"bad dump %d\n" % number
            attempt(f"load of {what}", lambda room: None, (3,), filled, verbs=[(["load"], data)], stays=stays,
                    gone=[b"doomed/0"], due={"load": (3, line)})
    odd = [b":../../around/file", b":/etc/passwd", b":" + bytes(range(11, 256)), b":" + b"k" * 16383]
    for key in odd:
        attempt(f"load of the key {key[:20]}", lambda room: None, (0,),
                verbs=[(["load"], dump_bytes(made_item(key, b"odd")))],
                stays=[b"entries/" + name_of(":y").encode()], gone=[b"doomed/0"], due={"load": (0, b"loaded 1\n")})


def full_file_systems():
    """A file system in memory that is full, has no room for a name, or may not be changed."""
    mount = ('cp -a "$0" "$0.copy"; mount -t tmpfs -o "$1" tmpfs "$0"; cp -a "$0.copy/." "$0/"; rm -r "$0.copy"; '
             'eval "$2"; shift 2; exec "$@"')
    fill = 'head -c 100M /dev/zero >"$0/filler" 2>/dev/null'
    body = random.Random(3).randbytes(1 << 20)
    verbs = SOME + [(["put", ":x"], body), (["put", ":new"], b"")]
    for what, options, after in (
            ("a file system of 600 KB", "size=600k", ":"), ("a full file system", "size=600k", fill),
            ("a file system with no more files", "size=10m,nr_inodes=10", ":"),
            ("a file system that may only be read", "size=10m", 'mount -o remount,ro "$0"')):
        for filled in (False, True):
            def words(room, options=options, after=after):
                return ["unshare", "-m", "sh", "-c", mount, room.dir, options, after]
            attempt(what, lambda room: None, (0, 6, 7), filled, words, verbs=verbs, mounts=True)


for fill in (no_files_of_the_cache, what_stands_for_a_mark, no_folders_of_the_cache, foreign_names, folders_by_name,
             sizes, large_indexes, rights, full_file_systems, other_file_systems, streams):
    fill()


# ---- the runs

@pytest.fixture(scope="module")
def place(binary, module_room):
    with tempfile.TemporaryDirectory() as shared:
        os.chmod(shared, 0o755)
        yield Place(binary, module_room, shared)


@pytest.fixture(scope="module")
def may_be_nobody(place):
    try:
        subprocess.run([place.program], stdin=subprocess.DEVNULL, stdout=subprocess.DEVNULL, timeout=SECONDS,
                       check=False, **AS_NOBODY)
    except (OSError, KeyError, ValueError, subprocess.SubprocessError):
        return False
    return True


@pytest.fixture(scope="module")
def may_mount(place):
    return ROOT and result_of(["unshare", "-m", "mount", "-t", "tmpfs", "tmpfs", place.base], b"", "/")[0] == 0


@pytest.fixture(scope="module")
def jobs(request, place, may_be_nobody, may_mount):
    """The runs of the tests that were chosen, which begin side by side."""
    items = [item for item in request.session.items if item.function is test_a_verb]
    chosen = [item.callspec.params["number"] for item in items]
    with concurrent.futures.ThreadPoolExecutor(2 * (os.cpu_count() or 1)) as workers:
        yield {number: workers.submit(faults_of, place, ATTEMPTS[number]) for number in chosen
               if (may_be_nobody or not ATTEMPTS[number].user) and (may_mount or not ATTEMPTS[number].mounts)}
        workers.shutdown(cancel_futures=True)


@pytest.mark.parametrize("number", [pytest.param(number, id=one.what) for number, one in enumerate(ATTEMPTS)])
def test_a_verb(jobs, number):
    if number not in jobs:
        pytest.skip("no other user, or no file system may be mounted")
    assert jobs[number].result() == []


@pytest.mark.parametrize("where, size, front, last", LARGE_INDEXES)
def test_a_large_index_is_written_anew(place, where, size, front, last):
    room = Room(place, True)
    try:
        long_at(where, size, front, last)(room)
        assert result_of([place.program, room.dir, "1000", "list"], b"", room.top)[0] == 0
        assert all(os.stat(os.path.join(room.dir, name)).st_size < 1000 for name in ("index", "index.log"))
    finally:
        clear_up(room.top)


# ---- names that were chosen

RUNS = 3
TIMES = 5
SPARE = 0.1
RECORDS = 20000
FILES = 5000
# The last eight bytes of names that a hash of the kit takes for the same, whatever stands before them.
ALIKE = bytes.fromhex("157C4A7FB979379E")


def draw(front, end):
    """Names with this front and this end. The bytes between them come from a generator that always begins in one
    way."""
    drawn = random.Random(1)
    return lambda count: [front + drawn.randbytes(20 - len(front) - len(end)) + end for _ in range(count)]


CHOSEN = {"one end": draw(b"", ALIKE), "one front": draw(bytes(14), b"")}


def records(names, frecency=1000):
    """A record of each name."""
    return [record_bytes(name, frecency) for name in names]


def index(names, flag):
    return index_bytes(records(names), 1000, flag)


def journal(names, frecency=1000):
    return journal_bytes(records(names, frecency))


def empty_files(names):
    return {f"entries/{name.hex().upper()}": b"" for name in names}


# The files of a folder by their names, and the verbs that are tried on it.
COSTLY = {
    "a clean index": (RECORDS, lambda names: {"index": index(names, 0), "index.log": journal([])}),
    "a dirty index": (RECORDS, lambda names: {"index": index(names, 1)}),
    "a journal over no records": (RECORDS, lambda names: {"index": index([], 0), "index.log": journal(names)}),
    "a journal over the same names": (RECORDS, lambda names: {"index": index(names, 0),
                                                              "index.log": journal(names, 2000)}),
    "files of entries": (FILES, empty_files),
    "files of entries and a dirty index": (FILES, lambda names: {"index": index(names, 1), **empty_files(names)}),
}
MEASURED = ("get :x", "list", "evict 0")


def seconds(place, folder, verb):
    """The least processor time of a few runs, each on a copy of the folder, or none where one did not end well."""
    within = ["sh", "-c", f'ulimit -t {SECONDS}; exec "$@"', ""]
    least = SECONDS
    for _ in range(RUNS):
        copy = os.path.join(place.base, "measured")
        shutil.copytree(folder, copy)
        run = subprocess.Popen([*within, place.program, copy, "1000", *verb.split()], stdin=subprocess.DEVNULL,
                               stdout=subprocess.DEVNULL, stderr=subprocess.DEVNULL)
        _, status, used = os.wait4(run.pid, 0)
        run.returncode = os.waitstatus_to_exitcode(status)
        shutil.rmtree(copy)
        if run.returncode not in (0, 7):
            return None
        least = min(least, used.ru_utime + used.ru_stime)
    return least


def folder_of(place, files):
    top = tempfile.mkdtemp(dir=place.base)
    for folder in ("entries", "doomed"):
        os.mkdir(os.path.join(top, folder))
    for path, content in files.items():
        with open(os.path.join(top, path), "wb") as file:
            file.write(content)
    return top


@pytest.fixture(scope="module")
def cost(place):
    """What a verb costs on a folder with names that were drawn so, each measured once."""
    folders, known = {}, {}

    def cost_of(what, how, verb):
        if (what, how) not in folders:
            count, files = COSTLY[what]
            folders[what, how] = folder_of(place, files(CHOSEN.get(how, draw(b"", b""))(count)))
        if (what, how, verb) not in known:
            known[what, how, verb] = seconds(place, folders[what, how], verb)
        return known[what, how, verb]
    return cost_of


@pytest.mark.parametrize("verb", MEASURED)
@pytest.mark.parametrize("how", CHOSEN)
@pytest.mark.parametrize("what", COSTLY)
def test_names_that_were_chosen_cost_what_others_cost(cost, what, how, verb):
    """No other run of these tests goes on beside it."""
    usual, found = cost(what, "drawn", verb), cost(what, how, verb)
    assert None not in (usual, found)
    assert found <= TIMES * usual + SPARE
