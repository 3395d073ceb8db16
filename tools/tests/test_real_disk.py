"""The calls of the machine that the program makes on a real folder: what it changes, syncs and prints, in this order.
No test of a crate sees it, and no contract says that a file is synced."""
import hashlib
import os
import re
import shutil
import subprocess

import pytest

from cachelib.index import mark_bytes
from cachelib.keys import name_of
from support import Cache, files_in, run_tool

CALLS = ("open,openat,mkdir,mkdirat,unlink,unlinkat,rename,renameat,renameat2,write,writev,pwrite64,pwritev,ftruncate,"
         "fsync,fdatasync")
# The folder of the cache, from the room on.
D = "above/cache"
# The opening takes the journal away and sets the flag, and syncs that before all else is changed.
OPENING = [f"rename {D}/index.log {D}/index.tmp", f"write {D}/index", f"sync {D}/index", f"sync {D}",
           f"remove {D}/index.tmp"]
# The closing writes the journal, which is synced with all that waits, and then clears the flag.
LOG, LOG_SYNCED = [f"make {D}/index.log", f"write {D}/index.log"], [f"sync {D}/index.log", f"sync {D}"]
FLAG = [f"write {D}/index", f"sync {D}/index"]
CLOSING = LOG + LOG_SYNCED + FLAG
NOTE = [f"make {D}/synced", f"write {D}/synced"]
# An entry is written among the doomed, synced there with what else waits, and then moved.
WRITTEN = [f"make {D}/doomed/0", f"write {D}/doomed/0", f"sync {D}/doomed/0", f"sync {D}/doomed", f"sync {D}"]
MOVED_SYNCED = [f"sync {D}/entries", f"sync {D}/doomed"]
# The closing of a run in which names were moved.
CLOSING_MOVED = LOG + LOG_SYNCED[:1] + MOVED_SYNCED + LOG_SYNCED[1:] + FLAG
# The mark of a clearing is put at its place, where index.tmp was just removed.
MARKED = [f"make {D}/doomed/64", f"write {D}/doomed/64", f"sync {D}/doomed/64", f"sync {D}/doomed", f"sync {D}",
          f"rename {D}/doomed/64 {D}/clear"]
UNMARKED = [f"remove {D}/clear", *MOVED_SYNCED, f"sync {D}"]


def file_of(key):
    """The place of a key's entry, from the room on."""
    return f"{D}/entries/{name_of(key)}"


def moved(key, number=0):
    return f"rename {D}/doomed/{number} {file_of(key)}"


def script_of(*lines):
    return "".join(f"{line}\n" for line in lines).encode()


class Watched(Cache):
    """A folder for the program, whose calls are watched."""

    def __init__(self, program, room):
        super().__init__(program, f"{room}/{D}")
        self.room, self.calls = room, []

    def traced(self, *options, words, given=b"", path=None):
        """The status and the reply of a run under strace with these options; its calls, those on an open file with its
        path."""
        with open(f"{self.room}/in", "wb") as file:
            file.write(given)
        with open(f"{self.room}/in", "rb") as source, open(f"{self.room}/out", "wb") as sink:
            command = ["strace", "-f", "-y", "-o", f"{self.room}/calls", *options, "--", self.program.path,
                       path or self.path, "1000", *words]
            ran = subprocess.run(command, stdin=source, stdout=sink, stderr=subprocess.DEVNULL, check=False)
        with open(f"{self.room}/calls", encoding="utf-8", errors="replace") as file:
            self.calls = file.read().splitlines()
        with open(f"{self.room}/out", "rb") as file:
            return ran.returncode, file.read()

    def run_watched(self, *words, given=b""):
        """The status and the reply of a run."""
        return self.traced("-e", f"trace={CALLS}", words=words, given=given)

    def watch(self, *words, given=b""):
        """The status of a run, and its steps."""
        return self.run_watched(*words, given=given)[0], self.steps()

    def step(self, line):
        """The change or sync below the room that was done, or the reply: a word and the paths from the room on, or the
        first word of the reply. None where it is no such call."""
        call = re.match(r"\d+ +(\w+)\(", line)
        if not call or " = -1 " in line:
            return None
        call, named, opened = call[1], re.findall(r'"([^"]*)"', line), re.search("<([^>]*)>", line)
        if "write" in call and f"{call}(1<" in line:
            return "reply " + re.split(r"[ \\]", named[0])[0]
        if call.startswith("rename"):
            return " ".join(["rename", *(os.path.relpath(path, self.room) for path in named)])
        word = {"ftruncate": "cut", "fsync": "sync", "fdatasync": "sync"}.get(call) or ("write" if "write" in call
                                                                                        else None)
        path = opened[1] if word else named[0] if named else ""
        word = word or ("make" if call.startswith("open") and "O_CREAT" in line else "folder"
                        if call.startswith("mkdir") else "remove" if call.startswith("unlink") else None)
        is_inside = word and (path == self.room or path.startswith(self.room + "/"))
        return f"{word} {os.path.relpath(path, self.room)}" if is_inside else None

    def steps(self):
        """All of them in order; those that are the same and follow one another are one."""
        found = []
        for step in filter(None, map(self.step, self.calls)):
            if found[-1:] != [step]:
                found.append(step)
        return found

    def syncs(self):
        return sum("sync(" in call for call in self.calls)


@pytest.fixture
def new(binary, tracer, room):
    """A folder that is missing, as is the one above."""
    assert tracer
    return Watched(binary, room)


@pytest.fixture
def closed(new):
    """A folder that was closed, with the entries `:first` and `:second`."""
    assert new.run("run", given=b"create 0 :first\nappend 0 5\nhello\nclose 0\ncreate 0 :second\nclose 0\n")[0] == 0
    return new


# ---- single commands

def test_put_in_a_new_folder(new):
    """Every folder in which a name was made is synced, the one above too, and nothing is printed before. The folders
    that lead to it are synced at the opening, since an earlier run may have made them. The first closing writes the
    whole index."""
    assert new.watch("put", ":first", given=b"hello") == (0, [
        "sync .", "folder above", f"folder {D}", f"folder {D}/doomed", *WRITTEN, "sync .", "sync above",
        f"folder {D}/entries",
        moved(":first"), f"make {D}/index.tmp", f"write {D}/index.tmp", f"sync {D}/index.tmp", *MOVED_SYNCED,
        f"sync {D}",
        f"rename {D}/index.tmp {D}/index", *CLOSING, "reply ok"])


def test_put_another(closed):
    assert closed.watch("put", ":third", given=bytes(700_000)) == (
        0, [*OPENING, *WRITTEN, moved(":third"), *CLOSING_MOVED, "reply ok"])


OVER_THE_OLD = [*WRITTEN[:3], f"sync {D}/entries", *WRITTEN[3:]]


def test_put_over_the_old(closed):
    """The old file loses its name and is not cut."""
    assert closed.watch("put", ":second", given=b"again") == (0, [
        *OPENING, f"remove {file_of(':second')}", *OVER_THE_OLD, moved(":second"), *CLOSING_MOVED, "reply ok"])


def test_put_too_large(closed):
    """What is refused leaves no file, and that is synced too."""
    assert closed.watch("put", ":second", given=bytes(52_428_801)) == (7, [
        *OPENING, f"remove {file_of(':second')}", *WRITTEN[:2], f"remove {D}/doomed/0", *CLOSING_MOVED, "reply too"])


def test_get(closed):
    """The index alone is changed and synced."""
    assert closed.watch("get", ":first") == (0, [*OPENING, "reply found", *CLOSING])


def test_flush_of_nothing(closed):
    """The opening's last change waits."""
    assert closed.watch("flush") == (0, [*OPENING, f"sync {D}", "reply ok", *CLOSING])


def test_opening_after_a_stop(closed):
    """What an earlier run left goes before all else, and what is no file of the cache stays."""
    os.mkdir(closed.at("doomed/7"))
    os.symlink("5", closed.at("doomed/8"))
    closed.write(b"left", "doomed/5")
    assert closed.watch("flush") == (0, [f"remove {D}/doomed/5", *OPENING[:3], f"sync {D}/doomed", *OPENING[3:],
                                         f"sync {D}", "reply ok", *CLOSING])
    assert sorted(os.listdir(closed.at("doomed"))) == ["7", "8"]


def test_doom(closed):
    """The file of an entry that is not in use is removed, and the closing syncs its folder."""
    assert closed.watch("doom", ":first") == (0, [*OPENING, f"remove {file_of(':first')}", "reply ok", *LOG,
                                                  LOG_SYNCED[0], f"sync {D}/entries", LOG_SYNCED[1], *FLAG])


# ---- scripts

def test_a_script(closed):
    """A reader goes on with a doomed entry, whose number is then taken. A finished file is synced before it gets its
    name, and a flush syncs what waits then: the names alone. The closing removes what is doomed or unfinished, and
    syncs their folder."""
    shutil.rmtree(closed.at("doomed"))
    script = script_of("create 0 :x", "append 0 3", "old", "close 0", "open 1 :x", "flush", "doom :x", "create 2 :x",
                       "append 2 3", "new", "finish 2", "flush", "read 1 0 10", "get :x", "create 3 :y")
    assert closed.watch("run", given=script) == (0, [
        *OPENING, f"folder {D}/doomed", f"make {D}/doomed/0", "reply ok", *WRITTEN[1:], moved(":x"), "reply ok",
        *MOVED_SYNCED,
        "reply ok", f"rename {file_of(':x')} {D}/doomed/0", "reply ok", f"make {D}/doomed/1", "reply ok",
        f"write {D}/doomed/1",
        f"sync {D}/doomed/1", *MOVED_SYNCED, moved(":x", 1), "reply ok", *MOVED_SYNCED, "reply ok", "reply data",
        "reply found",
        f"make {D}/doomed/1", "reply ok", f"remove {D}/doomed/0", f"remove {D}/doomed/1", *LOG, LOG_SYNCED[0],
        f"sync {D}/doomed",
        LOG_SYNCED[1], *FLAG])


def test_flush_of_two(closed):
    """What was synced is not synced again. Metadata that are rewritten in place are synced by the descriptor that wrote
    them, in the order of the names."""
    script = script_of("create 0 :a", "close 0", "create 0 :b", "close 0", "open 0 :b", "open 1 :a", "use 0", "use 1",
                       "flush", "flush")
    a, b = file_of(":a"), file_of(":b")
    assert closed.watch("run", given=script) == (0, [
        *OPENING, f"make {D}/doomed/0", "reply ok", *WRITTEN[1:], moved(":a"), "reply ok", f"make {D}/doomed/0",
        "reply ok",
        f"write {D}/doomed/0", f"sync {D}/doomed/0", *MOVED_SYNCED, moved(":b"), "reply ok", f"write {b}", "reply ok",
        f"write {a}",
        "reply ok", f"sync {a}", f"sync {b}", *MOVED_SYNCED, "reply ok", *CLOSING])
    # Neither file is opened to be synced.
    opens = [call for call in closed.calls if "open" in call and (name_of(":a") in call or name_of(":b") in call)]
    assert [call for call in opens if "O_RDWR" not in call][2:] == []


@pytest.mark.parametrize("words", [("put", ":new"), ("put", ":first"), ("doom", ":first"), ("evict", "0"),
                                   ("clear", ""), ("rebuild",), ("verify",), ("flush",)])
def test_syncs_of_a_change(closed, words):
    """A file is synced after it was written, and a folder after a name in it was changed, and neither once more."""
    changed, (status, steps) = set(), closed.watch(*words, given=b"new")
    assert status == 0 and f"sync {D}" in steps
    for step in steps:
        word, *paths = step.split()
        if word == "sync":
            assert paths[0] in changed, step
            changed.remove(paths[0])
        elif word in ("make", "folder", "remove", "rename"):
            # A file that waits for its sync waits under its new name.
            if paths[0] in changed and word == "rename":
                changed.add(paths[1])
            changed.update(map(os.path.dirname, paths), paths[:word == "make"])
        elif word in ("write", "cut"):
            changed.add(paths[0])


# Memory that is taken or given back is left out, as are reads of the script.
CALLS_OF_AN_ENTRY = ["close", *3 * ["fsync"], "openat", "rename", "statx", *4 * ["write"]]


def test_calls_of_a_new_entry(closed):
    """A look whether one stands, and then its file is made, written, synced with both folders, moved and closed. Each
    of the three commands has its reply."""
    def calls(first, count):
        script = script_of(*(line % number for number in range(first, first + count)
                             for line in ("create 0 :%d", "append 0 1\nx%.0s", "close 0%.0s")))
        assert closed.traced("-e", "trace=!mmap,munmap,madvise,read", words=("run",), given=script)[0] == 0
        return sorted(re.findall(r"^\d+ +(\w+)\(", "\n".join(closed.calls), re.M))
    few, many = calls(0, 20), calls(20, 40)
    assert many == sorted(few + 20 * CALLS_OF_AN_ENTRY)


def test_data_after_a_body(closed):
    """They are one more write to the file, which is synced with what else waits. To show them changes nothing."""
    script = script_of("create 0 :data", "append 0 5", "hello", "finish 0", "flush", "putalt 0 2 wasm", "XY",
                       "getalt :data", "main :data", "flush")
    file = file_of(":data")
    assert closed.watch("run", given=script) == (0, [
        *OPENING, f"make {D}/doomed/0", "reply ok", *WRITTEN[1:], moved(":data"), "reply ok", *MOVED_SYNCED, "reply ok",
        f"write {file}", "reply ok", "reply alt", "reply main", f"sync {file}", "reply ok", *CLOSING])


# ---- clearings

@pytest.fixture
def origins(new):
    """A folder with two entries of an origin, one of it that is pinned, and one of none."""
    script = script_of("create 0 O^a,:one", "close 0", "create 0 O^a,:two", "append 0 3", "two", "close 0",
                       "create 0 O^a,:kept", "pin 0", "close 0", "create 0 :other", "close 0")
    assert new.run("run", given=script)[0] == 0
    return new


def test_clear(origins):
    """The mark stands, synced, before the first file is removed, and goes after the last. All is synced before the
    reply."""
    gone = sorted(f"remove {file_of(key)}" for key in ("O^a,:one", "O^a,:two"))
    assert origins.watch("clear", "^a") == (0, [*OPENING, *MARKED, *gone, *UNMARKED, "reply cleared", *CLOSING])
    assert origins.watch("clear", "^a") == (0, [*OPENING, *MARKED, UNMARKED[0], *UNMARKED[2:], "reply cleared",
                                                *CLOSING])


def test_clear_beside_a_reader(origins):
    """A file that is open in a slot is moved."""
    gone = dict(sorted([(file_of("O^a,:one"), f"remove {file_of('O^a,:one')}"),
                        (file_of("O^a,:two"), f"rename {file_of('O^a,:two')} {D}/doomed/0")])).values()
    assert origins.watch("run", given=script_of("open 0 O^a,:two", "clear ^a", "read 0 0 3", "close 0")) == (0, [
        *OPENING, "reply ok", *MARKED, *gone, *UNMARKED, "reply cleared", "reply data", f"remove {D}/doomed/0",
        "reply ok", *LOG,
        LOG_SYNCED[0], f"sync {D}/doomed", LOG_SYNCED[1], *FLAG])


# ---- dumps

def test_dump(closed):
    """It is printed while nothing is changed but the files of the index."""
    assert closed.watch("dump") == (0, [*OPENING, "reply C2DUMP01", "reply ", *CLOSING])
    assert run_tool("dump-list", f"{closed.room}/out")[0] == 0


def test_load(closed):
    """Each item is written as an entry of a script is, and the line comes when all is synced."""
    source = Cache(closed.program, f"{closed.room}/source")
    assert source.run("put", ":loaded", given=b"hello", now=500)[0] == 0
    dump = source.run("dump", now=500)[1]
    loaded = [moved(":loaded"), *CLOSING_MOVED, "reply loaded"]
    assert closed.watch("load", given=dump) == (0, [*OPENING, *WRITTEN, *loaded])
    assert closed.read(closed.entry(":loaded")) == source.read(source.entry(":loaded"))
    # The old file loses its name.
    assert closed.watch("load", given=dump) == (0, [*OPENING, f"remove {file_of(':loaded')}", *OVER_THE_OLD, *loaded])
    assert closed.run("load", given=dump[:-1]) == (3, b"bad dump 2\n")
    assert os.listdir(closed.at("doomed")) == []


def test_dump_and_load_of_2000(binary, room):
    """What is dumped and loaded into an empty folder is the same: entries, records and a second dump. Every seventh has
    an element, and every tenth is pinned."""
    from_there, to = Cache(binary, f"{room}/from"), Cache(binary, f"{room}/to")
    script = b""
    for n in range(1, 2001):
        length = n * 37 % 3000
        script += b"create 0 %s:https://dump.example/%d\nappend 0 %d\n%s\n" % (b"" if n % 3 else b"O^a,", n, length,
                                                                               b" " * length)
        script += b"set 0 2 name\n%02d\n" % (n % 100) if n % 7 == 0 else b""
        script += b"pin 0\n" if n % 10 == 0 else b""
        script += b"close 0\n"
    status, replies = from_there.run("run", given=script)
    assert (status, set(replies.split())) == (0, {b"ok"})
    status, dump = from_there.run("dump", now=1001)
    assert status == 0
    assert run_tool("dump-list", "/dev/stdin", given=dump)[1].count(b"\n") == 2000
    assert to.run("load", given=dump, now=5000) == (0, b"loaded 2000\n")
    assert to.files("entries") == from_there.files("entries")
    assert to.run("verify", now=5001) == (0, b"findings 0\n")
    assert to.run("list", now=5002) == from_there.run("list", now=5002)
    assert to.run("dump", now=5003) == (0, dump)


# ---- kills

def digests(cache):
    """The entries by their names, each with its hash."""
    return {name: hashlib.sha1(data).hexdigest() for name, data in files_in(cache.at("entries")).items()}


def kill_at_each_call(cache, faults_of, printed, *words, given=b""):
    """A run over a copy of the folder prints this, and is then killed at each of its calls that change or sync
    something. Gives how many these are, and what is wrong afterwards."""
    made = cache.path + ".made"
    os.rename(cache.path, made)
    shutil.copytree(made, cache.path, symlinks=True)
    assert cache.run_watched(*words, given=given) == (0, printed)
    counts, calls, wrong = {}, [], []
    for line in cache.calls:
        name = re.match(r"\d+ +(\w+)\(", line)
        if name:
            counts[name[1]] = counts.get(name[1], 0) + 1
            if not name[1].startswith("open") or "O_CREAT" in line:
                calls.append((name[1], counts[name[1]]))
    for name, number in calls:
        shutil.rmtree(cache.path)
        shutil.copytree(made, cache.path, symlinks=True)
        status, _ = cache.traced("-e", f"trace={name}", "-e", f"inject={name}:signal=KILL:when={number}", words=words,
                                 given=given)
        faults = [f"status {status}"] if status not in (-9, 137) else []
        wrong += [f"{name} {number}: {fault}" for fault in [*faults, *faults_of()]]
    return len(calls), wrong


@pytest.fixture
def crowd(new):
    """Fifty entries of an origin, one of it that is pinned, and one of none."""
    script = b"".join(b"create 0 O^a,:%d\nappend 0 3\nabc\nclose 0\n" % n for n in range(1, 51))
    assert new.run("run", given=script + b"create 0 O^a,:kept\npin 0\nclose 0\ncreate 0 :other\nclose 0\n")[0] == 0
    return new


MARK = mark_bytes(b"^a")


def faults_after_a_clear(cache, whole, all_listed, resumes):
    """What is wrong with what a run that was killed left of these entries, and with what the next one finds. That one
    clears what is left where the mark stands. Without it all 50 stand, but not where a run had found it, or none
    does."""
    kept = {name: whole[name] for name in map(name_of, ("O^a,:kept", ":other"))}
    head, *lines = all_listed.splitlines(keepends=True)
    none_listed = b"records 2\n" + b"".join(line for line in lines if line[:40].decode() in kept)
    assert head == b"records 52\n"

    def faults():
        left, mark = digests(cache), cache.read("clear")
        want, listed = kept, none_listed
        if not left.items() <= whole.items():
            yield "an entry is not whole"
        if not kept.items() <= left.items():
            yield "another entry is gone"
        if mark not in (None, MARK):
            yield "the mark is not whole"
        if mark != MARK and not resumes and left == whole:
            want, listed = whole, all_listed
        elif mark != MARK and left != kept:
            yield "no mark stands, and some of the 50 do"
        if cache.run("list", now=1001) != (0, listed):
            yield "the next run lists others"
        if digests(cache) != want:
            yield "the next run leaves other entries"
        if os.path.exists(cache.at("clear")) or os.listdir(cache.at("doomed")):
            yield "the next run leaves files"
        if cache.run("verify", now=1002) != (0, b"findings 0\n"):
            yield "files and records differ"
    return faults, none_listed


def test_a_clear_that_is_killed(crowd):
    """Each entry is then whole or gone, and from the first that went to the last the mark stands. The next run finds
    all 50, or none of them."""
    faults, _ = faults_after_a_clear(crowd, digests(crowd), crowd.run("list", now=1001)[1], False)
    count, wrong = kill_at_each_call(crowd, faults, b"cleared 50\n", "clear", "^a")
    assert wrong == []
    assert count >= 60


def test_a_list_that_finds_the_mark_is_killed(crowd):
    faults, none_listed = faults_after_a_clear(crowd, digests(crowd), crowd.run("list", now=1001)[1], True)
    assert len(MARK) == 12 and MARK.hex() == "f87fb192d2661a8cbf5c21fa"
    crowd.write(MARK, "clear")
    count, wrong = kill_at_each_call(crowd, faults, none_listed, "list")
    assert wrong == []
    assert count >= 60


def test_a_load_that_is_killed(new):
    """Of three items, over entries of two of their keys and of another one. Each key then has the entry of before or
    that of the dump, whole, or none; the key that is not in the dump has its entry. The next runs find just these, and
    a `load` then loads all."""
    assert new.run("run", given=b"".join(b"create 0 %s\nappend 0 3\nold\nclose 0\n" % key
                                         for key in (b":one", b":two", b":other")))[0] == 0
    source, loaded = Cache(new.program, f"{new.room}/source"), Cache(new.program, f"{new.room}/loaded")
    script = (b"create 0 :one\nappend 0 3\nnew\nclose 0\ncreate 0 :two\nappend 0 300000\n%s\nset 0 1 n\nv\nclose 0\n"
              b"create 0 :three\npin 0\nclose 0\n" % bytes(300_000))
    assert source.run("run", given=script, now=2000)[0] == 0
    dump = source.run("dump", now=2000)[1]
    shutil.copytree(new.path, loaded.path)
    assert loaded.run("load", given=dump, now=2500) == (0, b"loaded 3\n")
    before, after, other = digests(new), digests(loaded), name_of(":other")
    assert after == {**digests(source), other: before[other]}

    def faults():
        left = digests(new)
        if any(digest not in (before.get(name), after.get(name)) for name, digest in left.items()):
            yield "an entry is not whole"
        if left.get(other) != before[other]:
            yield "another entry is gone"
        if new.run("list", now=3000)[1].count(b"\n") != len(left) + 1:
            yield "the next run lists others"
        if new.run("verify", now=3001) != (0, b"findings 0\n"):
            yield "files and records differ"
        if digests(new) != left or os.listdir(new.at("doomed")):
            yield "the next run leaves other files"
        if new.run("load", given=dump, now=3002) != (0, b"loaded 3\n"):
            yield "it is not loaded again"
        if digests(new) != after:
            yield "another entry was loaded"
    count, wrong = kill_at_each_call(new, faults, b"loaded 3\n", "load", given=dump)
    assert wrong == []
    assert count >= 30


# ---- faults

@pytest.mark.parametrize("nth", [1, 2])
def test_a_sync_that_fails(closed, nth):
    """It ends the run: nothing is printed, and no other call changes or syncs anything."""
    options = ("-e", f"trace={CALLS}", "-e", f"inject=fsync:error=EIO:when={nth}")
    assert closed.traced(*options, words=("put", ":failing"), given=b"hello") == (6, b"")
    assert closed.syncs() == nth
    assert "sync(" in [call for call in closed.calls if "(" in call and "close(" not in call][-1]


@pytest.mark.parametrize("path, calls, count, verb", [
    ("in", "read", 2, "put"), (f"{D}/doomed/0", "openat,write,fsync", 6, "put"),
    (f"{D}/entries", "openat,fsync", 4, "put"),
    (file_of(":again"), "openat,read", 4, "get"), ("out", "write", 2, "get"),
])
def test_calls_that_are_interrupted(closed, path, calls, count, verb):
    """The first two of each kind on the path, which are then tried again."""
    if verb == "get":
        assert closed.run("put", ":again", given=b"hello") == (0, b"ok\n")
    reply = b"found 1 1000 1000 1000 4294967295 0 0 5\n\nhello\n" if verb == "get" else b"ok\n"
    options = ("-P", f"{closed.room}/{path}", "-e", f"trace={calls}", "-e", f"inject={calls}:error=EINTR:when=1..2")
    assert closed.traced(*options, words=(verb, ":again"), given=b"hello") == (0, reply)
    assert sum("INJECTED" in call for call in closed.calls) == count


# ---- what a kill leaves to be synced

@pytest.fixture
def killed(new):
    """A run is killed as it begins to sync, so that all of it waits: two folders above the entries, an entry, one that
    is unfinished, a doomed one, and two files of the index and one at `clear`, put there by hand."""
    script = script_of("create 0 :a", "append 0 3", "old", "close 0", "create 1 :b", "close 1", "open 2 :b", "doom :b",
                       "create 3 :c", "append 3 3", "new", "flush")
    options = ("-P", f"{new.path}/doomed/1", "-e", "trace=fsync", "-e", "inject=fsync:signal=KILL")
    assert new.traced(*options, words=["run"], given=script)[0] in (-9, 137)
    new.write(bytes.fromhex("0000000A000003E800000001"), "index")
    new.write(b"part", "index.tmp")
    new.write(b"mark", "clear")
    return new


def standing(cache):
    """The files and folders that stand, and the folders that lead to them, from the room on."""
    found = subprocess.run(["find", D, "-type", "f", "-o", "-type", "d"], cwd=cache.room, stdout=subprocess.PIPE,
                           text=True, check=True)
    return {".", "above", *found.stdout.split()}


def test_flush_after_a_kill(killed):
    """It has answered only when all that stands is synced, the files first. It leaves a note of that, and takes it away
    before it changes anything. The file at `clear` is no mark: it goes, and that is synced."""
    before, a = standing(killed), file_of(":a")
    options = ("-P", f"{killed.room}/{a}", "-e", "trace=fsync", "-e", "inject=fsync:error=EIO")
    assert killed.traced(*options, words=["flush"]) == (6, b"")
    assert killed.watch("flush") == (0, [
        f"sync {a}", f"sync {D}/index", f"sync {D}/index.tmp", f"sync {D}/clear", "sync .", "sync above",
        f"sync {D}/entries", f"sync {D}/doomed", f"sync {D}", *NOTE, f"remove {D}/synced", f"remove {D}/index.tmp",
        f"remove {D}/clear", f"sync {D}", "reply ok", *NOTE])
    steps = killed.steps()
    synced = {step[len("sync "):] for step in steps[:steps.index("reply ok")] if step.startswith("sync ")}
    assert (before & standing(killed)) - synced == set()


@pytest.fixture
def noted(killed):
    assert killed.run("flush") == (0, b"ok\n")
    return killed


def test_runs_after_a_kill(noted):
    """None syncs what an earlier one has synced, as long as the note stands and names itself."""
    assert noted.watch("get", ":a") == (0, ["reply found"])
    assert noted.watch("put", ":e", given=b"hello") == (
        0, [f"remove {D}/synced", *WRITTEN[:3], f"sync {D}/doomed", moved(":e"), *MOVED_SYNCED, "reply ok", *NOTE])
    copy = noted.path + ".copy"
    subprocess.run(["cp", "-a", noted.path, copy], check=True)
    # Three files and three folders.
    for count in (6, 0):
        assert noted.traced("-e", "trace=fsync", words=["get", ":a"], path=copy)[0] == 0
        assert sum("fsync" in call and ".copy" in call for call in noted.calls) == count


def test_a_closing_after_a_kill(noted):
    """A `rebuild` ends the update, so that the closing leaves an index that is trusted, and no note."""
    assert noted.run("put", ":e", given=b"hello") == (0, b"ok\n")
    assert noted.run("rebuild") == (0, b"rebuilt 2\n")
    assert sorted(os.listdir(noted.path)) == ["doomed", "entries", "index", "index.log"]
    assert noted.watch("put", ":d", given=b"hello") == (0, [*OPENING, *WRITTEN, moved(":d"), *CLOSING_MOVED,
                                                            "reply ok"])
