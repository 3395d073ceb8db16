"""Each call on the folder that fails, one at a time: the command whose look it was is answered by the line `fault` and
left out, or the run ends there, or the call is of no consequence."""
import errno
import os
import re
import shutil

import pytest

from cachelib.index import mark_bytes
from injecting import BODY, LOADED, Place, case, entry_file, fresh, is_within, nth, plain, traced
from support import files_in
from tracing import O_DIRECTORY, O_RDWR, OPENS, STATS

pytestmark = pytest.mark.usefixtures("injected")


LARGE = bytes(i * 11 % 253 for i in range(262200))
KEYS = [":large", ":n", ":old", ":older"]
# The commands of a script, each with the bytes that follow its line.
STEPS = [
    b"open 0 :old\n",
    b"read 0 0 3\n",
    b"step 1\n",
    b"has :older\n",
    b"get :older\n",
    b"verify\n",
    b"create 2 :older\n",
    b"append 2 3\nabc\n",
    b"finish 2\n",
    b"use 0\n",
    b"pin 2\n",
    b"putalt 2 2 t\nde\n",
    b"unpin 2\n",
    b"getalt :older\n",
    b"main :older\n",
    b"create 3 :n\n",
    b"close 3\n",
    b"state\n",
    b"doom :old\n",
    b"doom :n\n",
    b"list\n",
    b"rebuild\n",
    b"open 4 :older\n",
    b"flush\n",
    b"create 3 :n\n",
    b"close 3\n",
    b"clear \n",
    b"close 2\n",
    b"close 4\n",
    b"evict 0\n",
]
# Two chunks of a body: the second one is fetched when a part of the reply is out.
CHUNKS = [b"open 0 :large\n", b"read 0 0 262200\n", b"get :large\n", b"has :old\n"]
LOOKING = {"open", "create", "read", "putalt", "get", "getalt", "main", "doom", "list", "evict", "clear", "step",
           "verify", "rebuild", "put", "dump"}


class Clean:
    """A traced run without a fault: its calls on the folder and on the streams, and what each stands for."""

    def __init__(self, folder, words, given):
        self.folder, self.words = folder, words
        ran = traced(folder, words, given, lambda call: None)
        self.status, self.out = ran.status, ran.out
        within = is_within(folder)
        self.calls = [call for call, _ in ran.log if call.fd in (0, 1) or within(call)]
        self.on_folder = [at for at, call in enumerate(self.calls) if within(call)]
        self.tree = contents(folder)
        self.tokens = [self.token(call) for call in self.calls]
        self.quiet = self.looks_back()

    def token(self, call):
        name = os.path.relpath(call.path, self.folder) if call.path.startswith(self.folder) else "stream"
        kind = "stat" if call.name in STATS else "open" if call.name in OPENS and not call.makes else call.name
        return f"{kind}:{name}"

    def looks_back(self):
        """The calls that ask what an earlier run left, before the first change, and those that leave the note that all
        was synced. Where one fails, more is synced than is needed, or no note is left: no failure of these is told."""
        closed = r"stat:index\.log stat:index\.tmp stat:index open:index stat:index lseek:index read:index close:index "
        seen = r"(stat:synced ){2}open:synced (stat:synced ){2}lseek:synced read:synced close:synced "
        left = rf"({seen}stat:entries |stat:synced )"
        note = rf"stat:entries ({seen}unlink:synced |stat:synced )openat:synced stat:synced write:synced close:synced "
        text, found = " ".join(self.tokens) + " ", set()
        for match in re.finditer(rf"(?<!\S)({closed}|stat:index\.log ({left}|{note}))", text):
            begin = text[: match.start()].count(" ")
            found |= set(range(begin, begin + match.group().count(" ")))
        return found

    def after(self, at):
        """The calls after this one on the same file, without those that close it."""
        path = self.calls[at].path
        return [call for call in self.calls[at + 1:at + 4] if call.path == path and call.name != "close"]

    def kind(self, at):
        """Whether a call is `quiet`, as its failure is of no consequence, or part of a `look`, a `change` or a
        `sync`."""
        call, then = self.calls[at], self.after(at)
        if at in self.quiet or call.name == "close":
            return "quiet"
        if call.name == "fsync":
            return "sync"
        if self.is_look_again(at):
            return self.kind(at - 1)
        if call.changes() or call.flags & 3 == O_RDWR or self.tokens[at].endswith(":synced") or call.is_of_descriptor():
            return "change"
        if call.name == "lseek" and then and then[0].name == "write":
            return "change"
        if call.name in STATS and then and then[0].name in OPENS and then[0].flags & 3 == O_RDWR:
            return "change"
        if call.name in OPENS and not call.flags & O_DIRECTORY and os.path.isdir(call.path):
            return "sync"
        if call.name in STATS | OPENS and "fsync" in [one.name for one in then if one.name not in STATS | OPENS][:1]:
            return "sync"
        return "look"

    def is_to_read(self, at):
        """Whether a file is opened to be read."""
        call = self.calls[at]
        return call.name in OPENS and not call.makes and call.flags & 3 == 0 and not call.flags & O_DIRECTORY

    def follows(self, at, names):
        """Whether the call before is one of these, on the same file."""
        return at > 0 and self.calls[at - 1].name in names and self.calls[at - 1].path == self.calls[at].path

    def is_look_again(self, at):
        """Whether a file that was just opened is looked at."""
        return self.calls[at].is_of_descriptor() and self.follows(at, OPENS)

    def is_in_advance(self, at):
        """Whether a file is opened as its size is asked for, or looked at then. Where that fails, the call that reads
        it opens it again."""
        opened = at - 1 if self.is_look_again(at) else at
        return self.is_to_read(opened) and self.follows(opened, STATS)

    def out_before(self, at):
        """How many bytes are printed before a call."""
        return sum(call.count for call in self.calls[:at] if call.fd == 1 and call.name == "write")


def contents(folder):
    return {path: data for path, data in files_in(folder).items() if path != "synced"}


def copied(made, name):
    folder = os.path.join(Place.room, name)
    shutil.rmtree(folder, ignore_errors=True)
    shutil.copytree(made, folder)
    return folder


def versions(folder):
    """What is got of each key, after whatever run, and whether all fits."""
    out = plain(folder, "run", given=b"".join(b"get %s\n" % key.encode() for key in KEYS) + b"verify\n").out
    found = []
    for _ in KEYS:
        line, _, out = out.partition(b"\n")
        words = line.split()
        size = int(words[7]) + int(words[8]) + 2 if words[:1] == [b"found"] else 0
        found.append(line + out[:size])
        out = out[size:]
    return found, out


class Expected:
    """What a script or a verb is to print and to leave, whichever of its calls fails."""

    def __init__(self, made, words, steps):
        self.made, self.words, self.steps = made, words, steps
        self.names = [step.split()[0].decode() for step in steps] or [words[0]]
        given = b"".join(steps) if steps else {"put": BODY, "load": LOADED}.get(words[0], b"")
        self.given = given
        self.clean = Clean(copied(made, "failing"), words, given)
        idle = Clean(copied(made, "idle"), ["run"], b"")
        self.idle_tree = idle.tree
        self.opening = next(at for at, call in enumerate(idle.calls) if call.fd == 0 and call.name == "read")
        if steps:
            self.closing = max(at for at, call in enumerate(self.clean.calls) if call.fd == 0)
            parts = [self.part(count) for count in range(len(steps) + 1)]
            self.bounds = [len(out) for out, _ in parts]
            self.versions = [seen for _, seen in parts]
        else:
            self.closing = max((at for at, call in enumerate(self.clean.calls) if call.fd == 1), default=0)
            self.bounds = [0, len(self.clean.out)]
            self.versions = [versions(copied(made, "part"))[0], versions(self.clean.folder)[0]]
        self.without = {}

    def part(self, count):
        folder = copied(self.made, "part")
        ran = plain(folder, "run", given=b"".join(self.steps[:count]))
        return ran.out, versions(folder)[0]

    def replies_before(self, at):
        """How many commands are answered before a call, and whether a part of the next reply is out."""
        out = self.clean.out_before(at)
        count = max(number for number, bound in enumerate(self.bounds) if bound <= out)
        return count, out != self.bounds[count]

    def left_out(self, number):
        """What the script prints and leaves with the line `fault` in the place of the reply to this command."""
        if not self.steps:
            return b"fault\n", 6, self.idle_tree
        if number not in self.without:
            folder = copied(self.made, "part")
            out = plain(folder, "run", given=b"".join(self.steps[:number] + self.steps[number + 1:])).out
            bound = self.bounds[number]
            self.without[number] = (out[:bound] + b"fault\n" + out[bound:], 0, contents(folder))
        return self.without[number]

    def ends(self, at):
        """The ways in which a run may end whose call at this place fails: what it prints, its status, and what it
        leaves, or None where the disk failed for good."""
        clean, kind = self.clean, self.clean.kind(at)
        whole = (clean.out, clean.status, clean.tree)
        if kind == "quiet":
            return [whole]
        stopped = (clean.out[: clean.out_before(at)], 6, None)
        number, is_partly = self.replies_before(at)
        is_command = self.opening <= at <= self.closing and number < len(self.names)
        if kind != "look" or not is_command or is_partly or self.names[number] not in LOOKING:
            ways = [stopped]
        else:
            begun = max((one for one in range(at) if clean.calls[one].fd == 1), default=self.opening - 1)
            before = [clean.kind(one) for one in range(max(begun + 1, self.opening), at) if clean.calls[one].fd is None
                      or clean.calls[one].fd > 1]
            ways = [stopped] if {"change", "sync"} & set(before) else [self.left_out(number)]
        return ways + [whole] if clean.is_in_advance(at) else ways


def fail_each_call(what, expected, code, first=0):
    """Each call on the folder fails, from this place on, one at a time. What is printed and left is what the kept
    commands print and leave."""
    ends = {"clean": 0, "fault": 0, "stopped": 0}
    for number, at in enumerate(expected.clean.on_folder, 1):
        if at < first:
            continue
        folder = copied(expected.made, "failing")
        ran = traced(folder, expected.words, expected.given, nth(number, is_within(folder), ("error", code)))
        token, kind = expected.clean.tokens[at], expected.clean.kind(at)
        line = f"{what}, {errno.errorcode[code]} at call {number}, {token} ({kind})"
        left = contents(folder)
        ways = expected.ends(at)
        due = [way for way in ways if way[:2] == (ran.out, ran.status)]
        case(f"{line}: what is printed, and status", due, ran.status, ran.out[-60:],
             [(way[0][-60:], way[1]) for way in ways])
        case(f"{line}: the call was met", len(ran.injected()) == 1)
        if not due:
            continue
        ends[("clean", "fault", "stopped")[2 if due[0][2] is None else int(due[0][0] != expected.clean.out)]] += 1
        if due[0][2] is not None:
            case(f"{line}: what is left", left == due[0][2], sorted(set(left) ^ set(due[0][2])),
                 differing(left, due[0][2]))
            continue
        after = ran.log[[action is not None for _, action in ran.log].index(True) + 1:]
        follows = [call for call, _ in after if is_within(folder)(call) and call.name != "close"]
        case(f"{line}: no call follows", not follows, [call.name for call in follows])
        count, _ = expected.replies_before(at)
        seen, found = versions(folder)
        either = expected.versions[count], expected.versions[min(count + 1, len(expected.bounds) - 1)]
        # A `put` and a `load` take the old entry away before they make the new one.
        between = {key: b"absent" for key in expected.words[1:] if expected.words[0] == "put"}
        if expected.words[0] == "load":
            between = {key: b"absent" for key in (":n", ":old")}
        wrong = [key for key, one, old, new in zip(KEYS, seen, *either) if one not in (old, new, between.get(key))]
        case(f"{line}: each entry is as before the command or as after it", not wrong, wrong)
        case(f"{line}: what stands fits", found == b"findings 0\n", found[:100])
    return ends


def differing(one, other):
    return sorted(path for path in one if path in other and one[path] != other[path])


ONE = [[verb, ":old"] for verb in ("get", "getalt", "main", "doom", "put")]
ONE += [["list"], ["verify"], ["rebuild"], ["evict", "1"], ["clear", ""], ["flush"], ["dump"], ["load"]]


def without_index(made):
    for name in ("index", "index.log"):
        os.remove(os.path.join(made, name))
    return made


def closed(has_index):
    made = fresh("made", (":old", b"old"), (":older", BODY))
    return made if has_index else without_index(made)


@pytest.mark.parametrize("words, steps", [(["run"], CHUNKS), (["dump"], [])], ids=["run", "dump"])
def test_each_call_that_fails_over_two_chunks(words, steps):
    made = fresh("chunks", (":old", b"old"), (":large", LARGE))
    found = fail_each_call("two chunks", Expected(made, words, steps), errno.EIO)
    case("each way to end is met", found["clean"] and found["stopped"], found)


@pytest.mark.parametrize("has_index", [True, False], ids=["a closed folder", "no index"])
def test_each_call_of_a_script_that_fails(has_index):
    found = fail_each_call("run", Expected(closed(has_index), ["run"], STEPS), errno.EIO)
    case("each way to end is met", all(found.values()), found)


@pytest.mark.parametrize("has_index", [True, False], ids=["a closed folder", "no index"])
@pytest.mark.parametrize("words", ONE, ids=" ".join)
def test_each_call_of_a_verb_that_fails(words, has_index):
    """The opening is the same as that of the script."""
    expected = Expected(closed(has_index), words, [])
    fail_each_call(" ".join(words), expected, errno.EIO, expected.opening)


@pytest.mark.parametrize("has_index", [True, False], ids=["a closed folder", "no index"])
def test_each_call_that_fails_where_a_mark_stands(has_index):
    """Both entries are of no origin."""
    made = closed(has_index)
    with open(os.path.join(made, "clear"), "wb") as file:
        file.write(mark_bytes(b""))
    fail_each_call("flush", Expected(made, ["flush"], []), errno.EIO)


@pytest.mark.parametrize("code", [errno.EIO, errno.EACCES])
@pytest.mark.parametrize("calls", [{"open", "openat"}, {"read"}, {"statx", "newfstatat", "lstat"}], ids=min)
def test_unreadable(code, calls):
    """A file that cannot be read, by every call that opens or reads it: what looks at it is answered so, and all else
    is served."""
    made = fresh("made", (":old", b"old"), (":older", BODY))
    script = b"open 0 :old\nget :old\nverify\nget :older\nopen 1 :older\nread 1 0 5\nlist\nhas :old\n"
    found = plain(copied(made, "unreadable"), "get", ":older").out
    listed = plain(copied(made, "unreadable"), "list").out
    served = found + b"ok\ndata 5\n" + BODY[:5] + b"\n" + listed + b"yes\n"
    folder = copied(made, "unreadable")
    what = f"{errno.errorcode[code]} at each {min(calls)} of an entry"

    def bad(call):
        return call.name in calls and call.path == entry_file(folder, ":old")

    def plan(call):
        return ("error", code) if bad(call) else None

    ran = traced(folder, ["run"], script, plan)
    case(f"{what}: a script", (ran.out, ran.status) == (b"fault\n" * 3 + served, 0), ran.status, ran.out[:80])
    for words in (["get", ":old"], ["getalt", ":old"], ["main", ":old"], ["verify"], ["doom", ":old"], ["rebuild"]):
        before = contents(folder)
        ran = traced(folder, words, b"", plan)
        case(f"{what}: {words[0]}", (ran.out, ran.status) == (b"fault\n", 6), ran.status, ran.out[:80])
        after = {path: data for path, data in contents(folder).items() if path.startswith("entries")}
        case(f"{what}: {words[0]} changes no entry", after == {path: data for path, data in before.items()
                                                               if path in after} and after)
    case(f"{what}: it is there again", plain(folder, "get", ":old").out.endswith(b"\nold\n"))
