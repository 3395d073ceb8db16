"""What other programs do to a folder while the program has it open, runs at once on one folder, few open files, and
what may not be opened or written."""
import errno
import os
import resource
import signal
import stat
import subprocess
import time

import pytest

from injecting import BODY, SECONDS, Place, case, entry_file, fresh, plain, traced
from support import Cache, Program, Talk, files_in
from tracing import OPENS

pytestmark = pytest.mark.usefixtures("injected")


def talk_in(folder):
    return Talk(Cache(Program(Place.program), folder), seconds=SECONDS)


def test_a_file_that_is_cut():
    folder = fresh("cut", (":a", b"x" * 100), (":b", b"b"))
    talk = talk_in(folder)
    talk.say(b"open 0 :a\n")
    os.truncate(entry_file(folder, ":a"), 0)
    said = talk.say(b"read 0 0 20\n")
    case("a file that is cut: no bytes are served", said == b"fault\n", said)
    case("a file that is cut: the other entry is served", talk.say(b"get :b\n", 3).endswith(b"\nb\n"))
    case("a file that is cut: status 0", talk.end()[0] == 0)


def test_a_file_that_is_removed():
    folder = fresh("gone", (":a", b"x" * 100), (":b", b"b"))
    talk = talk_in(folder)
    talk.say(b"open 0 :a\n")
    os.remove(entry_file(folder, ":a"))
    talk.say(b"get :b\n", 3)
    said = talk.say(b"read 0 0 20\n")
    case("a file that is removed: its bytes or a fault", said in (b"fault\n", b"data 20\n" + b"x" * 20 + b"\n"), said)
    case("a file that is removed: status 0", talk.end()[0] == 0)


def test_pipes_in_the_places_of_changed_files():
    folder = fresh("pipe", *((f":{i}", b"x") for i in range(140)))
    talk = talk_in(folder)
    for i in range(140):
        talk.say(b"open 0 :%d\nuse 0\nclose 0\n" % i, 3)
    for i in range(140):
        os.remove(entry_file(folder, f":{i}"))
        os.mkfifo(entry_file(folder, f":{i}"))
    said = talk.say(b"flush\n")
    case("pipes in the places of changed files: flush ends and is not answered", said == b"", said)
    case("pipes in the places of changed files: status 6", talk.end()[0] == 6)


@pytest.mark.parametrize("kind", ["pipe", "link"])
def test_what_is_no_file_is_not_opened(kind):
    """In the place of an entry that was listed."""
    folder = fresh("listed", (":a", b"a"), (":b", b"b"))
    talk = talk_in(folder)
    talk.say(b"list\n", 3)
    path = entry_file(folder, ":a")
    os.rename(path, os.path.join(Place.room, "aside"))
    os.mkfifo(path) if kind == "pipe" else os.symlink(os.path.join(Place.room, "aside"), path)
    said = talk.say(b"get :a\n")
    case(f"a {kind} in the place of an entry that was listed: it is not opened", said == b"fault\n", said)
    case(f"a {kind} in the place of an entry that was listed: the other one is served",
         talk.say(b"get :b\n", 3).endswith(b"\nb\n"))
    case(f"a {kind} in the place of an entry that was listed: status 0", talk.end()[0] == 0)


@pytest.mark.parametrize("name", ["synced", "index", "index.log", "index.tmp", "entries/" + "0" * 40, "doomed/0"])
def test_a_pipe_that_stands_there_before(name):
    folder = fresh("standing", (":a", b"a"))
    path = os.path.join(folder, name)
    if os.path.exists(path):
        os.remove(path)
    os.mkfifo(path)
    for words in (["flush"], ["get", ":a"], ["put", ":b"]):
        status = plain(folder, *words, given=b"b").status
        case(f"a pipe at {name}: {words[0]} ends", status in (0, 6), status)


def test_folders_among_the_doomed():
    folder = fresh("numbered", (":a", b"a"))
    os.makedirs(os.path.join(folder, "doomed", "0"))
    os.makedirs(os.path.join(folder, "doomed", "2"))
    script = b"open 0 :a\ndoom :a\nread 0 0 1\ncreate 1 :a\nfinish 1\nclose 0\nget :a\n"
    ran = plain(folder, "run", given=script)
    case("folders among the doomed: a script", ran.status == 0
         and ran.out.startswith(b"ok\nok\ndata 1\na\nok\nok\nok\nfound"), ran.out)
    case("folders among the doomed: put", plain(folder, "put", ":c", given=b"c").status == 0)
    case("folders among the doomed: they stay", sorted(os.listdir(os.path.join(folder, "doomed"))) == ["0", "2"])


AT_ONCE = 200


def beside(count, folder):
    """So many runs at once, each of which puts an entry: how they ended."""
    runs = []
    for i in range(count):
        runs.append(subprocess.Popen([Place.program, folder, "1000", "put", f":{i}"], stdin=subprocess.PIPE,
                                     stdout=subprocess.PIPE))
        runs[-1].stdin.write(b"body %d" % i)
        runs[-1].stdin.close()
    return [(run.stdout.read(), run.wait()) for run in runs]


@pytest.mark.parametrize("name, entries", [("a new folder", []), ("a folder", [(":old", b"old")])])
def test_side_by_side(name, entries):
    """Runs at once on one folder take turns. Where a run is left open the others say that the folder is in use, and
    touch nothing."""
    folder = fresh("beside", *entries)
    ended = beside(AT_ONCE, folder)
    case(f"{AT_ONCE} at once in {name}: each is stored", set(ended) == {(b"ok\n", 0)},
         [one for one in ended if one != (b"ok\n", 0)][:3])
    out = plain(folder, "run", given=b"list\nverify\n" + b"".join(b"get :%d\n" % i for i in range(AT_ONCE))).out
    case(f"{AT_ONCE} at once in {name}: each is listed", out.startswith(b"records %d\n" % (AT_ONCE + len(entries))),
         out[:20])
    case(f"{AT_ONCE} at once in {name}: all fits, and each is found",
         b"findings 0\n" in out and all(b"\nbody %d\n" % i in out for i in range(AT_ONCE)))

    folder = fresh("in use", *entries)
    talk = talk_in(folder)
    talk.say(b"has :old\n")
    before, begun = files_in(folder), time.monotonic()
    ran = plain(folder, "put", ":late", given=b"late")
    took = time.monotonic() - begun
    case(f"{name} in use: status 6, and nothing is printed", (ran.status, ran.out) == (6, b""), ran.status, ran.out)
    case(f"{name} in use: it was waited for", 9 < took < 30, took)
    case(f"{name} in use: nothing is touched", files_in(folder) == before)
    case(f"{name} in use: the run that has it goes on", talk.say(b"create 0 :new\n") == b"ok\n" and talk.end()[0] == 0)
    case(f"{name} that was in use: put", plain(folder, "put", ":late", given=b"late").status == 0)


def test_few_descriptors():
    """All slots, and many entries that are changed before a sync, where few files may be open."""
    folder = fresh("few")
    plain(folder, "run", given=b"".join(b"create 0 :%d\nclose 0\n" % i for i in range(200)))
    script = b"".join(b"create %d :s%d\nappend %d 3\nabc\n" % (i, i, i)
                      for i in range(64)) + b"".join(b"finish %d\nclose %d\n" % (i, i) for i in range(64))
    script += b"".join(b"open %d :%d\nuse %d\n" % (i % 64, i, i % 64) + b"close %d\n" % (i % 64)
                       for i in range(200)) + b"flush\n"
    script += b"".join(b"open %d :s%d\nuse %d\nread %d 0 3\n" % (i, i, i, i) for i in range(64))
    ran = plain(folder, "run", given=script, preexec_fn=lambda: resource.setrlimit(resource.RLIMIT_NOFILE, (128, 128)))
    case("128 files may be open: status 0 and no fault", ran.status == 0 and b"fault" not in ran.out, ran.status,
         ran.out.count(b"fault"))
    case("128 files may be open: verify", plain(folder, "verify").out == b"findings 0\n")


@pytest.mark.parametrize("code, due", [(errno.EACCES, 0), (errno.EPERM, 0), (errno.EIO, 6)])
def test_unopened(code, due):
    """An entry that may not be opened costs no other one, also where the first sync goes over all. It leaves no note
    then."""
    folder = fresh("unopened", (":old", b"old"), (":older", BODY))
    os.remove(os.path.join(folder, "index.log"))

    def wanted(call):
        return call.name in OPENS and call.path == entry_file(folder, ":old")

    def plan(call):
        return ("error", code) if wanted(call) else None

    ran = traced(folder, ["get", ":older"], b"", plan)
    what = f"{errno.errorcode[code]} at an entry of a folder that was not closed"
    case(f"{what}: status {due}", ran.status == due and ran.injected(), ran.status)
    case(f"{what}: the other entry", (BODY in ran.out) == (due == 0))
    case(f"{what}: no note is left", not os.path.exists(os.path.join(folder, "synced")))
    case(f"{what}: it is there again", plain(folder, "get", ":old").out.endswith(b"\nold\n"))
    case(f"{what}: a note is left then", os.path.exists(os.path.join(folder, "synced")))


@pytest.mark.parametrize("mask", [0o000, 0o022, 0o077], ids=oct)
def test_rights_of_what_is_made(mask):
    folder = os.path.join(Place.room, f"rights-{mask:o}", "cache")
    plain(folder, "put", ":a", given=b"a", umask=mask)
    os.remove(os.path.join(folder, "index.log"))
    plain(folder, "get", ":a", umask=mask)
    case(f"umask {mask:03o}: a note is left", os.path.exists(os.path.join(folder, "synced")))
    for at, folders, names in os.walk(os.path.dirname(folder)):
        for name in [*folders, *names]:
            mode = stat.S_IMODE(os.lstat(os.path.join(at, name)).st_mode)
            case(f"umask {mask:03o}: {name}", mode == (0o700 if name in folders else 0o600), oct(mode))


def test_a_limit_on_the_size_of_a_file():
    """Its signal is ignored."""
    def limited():
        signal.signal(signal.SIGXFSZ, signal.SIG_IGN)
        resource.setrlimit(resource.RLIMIT_FSIZE, (1000, 1000))

    folder = fresh("limited", (":old", b"old"))
    ran = plain(folder, "put", ":new", given=BODY, preexec_fn=limited, restore_signals=False)
    case("a limit on the size of a file, its signal ignored: status 6", ran.status == 6, ran.status)
    case("a limit on the size of a file: the other entry stays", plain(folder, "get", ":old").status == 0)


def test_words_that_are_no_text():
    folder = fresh("limited", (":old", b"old"))
    for words in ([os.fsencode(folder), b"1000", b"get", b":\xff"],
                  [os.fsencode(folder) + b"\xff", b"1000", b"get", b":a"]):
        before = files_in(folder)
        ran = subprocess.run([os.fsencode(Place.program), *words], capture_output=True, timeout=SECONDS,
                             stdin=subprocess.DEVNULL)
        case("a word that is no text: status 8", ran.returncode == 8, ran.returncode)
        case("a word that is no text: nothing is touched", files_in(folder) == before)
