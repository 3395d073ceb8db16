"""The program that only looks at a folder beside the one that writes, on folders in many states.

For each folder and each verb the one that writes runs on a copy, and the other on the folder itself. With --every, a
number, it is one in so many of these pairs, chosen so that all folders come, and all verbs. Both have to print the same
and to end with the same status, and the folder has to be as it was: its names, kinds, modes, owners, inodes, contents
and times of change. Then the same is tried on a mount that is read-only, where this user may make one, below a tracer
that lists each call which could change something, and as another user without the right to write."""
import hashlib
import os
import re
import shutil
import subprocess

import pytest

from cachelib.entries import NO_EXPIRATION
from cachelib.hashes import CHUNK
from cachelib.index import index_bytes, mark_bytes, record_bytes
from cachelib.keys import digest_of, name_of
from support import AS_NOBODY, Cache, Talk, made_file

SECONDS = 120
FLAG_AT = 8
BIG = bytes(i * 7 % 251 for i in range(3 * CHUNK + 1000))


# ---- folders

FILL = (b"create 0 :s\nappend 0 5\nhello\nset 0 2 n\nvv\nfinish 0\n"
        b"create 1 :t\nappend 1 3\nabc\nfinish 1\nputalt 1 2 t\nde\n"
        b"create 2 O^a,:u\nappend 2 1\nu\nfinish 2\ncreate 3 O^b,:v\nfinish 3\n"
        b"create 4 :big\nappend 4 %d\n%s\nfinish 4\n" % (len(BIG), BIG))


def state_of(top):
    """All that a look could change of a folder, but for the times of its reads."""
    found = {}
    for folder, names, files in os.walk(top):
        for name in ["."] + names + files:
            path = os.path.join(folder, name)
            at = os.lstat(path)
            held = ""
            if os.path.islink(path):
                held = os.readlink(path)
            elif os.path.isfile(path):
                with open(path, "rb") as file:
                    held = hashlib.sha256(file.read()).hexdigest()
            found[path] = (at.st_mode, at.st_uid, at.st_gid, at.st_ino, at.st_nlink, at.st_size, at.st_mtime_ns,
                           at.st_ctime_ns, held)
    return found


def filled(folder):
    assert folder.run("run", given=FILL) == (0, b"ok\n" * 16)


def empty(folder):
    os.makedirs(folder.path)


def missing(_folder):
    pass


def with_file(path, data_for):
    """Makes a filled folder in which a file has other bytes, by those that it had."""
    def make(folder):
        filled(folder)
        folder.write(data_for(folder.read(path)), path)
    return make


def with_journal(folder):
    filled(folder)
    folder.run("run", given=b"use :s\nget :t\ndoom O^b,:v\n", now=2000)
    folder.run("put", ":later", given=b"later", now=2100)
    assert folder.read("index.log")


def bad_journal(folder):
    with_journal(folder)
    journal = bytearray(folder.read("index.log"))
    journal[3] ^= 1
    folder.write(journal, "index.log")


def with_temporary(folder):
    with_journal(folder)
    shutil.copy(folder.at("index"), folder.at("index.tmp"))


def killed(folder):
    """A run that was ended in its midst: it waits for more of its script."""
    filled(folder)
    talk = Talk(folder, 1500)
    talk.say(b"create 0 :half\nappend 0 4\nhalf\nopen 1 :s\ndoom :s\nread 1 0 2\n", 6)
    talk.child.kill()
    talk.end()


def doomed(folder):
    filled(folder)
    folder.write(made_file(3, b":gone", b"gone"), "doomed/0")
    folder.write(BIG, "doomed/7")
    folder.write(b"no number", "doomed/08")
    os.makedirs(folder.at("doomed", "3"))


def old_versions(folder):
    for number, version in enumerate((1, 2, 3, 4)):
        file = made_file(version, b":old%d" % number, b"old" * number, numbers=(1, 900, 900, 900, NO_EXPIRATION))
        folder.write(file, f"entries/{name_of(f':old{number}')}")


def damaged(folder):
    filled(folder)
    for key, at in ((":s", 0), (":big", CHUNK + 5), (":t", -9)):
        place = f"entries/{name_of(key)}"
        content = bytearray(folder.read(place))
        content[at] ^= 1
        folder.write(content, place)
    folder.write(b"x", f"entries/{name_of(':short')}")
    folder.write(b"", f"entries/{name_of(':none')}")


def foreign(folder):
    filled(folder)
    folder.write(b"foreign", "entries/readme")
    os.symlink("/etc/passwd", folder.at("entries", name_of(":link")))
    os.makedirs(folder.at("entries", name_of(":folder")))
    os.mkfifo(folder.at("entries", name_of(":pipe")))
    folder.write(b"foreign", "other")


def link_to_entries(folder):
    filled(folder)
    os.rename(folder.at("entries"), folder.path + ".elsewhere")
    os.symlink(folder.path + ".elsewhere", folder.at("entries"))


def no_index(folder):
    filled(folder)
    os.remove(folder.at("index"))


def index_is_folder(folder):
    no_index(folder)
    os.makedirs(folder.at("index"))


def many(folder):
    """So many changed that the whole index is written."""
    folder.run("run", given=b"".join(b"create 0 :m%d\nappend 0 %d\n%s\nfinish 0\n" % (n, n + 1, b"m" * (n + 1))
                                     for n in range(400)))


MARK = mark_bytes(b"^a")
STATES = {make.__name__: make for make in (
    missing, empty, filled, with_journal, bad_journal, with_temporary, killed, doomed, old_versions, no_index, damaged,
    foreign, link_to_entries, index_is_folder, many)}
STATES |= {name: with_file(path, data_for) for name, path, data_for in (
    ("unclean", "index", lambda index: index[:FLAG_AT] + b"\0\0\0\1" + index[FLAG_AT + 4:]),
    ("other_index", "index", lambda _: index_bytes([record_bytes(digest_of(":nowhere"))], 1000, 0)),
    ("cut_index", "index", lambda index: index[:-7]),
    ("no_bytes", "index", lambda _: b""),
    ("marked", "clear", lambda _: MARK),
    ("bad_mark", "clear", lambda _: MARK[:-1]),
    ("long_mark", "clear", lambda _: MARK + bytes(5000)))}

SESSION = (b"get :s\nuse :s\nget :s\nopen 0 :t\nget :t\ndoom :t\nread 0 0 3\nclose 0\nget :t\n"
           b"create 1 :s\nappend 1 7\nchanged\nfinish 1\nget :s\n"
           b"open 2 :big\nread 2 262140 20\nappend 2 3\nend\nclose 2\n"
           b"create 3 :t\nappend 3 2\ntt\nputalt 3 2 t\nde\nfinish 3\nget :t\ngetalt :t\npin :s\nclear ^a\n"
           b"list\nflush\nevict 100\nlist\nverify\nrebuild\nlist\nlatest\n")
SHORT = b"use :s\npin :s\nget :s\nputalt :s 3 k\nalt\ngetalt :s\nmain :s\nunpin :s\nlist\nverify\n"
LOADED = (b"create 0 :loaded\nappend 0 2\nld\nfinish 0\ncreate 1 :s\nappend 1 3\nold\nfinish 1\n")
# The verbs, and what each is given; the dump of another folder stands for none.
VERBS = (
    ("list", b""), ("verify", b""), ("dump", b""), ("get :s", b""), ("get :big", b""), ("get :nothing", b""),
    ("get :t", b""),
    ("getalt :t", b""), ("main :t", b""), ("get :old0", b""), ("get :old1", b""), ("get :m7", b""), ("flush", b""),
    ("rebuild", b""),
    ("doom :s", b""), ("doom :nothing", b""), ("evict 0", b""), ("evict 600", b""), ("clear ^a", b""), ("clear ", b""),
    ("put :new", b"new"), ("put :s", BIG), ("fill 12 3", b""), ("run", SESSION), ("run", SHORT), ("run", FILL),
    ("run", b"no command\n"), ("load", None), ("load", b"no dump"), ("nonsense", b""),
)


class Views:
    """Folders in each state that was asked for, and what the program that looks printed of them."""

    def __init__(self, program, view, room):
        self.program, self.view, self.room = program, view, room
        self.folders, self.replies, self.known = {}, {}, {}
        os.chmod(room, 0o755)
        os.mkdir(f"{room}/folders")
        other = Cache(program, f"{room}/other")
        assert other.run("run", given=LOADED, now=500)[0] == 0
        self.dump = other.run("dump", now=3000)[1]

    def folder(self, state):
        if state not in self.folders:
            self.folders[state] = Cache(self.program, f"{self.room}/folders/{state}")
            STATES[state](self.folders[state])
        return self.folders[state].path

    def run(self, program, folder, verb, *before):
        """The status and the reply of a run of the verb with this number, below these words."""
        words, given = VERBS[verb]
        ran = subprocess.run([*before, program.path, folder, "3000", *words.split(" ")],
                             input=self.dump if given is None else given,
                             stdout=subprocess.PIPE, stderr=subprocess.DEVNULL, timeout=SECONDS, check=False)
        return ran.returncode, ran.stdout

    def seen(self, state):
        """All that a look could change of the folder, and of what it links to."""
        folder = self.folder(state)
        return state_of(folder) | state_of(folder + ".elsewhere")

    def reply(self, state, verb):
        if (state, verb) not in self.replies:
            self.replies[state, verb] = self.run(self.view, self.folder(state), verb)
        return self.replies[state, verb]


@pytest.fixture(scope="module")
def views(binary, view, module_room):
    return Views(binary, view, module_room)


def pytest_generate_tests(metafunc):
    """All pairs of a state and a verb, or one in so many."""
    if "verb" in metafunc.fixturenames:
        every = metafunc.config.getoption("every")
        pairs = [(state, verb) for place, state in enumerate(STATES)
                 for verb in range(-place % every, len(VERBS), every)]
        metafunc.parametrize("state, verb", pairs, ids=[f"{state}: {VERBS[verb][0]} ({verb})" for state, verb in pairs])


# ---- what is tried

@pytest.fixture
def as_it_was(views, state):
    """The folder is the same before and after, and after the last one."""
    before = views.known.get(state) or views.seen(state)
    yield
    views.known[state] = views.seen(state)
    assert views.known[state] == before


@pytest.mark.usefixtures("as_it_was")
def test_a_look_beside_a_change(views, state, verb):
    """Both say the same."""
    folder, copy = views.folder(state), f"{views.room}/copy"
    if os.path.exists(folder):
        subprocess.run(["cp", "-a", folder, copy], check=True)
    wanted = views.run(views.program, copy, verb)
    shutil.rmtree(copy, ignore_errors=True)
    assert views.reply(state, verb) == wanted


@pytest.fixture(scope="module")
def mount(views):
    """The words before a run in a mount of the folders that is read-only, and the place of it."""
    inner = f"{views.room}/mounted"
    os.mkdir(inner)
    line = f"mount --bind {views.room}/folders {inner} && mount -o remount,bind,ro {inner}"
    words = ["unshare", "-m", "sh", "-c", f'{line} && ! touch {inner}/x 2>/dev/null && exec "$@"', "sh"]
    if os.getuid() != 0 or subprocess.run([*words, "true"], stderr=subprocess.DEVNULL, check=False).returncode != 0:
        pytest.skip("no mount that is read-only can be made here")
    return words, inner


@pytest.mark.usefixtures("as_it_was")
def test_a_mount_that_is_read_only(views, mount, state, verb):
    reply, (words, inner) = views.reply(state, verb), mount
    assert views.run(views.view, f"{inner}/{state}", verb, *words) == reply


CHANGING = re.compile(r"O_WRONLY|O_RDWR|O_CREAT|O_TRUNC|^(?:\d+ +)?(?:rename|unlink|mkdir|rmdir|link|symlink"
                      r"|chmod|chown|fchmod|fchown|utime|fsync|fdatasync|sync|ftruncate|truncate|fallocate|mknod"
                      r"|setxattr|pwrite|sendfile|copy_file_range)")
# Writes go to standard output alone.
WRITES = re.compile(r"\bwritev?\((?!1,)")


@pytest.mark.usefixtures("as_it_was")
def test_no_call_could_change_something(views, tracer, state, verb):
    log = f"{views.room}/trace"
    views.run(views.view, views.folder(state), verb, *tracer, "-f", "-o", log)
    with open(log, encoding="utf-8", errors="replace") as lines:
        assert [call for call in lines if CHANGING.search(call) or WRITES.search(call)] == []


@pytest.fixture(scope="module")
def nobody(views):
    """The words before a run as another user, once nobody may write to the folders."""
    if os.getuid() != 0:
        pytest.skip("only root may run it as another user")
    for state in STATES:
        views.folder(state)
    subprocess.run(["chmod", "-R", "a+rX,a-w", f"{views.room}/folders"], check=True)
    views.known.clear()
    return AS_NOBODY


@pytest.mark.usefixtures("nobody", "as_it_was")
def test_another_user(views, nobody, state, verb):
    assert views.run(views.view, views.folder(state), verb, *nobody) == views.reply(state, verb)
