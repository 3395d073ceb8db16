"""The works that bench/all and bench/one measure, and the folders that they begin with.

Each work is done by the proved program and by a plain one in C, which has to print the same and to leave the same
files.
"""
import os
import random
import subprocess
import sys
from typing import NamedTuple

from measuring import copy_of, in_turn, peak, run, told_by

HERE = os.path.dirname(os.path.realpath(__file__))
ENTRIES = 2000
RECORDS = 100_000
# So many entries of the folder with all the records have a file. Where 300 are new, the index is written whole.
WITH_FILES = 400
KEY = b":https://example.com/%d"
KEY_OF_ORIGIN = b"O^a,:https://example.com/%d"
BODY = 16384
CHUNK = 262_144
LONGEST = 52_428_800
KB_MASK = 0xFFFFFF
NO_FRECENCY = 1 << 32


class Work(NamedTuple):
    """What is measured: the words of one run, the plain program that does the same, if one does, and what the run
    begins with.
    """
    name: str
    size: str
    folder: str
    words: tuple
    plain: str
    goal: float = None
    source: str = "/dev/null"
    # The run changes the folder, so each begins with a new copy of it.
    changes: bool = False
    # What it prints goes into a pipe that is read as it comes.
    is_piped: bool = False
    # How often bench/one has it run.
    runs: int = 20
    # Words with which the plain program is measured, too.
    beside: tuple = ()
    # The most memory above that of a run without words, by the unit.
    memory: dict = {}
    # The word of a program that does so many rounds, and measures nothing else.
    rounds: int = 0
    # The plain program does not look at the index, so that only its reply is compared.
    is_bare: bool = False
    # More words with which what is done is printed, and how many lines that is.
    shown: tuple = ()
    lines: int = None


UNITS = {"KiB": 1024, "bytes a record": RECORDS}


def differ(work):
    print(f"{work.name}, {work.size}: the programs differ")
    sys.exit(2)


class Bench:
    """The programs, and a folder in memory for all that they work on."""

    def __init__(self, room, program=None):
        self.room, self.cache2 = room, program

    def at(self, name):
        """A place there, or the plain program of this name."""
        path, source = os.path.join(self.room, name), os.path.join(HERE, name + ".c")
        if os.path.exists(source) and not os.path.exists(path):
            subprocess.run(["gcc", "-O2", "-Wall", "-Wno-unused-function", "-o", path, source], check=True)
        return path

    def write(self, name, data):
        with open(self.at(name), "wb") as file:
            file.write(data)
        return self.at(name)

    # ---- what a work costs

    def fresh(self, work):
        """The folder of the next run."""
        return copy_of(work.folder, self.at("one")) if work.changes else work.folder

    def times(self, work, commands, runs):
        """The processor seconds of each of these commands, by their names: a program, and words after those of the
        work."""
        return in_turn(runs, commands, lambda one: run([one[0], self.fresh(work), *work.words, *one[1:]], work.source,
                                                       work.is_piped))

    def held(self, work):
        """The peak of the memory above that of a run without words, in bytes."""
        return (peak(self.at("peak"), [self.cache2, self.fresh(work), *work.words], work.source)
                - peak(self.at("peak"), [self.cache2]))

    def check_same(self, work, is_watched=False):
        """Both programs print the same, leave the same files in a copy of the folder, and make the same calls, where
        these are watched."""
        one, other = (told_by(program, (*work.words, *work.shown), copy_of(work.folder, self.at("one")), work.source,
                              self.at("calls") if is_watched else None)
                      for program in (self.cache2, self.at(work.plain)))
        if one[0] != other[0] or (one != other and not work.is_bare):
            differ(work)
        if work.lines is not None and one[0].count(b"\n") != work.lines:
            differ(work)

    # ---- what it begins with

    def records(self, count, order):
        """A closed cache whose index has so many records, of which no file stands."""
        folder = self.at(f"records-{count}-{order}")
        if not os.path.exists(folder):
            os.makedirs(os.path.join(folder, "entries"))
            os.mkdir(os.path.join(folder, "doomed"))
            subprocess.run([self.at("open_index"), folder, str(count), order], check=True)
        return folder

    def perform(self, name, script):
        """The folder of this name, a closed cache, in which the program performed a script."""
        folder = self.at(name)
        if not os.path.exists(folder):
            run([self.cache2, folder, "1000", "run"], script)
        return folder

    def script(self, count, size, *last, keys=(KEY,)):
        """A script that makes so many entries of so many bytes, with these keys in turn, and then has these lines."""
        random.seed(1)
        lines = []
        for number in range(count):
            lines += [b"create 0 " + keys[number % len(keys)] % number, b"append 0 %d" % size, random.randbytes(size),
                      b"close 0"]
        name = "-".join(["script", str(count), str(size), str(len(keys)), *(line.decode() for line in last)])
        return self.write(name, b"\n".join([*lines, *last, b""]))

    def putalt(self):
        """A script that makes an entry of 1 MiB and puts 4 MiB of data after its body."""
        random.seed(1)
        lines = [b"create 0 " + KEY % 0, b"append 0 1048576", random.randbytes(1 << 20), b"finish 0"]
        lines += [b"putalt 0 4194304 wasm", random.randbytes(1 << 22), b"close 0", b""]
        return self.write("script-putalt", b"\n".join(lines))

    def entries(self, count):
        """A closed cache with so many entries, each with its file."""
        return self.perform(f"entries-{count}", self.script(count, BODY))

    def origins(self, count):
        """The same, where every other entry is of the origin `^a`."""
        return self.perform(f"origins-{count}", self.script(count, BODY, keys=(KEY, KEY_OF_ORIGIN)))

    def trusted(self, count):
        """A closed cache whose trusted index has so many records, and files of some of them."""
        folder = self.at(f"trusted-{count}")
        if not os.path.exists(folder):
            os.rename(self.records(count - WITH_FILES, "sorted"), folder)
            run([self.cache2, folder, "1000", "run"], self.script(WITH_FILES, 5))
        return folder

    def dump(self, folder):
        """The dump of a closed cache, by the plain program."""
        name = self.at(os.path.basename(folder) + ".dump")
        with open(name, "wb") as file:
            subprocess.run([self.at("dump"), folder, "1001", "dump"], stdout=file, check=True)
        return name

    def limit(self, folder, count):
        """The KB to which all records have to be evicted so that so many of them go."""
        listed = subprocess.check_output([self.cache2, folder, "1001", "list"])
        rows = [line.split() for line in listed.splitlines()[1:]]
        rows.sort(key=lambda row: (int(row[1]) or NO_FRECENCY, row[0]))
        return sum(int(row[-1], 16) & KB_MASK for row in rows[count:])


def of_goals(bench):
    """The works that have a goal, each with it."""
    trusted, entries = bench.trusted(RECORDS), bench.entries(ENTRIES)
    body = bench.write("body", b"hello")
    sorted_records, shuffled = bench.records(RECORDS, "sorted"), bench.records(RECORDS, "shuffled")
    files, records = f"{ENTRIES:,} files", f"{RECORDS:,} records"
    get, put = ("1001", "get", (KEY % 7).decode()), ("1001", "put", (KEY % 7).decode())
    evict = ("1001", "evict", str(bench.limit(entries, ENTRIES // 2)))
    evict_records = ("1001", "evict", str(bench.limit(sorted_records, RECORDS // 2)))
    script = bench.script(ENTRIES, BODY, b"flush")
    return [
        Work("get", records, trusted, get, "session", 1.3),
        Work("put", records, trusted, put, "session", 1.3, source=body),
        Work("list", records, sorted_records, ("1001", "list"), "session", 1.2),
        Work("list, unsorted index", records, shuffled, ("1001", "list"), "session", 1.3),
        Work("evict half", files, entries, evict, "session", 1.2, changes=True),
        Work("evict half, no files", records, sorted_records, evict_records, "session", 1.3, changes=True),
        Work("script of new entries, flush", files, bench.records(0, "sorted"), ("1000", "run"), "script", 1.15, script,
             True),
        Work("rebuild", files, entries, ("1001", "rebuild"), "session", 1.2),
        Work("clear half", files, bench.origins(ENTRIES), ("1001", "clear", "^a"), "session", 1.5, changes=True),
        Work("dump", files, entries, ("1001", "dump"), "dump", 1.3, is_piped=True),
        Work("load", files, bench.records(0, "sorted"), ("1000", "load"), "load", 1.5, bench.dump(entries), True),
        Work("putalt of 4 MiB", "after 1 MiB", bench.records(0, "sorted"), ("1000", "run"), "script", 1.3,
             bench.putalt(), True),
    ]


def of_nothing(bench, count):
    """An empty script over so many records."""
    return Work("empty script", f"{count:,} records", bench.records(count, "sorted"), ("1001", "run"), "script")


def of_growth(bench, count):
    """The works on records alone, over so many of them."""
    trusted, records = bench.trusted(count), bench.records(count, "sorted")
    body = bench.write("body", b"hello")
    size = f"{count:,} records"
    get, put = ("1001", "get", (KEY % 7).decode()), ("1001", "put", (KEY % 7).decode())
    return [
        of_nothing(bench, count),
        Work("get", size, trusted, get, "session"),
        Work("put", size, trusted, put, "session", source=body),
        Work("list", size, records, ("1001", "list"), "session"),
        Work("evict all, no files", size, records, ("1001", "evict", "0"), "session", changes=True),
    ]


def of_files(bench, count):
    """The works on entry files, over so many of them."""
    return [Work("rebuild", f"{count:,} files", bench.entries(count), ("1001", "rebuild"), "session")]


# ---- closer looks

def of_script(bench):
    """A third row is the plain program that writes each file under its name, and first syncs it in the `flush`."""
    script = bench.script(ENTRIES, BODY, b"flush")
    return [Work("script of new entries, flush", f"{ENTRIES:,} files", bench.records(0, "sorted"), ("1000", "run"),
                 "script", 1.15, script, True, runs=40, beside=("at-once",))]


def of_body(bench):
    """A body that is as long as one may be."""
    body, key, size = bench.write("body", random.randbytes(LONGEST)), (KEY % 7).decode(), f"{LONGEST:,} bytes"
    folder = bench.at("long")
    run([bench.cache2, folder, "1000", "put", key], body)
    most = {"KiB": 4096}
    return [Work("put", size, bench.records(0, "sorted"), ("1000", "put", key), "session", 1.2, body, True, runs=25,
                 memory=most),
            Work("get", size, folder, ("1000", "get", key), "get", 1.3, runs=25, memory=most, is_bare=True)]


def of_get(bench):
    """A full chunk as a whole run, and many in one run."""
    one, folder = (bench.perform(f"chunks-{count}", bench.script(count, CHUNK)) for count in (1, 100))
    gets = bench.write("gets", b"".join(b"get " + KEY % random.randrange(100) + b"\n" for _ in range(2000)))
    return [
        Work("get of a full chunk", "one entry", one, ("1000", "get", (KEY % 0).decode()), "session", 1.3, runs=600),
        Work("gets of full chunks in one run", "2,000 of 100", folder, ("1000", "run"), "get", 1.15, gets, runs=12,
             is_bare=True)]


def of_reads(bench):
    """Reads of 4 KiB at random places of an entry that is made and opened before, and that alone."""
    works = []
    for mib, count, goal in ((4, 100_000, 2), (50, 20_000, 1.3)):
        random.seed(2)
        made = b"create 0 %s\n" % (KEY % 0) + b"".join(b"append 0 1048576\n%s\n" % random.randbytes(1 << 20)
                                                       for _ in range(mib))
        made += b"close 0\nopen 1 %s\n" % (KEY % 0)
        reads = b"".join(b"read 1 %d 4096\n" % random.randrange((mib << 20) - 4096) for _ in range(count))
        for name, script, limit, runs in ((f"{count:,} reads", made + reads, goal, 12), ("no reads", made, None, 20)):
            works.append(Work(name, f"{mib} MiB", bench.records(0, "sorted"), ("1000", "run"), "script", limit,
                              bench.write(f"reads-{mib}-{len(script)}", script), True, runs=runs))
    return works


def of_session(bench):
    """Whole runs; and how an `evict` of records grows, by the proved program alone."""
    entries, records, body = bench.entries(ENTRIES), bench.records(RECORDS, "sorted"), bench.write("body", b"hello")
    files, put = f"{ENTRIES:,} files", ("1001", "put", (KEY % 7).decode())
    evict = ("1001", "evict", str(bench.limit(entries, ENTRIES // 2)))
    return [
        Work("list", f"{RECORDS:,} records", records, ("1001", "list"), "session", 1.2, runs=40),
        Work("put of 5 bytes", f"{RECORDS:,} records", records, put, "session", 1.3, body, True, runs=40),
        Work("verify", files, entries, ("1001", "verify"), "session", 1.3, runs=80),
        Work("rebuild", files, entries, ("1001", "rebuild"), "session", 1.2, runs=80),
        Work("evict half", files, entries, evict, "session", 1.2, changes=True),
        *(Work("evict all, no files", f"{count:,} records", bench.records(count, "shuffled"), ("1001", "evict", "0"),
               None, changes=True) for count in (RECORDS // 10, RECORDS)),
    ]


def of_rounds(name, size, goal):
    """A program that does its work in rounds, so many of them."""
    return lambda bench: [Work(name, size, bench.room, (), name, goal, rounds=20, runs=5)]


def of_open_index(bench):
    """By the proved crates alone, whatever the order in the file."""
    return [Work("open_index", f"{RECORDS:,} records, {order}", bench.records(RECORDS, order), (), "open_index", 1.5,
                 changes=True, memory={"bytes a record": 110}) for order in ("sorted", "shuffled")]


def of_update(bench):
    """By the proved crates alone. The files are made by the plain program, whose files are those of the proved one."""
    folder = copy_of(bench.records(0, "sorted"), bench.at("updated"))
    run([bench.at("script"), folder, "1000", "run"], bench.script(ENTRIES, BODY))
    return [Work("update", f"{ENTRIES:,} files", folder, (), "update", 1.5, runs=40, shown=("list",), lines=ENTRIES)]


CLOSER = {"hash": of_rounds("hash", "50,000,000 bytes", 1.2), "index": of_rounds("index", f"{RECORDS:,} records", 1.5),
          "open_index": of_open_index, "update": of_update, "script": of_script, "body": of_body, "get": of_get,
          "reads": of_reads, "session": of_session}
