"""Folders, programs and disks that are not as they should be."""
import contextlib
import errno
import io
import os
import subprocess
import sys
import threading
import time

import cache2
import pytest
from cache2 import program as programs

KEY = ":https://example.com/"
ROOT = os.path.dirname(os.path.dirname(os.path.abspath(__file__)))


def test_each_exception_has_one_base():
    errors = [one for one in vars(cache2).values() if isinstance(one, type) and issubclass(one, Exception)]
    assert len(errors) > 30
    assert all(issubclass(one, cache2.Cache2Error) for one in errors)


def test_a_program_that_is_not_there(path, room, monkeypatch):
    with pytest.raises(cache2.ProgramNotFound):
        cache2.open(path, program=os.path.join(room, "nothing"))
    monkeypatch.setenv("CACHE2_PROGRAM", os.path.join(room, "nothing"))
    with pytest.raises(cache2.ProgramNotFound):
        cache2.open(path)
    monkeypatch.delenv("CACHE2_PROGRAM")
    monkeypatch.setenv("PATH", room)
    monkeypatch.setattr(programs, "BUILT", [os.path.join(room, "nothing")])
    with pytest.raises(cache2.ProgramNotFound):
        cache2.open(path)
    no_program = os.path.join(room, "no program")
    with open(no_program, "wb") as file:
        file.write(b"\x7fELF of another machine")
    os.chmod(no_program, 0o700)
    with pytest.raises(cache2.ProgramNotFound):
        cache2.open(path, program=no_program)
    # A folder that was locked for it is free again.
    monkeypatch.undo()
    with cache2.open(path, wait=0):
        pass


def test_where_the_program_is_found(room, monkeypatch):
    for name in ("cache2", "other"):
        with open(os.path.join(room, name), "w", encoding="ascii"):
            os.chmod(os.path.join(room, name), 0o700)
    monkeypatch.setenv("CACHE2_PROGRAM", os.path.join(room, "other"))
    assert programs.find_program() == os.path.join(room, "other")
    monkeypatch.delenv("CACHE2_PROGRAM")
    monkeypatch.setenv("PATH", room)
    assert programs.find_program() == os.path.join(room, "cache2")
    monkeypatch.setenv("PATH", "/nowhere")
    monkeypatch.setattr(programs, "BUILT", ["/nowhere/cache2", os.path.join(room, "cache2")])
    assert programs.find_program() == os.path.join(room, "cache2")


def test_a_folder_that_is_no_cache(room):
    with open(os.path.join(room, "letter"), "wb") as file:
        file.write(b"dear")
    letter = os.path.join(room, "letter")
    for path in (room, letter, os.path.join(letter, "x"), os.fsdecode(b"\xff")):
        with pytest.raises(cache2.NotACache):
            cache2.open(path)
    assert os.listdir(room) == ["letter"]


def test_a_folder_in_which_the_program_fails(room):
    os.makedirs(os.path.join(room, "c", "entries"))
    with open(os.path.join(room, "c", "doomed"), "wb"):
        pass
    with pytest.raises(cache2.DiskFailed):
        cache2.open(os.path.join(room, "c"))
    os.remove(os.path.join(room, "c", "doomed"))
    with cache2.open(os.path.join(room, "c")) as cache:
        assert cache.list() == []


def test_a_folder_that_is_in_use(path):
    with cache2.open(path) as cache:
        with pytest.raises(cache2.InUse):
            cache2.open(path, wait=0.1)
        ran = subprocess.run([sys.executable, "-c", "import cache2, sys; cache2.open(sys.argv[1], wait=0.1)", path],
                             stderr=subprocess.PIPE, env={**os.environ, "PYTHONPATH": ROOT}, check=False, text=True)
        assert "InUse" in ran.stderr and ran.returncode == 1
        cache.put(KEY, b"x")
    threading.Timer(0.3, first_end(path)).start()
    with cache2.open(path, wait=30) as cache:
        assert cache.get(KEY).read() == b"x"


def first_end(path):
    one = cache2.open(path)
    return one.close


def test_a_program_that_goes_on_keeps_the_folder(path, started):
    """The client is gone, and its program is not: nobody else gets the folder."""
    code = ("import cache2, os, sys, signal\ncache = cache2.open(sys.argv[1])\n"
            "pid = cache._talk._process.pid\nos.kill(pid, signal.SIGSTOP)\nprint(pid, flush=True)\n"
            "os.kill(os.getpid(), 9)\n")
    ran = subprocess.run([sys.executable, "-c", code, path], stdout=subprocess.PIPE, check=False,
                         env={**os.environ, "PYTHONPATH": ROOT})
    try:
        with pytest.raises(cache2.InUse):
            cache2.open(path, wait=0.3)
    finally:
        os.kill(int(ran.stdout), 18)
    with cache2.open(path, wait=30):
        pass


@pytest.fixture
def small_disk(room):
    """A disk of 3 MB, where this process may make one."""
    path = os.path.join(room, "disk")
    os.mkdir(path)
    words = ["mount", "-t", "tmpfs", "-o", "size=3m", "none", path]
    mounted = subprocess.run(words, stderr=subprocess.PIPE, check=False)
    if mounted.returncode:
        pytest.skip("no disk may be mounted here")
    yield path
    subprocess.run(["umount", path], check=True)


def test_a_disk_that_is_full_amid_a_body(small_disk):
    path = os.path.join(small_disk, "cache")
    with cache2.open(path) as cache:
        cache.put(":kept", b"k" * 100_000)
        cache.flush()
        for put in (lambda: cache.put(KEY, bytes(8 << 20)), lambda: cache.put(KEY, io.BytesIO(bytes(8 << 20))),
                    lambda: write_to(cache, 8 << 20)):
            with pytest.raises(cache2.DiskFailed):
                put()
            with pytest.raises(cache2.NotFound):
                cache.get(KEY)
            assert cache.get(":kept").read() == b"k" * 100_000
        reader = cache.open(":kept")
        with pytest.raises(cache2.DiskFailed):
            write_to(cache, 8 << 20)
        with pytest.raises(cache2.DiskFailed):
            reader.read(1)
        cache.put(KEY, b"x" * 500_000)
        assert cache.verify() == []


def write_to(cache, length):
    with cache.create(KEY) as writer:
        for _ in range(length // 100_000):
            writer.write(bytes(100_000))


def test_a_dump_that_cannot_be_written(cache):
    cache.put(KEY, bytes(3 << 20))
    with open("/dev/full", "wb", buffering=0) as full:
        with pytest.raises(OSError) as told:
            cache.dump(full)
    assert told.value.errno == errno.ENOSPC
    assert cache.get(KEY).length == 3 << 20


def test_a_dump_that_cannot_be_read(cache):
    cache.put(KEY, bytes(300_000))
    dump = io.BytesIO()
    cache.dump(dump)

    class Failing(io.BytesIO):
        def read(self, count=-1):
            if self.tell() > 100_000:
                raise OSError("the source failed")
            return super().read(50_000)
    with pytest.raises(OSError):
        cache.load(Failing(dump.getvalue()))
    with pytest.raises(cache2.BadDump):
        cache.load(io.BytesIO(b"no dump, but a letter" * 100_000))
    # The key of the item that was cut came whole, so the entry is gone.
    with pytest.raises(cache2.NotFound):
        cache.get(KEY)


def test_after_the_end(path):
    cache = cache2.open(path)
    cache.put(KEY, b"x")
    reader, writer, pipeline = cache.open(KEY), cache.create(":half"), cache.pipeline()
    writer.write(b"half")
    cache.close()
    cache.close()
    for call in (lambda: cache.get(KEY), lambda: cache.put(KEY, b"x"), cache.list, lambda: cache.open(KEY),
                 lambda: cache.create(KEY), cache.flush, lambda: cache.dump(io.BytesIO()), lambda: pipeline.get(KEY),
                 lambda: reader.read(1), lambda: writer.write(b"x")):
        with pytest.raises((cache2.Closed, ValueError)):
            call()
    with cache2.open(path) as again:
        assert list(again.keys()) == [KEY]


def test_a_fork_of_the_process(path):
    """A fork cannot use the cache, and its end does not harm it."""
    with cache2.open(path) as cache:
        cache.put(KEY, b"x")
        child = os.fork()
        if not child:
            status = 1
            try:
                cache.get(KEY)
            except cache2.WrongProcess:
                cache.close()
                status = 0
            finally:
                os._exit(status)
        assert os.waitpid(child, 0)[1] == 0
        assert cache.get(KEY).read() == b"x"
        with pytest.raises(cache2.InUse):
            cache2.open(path, wait=0)


def test_an_exception_within_the_cache(path, started):
    with pytest.raises(ZeroDivisionError):
        with cache2.open(path) as cache:
            cache.put(KEY, b"x")
            cache.create(":half").write(b"half")
            1 / 0
    assert started[0].returncode == 0
    with cache2.open(path) as cache:
        assert list(cache.keys()) == [KEY]


def test_a_temporary_folder_that_is_full(small_disk, cache, monkeypatch):
    """A body that cannot be kept is lost, and nothing else."""
    import tempfile
    cache.put(KEY, os.urandom(8 << 20))
    monkeypatch.setattr(tempfile, "tempdir", small_disk)
    entry = cache.get(KEY)
    entry.body.read(10)
    assert cache.has(KEY)
    with pytest.raises(OSError):
        entry.read()
    assert cache.get(KEY).length == 8 << 20


# ---- threads

def test_many_threads(cache):
    faults = []

    def work(number):
        try:
            for turn in range(15):
                key, body = f":{number}", bytes([number]) * (number * 50_000 + turn)
                cache.put(key, body)
                assert cache.get(key).read() == body
                with cache.open(key) as reader, cache.create(f":w{number}") as writer:
                    writer.write(reader.read(1000))
                    time.sleep(0.0005)
                    writer.write(reader.read())
                assert cache.get(f":w{number}").read() == body
        except BaseException as error:
            faults.append(error)
    threads = [threading.Thread(target=work, args=(number,)) for number in range(8)]
    for thread in threads:
        thread.start()
    for thread in threads:
        thread.join()
    assert faults == []
    assert len(cache.list()) == 16


def test_a_slot_is_waited_for(path):
    with cache2.open(path, slot_wait=20) as cache:
        cache.put(KEY, b"x")
        readers = [cache.open(KEY) for _ in range(64)]
        threading.Timer(0.3, readers[9].close).start()
        begun = time.monotonic()
        late = cache.open(KEY)
        assert 0.2 < time.monotonic() - begun < 15
        assert late.read() == b"x"


def test_a_program_that_dies_under_threads(path, started):
    """Each thread is told at most once for each end, and what was acknowledged stands."""
    stored, faults = set(), []
    with cache2.open(path) as cache:
        def work(number):
            for turn in range(60):
                try:
                    cache.put(f":{number}/{turn}", b"%d" % turn)
                    stored.add((number, turn))
                except cache2.ProgramEnded as error:
                    faults.append(error)
        threads = [threading.Thread(target=work, args=(number,)) for number in range(4)]
        for thread in threads:
            thread.start()
        for _ in range(3):
            time.sleep(0.05)
            program = started[-1]
            program.kill()
            program.wait()
        for thread in threads:
            thread.join()
        assert len(stored) + len(faults) == 240
        # the last end may have come after their last command: then the next one is told of it
        with contextlib.suppress(cache2.ProgramEnded):
            cache.put(":last", b"")
        for number, turn in stored:
            assert cache.get(f":{number}/{turn}").read() == b"%d" % turn
