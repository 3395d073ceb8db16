"""What pytest asks before the tests: the program, a browser, and folders that last as long as a test."""
import contextlib
import os
import subprocess
import sys
import tempfile

import pytest

# No folder of compiled modules is left beside the tools.
sys.dont_write_bytecode = True
sys.path.insert(0, os.path.dirname(os.path.dirname(os.path.realpath(__file__))))

from browser import Browser, NoBrowser, find_browser  # noqa: E402  (the path is set above)
from cachelib import page  # noqa: E402
from injecting import Place  # noqa: E402
from support import TOOLS, Cache, Folder, Program, run_tool  # noqa: E402
from tracing import may_trace  # noqa: E402


def pytest_addoption(parser):
    parser.addoption("--program", help="the program that is tried; without it, the launcher")
    parser.addoption("--view",
                     help="the program that only looks at a folder; without it, the one that the launcher runs")
    parser.addoption("--every", type=int, default=1, help="of runs of these two side by side, one in so many")


@pytest.fixture
def folder():
    """A folder `cache2` with no entry."""
    with Folder() as one:
        yield one


LAUNCHER = os.path.join(os.path.dirname(TOOLS), "cache2")


def is_binary(path):
    with open(path, "rb") as file:
        return file.read(4) == b"\x7fELF"


def made_by_launcher(crate, *words):
    """The program of a crate, which the launcher makes where that is due. What was made last is what it runs."""
    with tempfile.TemporaryDirectory() as room:
        ran = subprocess.run([LAUNCHER, *words, room, "0", "flush"], stdout=subprocess.DEVNULL, check=False)
    if ran.returncode:
        pytest.skip("there is no program: neither a word names it, nor can the launcher make it")
    out = os.path.join(os.path.dirname(LAUNCHER), "crates", crate, "out", crate)
    return Program(max(filter(os.path.exists, (out, out + "-unproved")), key=os.path.getmtime))


@pytest.fixture(scope="session")
def program(request):
    path = request.config.getoption("program")
    return Program(os.path.realpath(path)) if path else made_by_launcher("cache2")


@pytest.fixture(scope="session")
def binary(program):
    """The program itself, and no launcher of it."""
    return program if is_binary(program.path) else made_by_launcher("cache2")


@pytest.fixture(scope="session")
def view(request):
    path = request.config.getoption("view")
    return Program(os.path.realpath(path)) if path else made_by_launcher("cache2_view", "--read-only")


@pytest.fixture(scope="session")
def tracer():
    """The words before a run that is watched."""
    try:
        subprocess.run(["strace", "-o", os.devnull, "true"], stderr=subprocess.DEVNULL, check=True)
    except (OSError, subprocess.SubprocessError):
        pytest.skip("there is no strace that may watch a program")
    return ["strace"]


@pytest.fixture
def injected(binary, room):
    """A room for runs that are traced, which ends with what was wrong."""
    if not may_trace():
        pytest.skip("no program may be traced here")
    Place.room, Place.program, Place.faults = room, os.path.realpath(binary.path), []
    yield
    assert Place.faults == []


@contextlib.contextmanager
def new_room():
    """A folder in memory, where syncs cost nothing, if there is such a place."""
    with tempfile.TemporaryDirectory(dir="/dev/shm" if os.access("/dev/shm", os.W_OK) else None) as path:
        yield os.path.realpath(path)


@pytest.fixture
def room():
    with new_room() as path:
        yield path


@pytest.fixture(scope="module")
def module_room():
    with new_room() as path:
        yield path


@pytest.fixture
def cache(program, room):
    """A folder for the program."""
    return Cache(program, os.path.join(room, "cache"))


@pytest.fixture(scope="session", params=["sh", "dash", "bash", "busybox sh"])
def shell(request):
    """Each shell that there is, as the words that run it."""
    words = request.param.split()
    if subprocess.run(["which", words[0]], stdout=subprocess.DEVNULL, check=False).returncode:
        pytest.skip(f"there is no {words[0]}")
    return words


@pytest.fixture(scope="session")
def firefox():
    """The path of a Firefox that starts here."""
    path = find_browser()
    if not path:
        pytest.skip("there is no firefox-esr or firefox")
    with tempfile.TemporaryDirectory() as room:
        try:
            with Browser(path, os.path.join(room, "profile")):
                pass
        except NoBrowser as fault:
            pytest.skip(f"Firefox does not start: {fault}")
    return path


@pytest.fixture
def made():
    """Makes a page of tools/report, where the packages for it are there."""
    missing = [package for package, path in page.LIBRARIES if not os.path.exists(path)]
    if missing:
        pytest.skip(f"the page wants packages: apt-get install {' '.join(missing)}")

    def make(*words, given=b""):
        status, text, lines = run_tool("report", *words, given=given)
        assert (status, lines) == (0, [])
        return text
    return make
