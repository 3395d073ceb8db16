"""What all tests have: a time limit, a program, and a look at what is left behind."""
import os
import shutil
import signal
import subprocess
import sys
import tempfile

import cache2
import pytest
from cache2 import program as programs

# A test that takes longer waits for something that does not come.
SECONDS = int(os.environ.get("CACHE2_TEST_SECONDS", "60"))


def pytest_configure(config):
    config.addinivalue_line("markers", "seconds(count): the time limit of a test that takes longer than others")
    try:
        config.found_program = programs.find_program()
    except cache2.ProgramNotFound as error:
        pytest.exit(f"the tests want a program: {error}", 2)


def pytest_report_header(config):
    return f"cache2: {config.found_program}"


@pytest.fixture(autouse=True)
def time_limit(request):
    """Ends a test that hangs."""
    marker = request.node.get_closest_marker("seconds")

    def late(*_):
        raise AssertionError("the test did not end in time")
    before = signal.signal(signal.SIGALRM, late)
    signal.alarm(marker.args[0] if marker else SECONDS)
    yield
    signal.alarm(0)
    signal.signal(signal.SIGALRM, before)


@pytest.fixture(autouse=True)
def started(monkeypatch):
    """The programs that a test starts. None is left behind, and so is no pipe."""
    processes = []
    start = programs.start

    def recorded(*words):
        processes.append(start(*words))
        return processes[-1]
    monkeypatch.setattr(programs, "start", recorded)
    yield processes
    left = [process for process in processes if process.poll() is None]
    for process in left:
        os.killpg(process.pid, signal.SIGKILL)
        process.wait()
    assert not left, "a program was left behind"
    open_pipes = [pipe for process in processes for pipe in (process.stdin, process.stdout) if pipe and not pipe.closed]
    assert not open_pipes, "a pipe was left open"


@pytest.fixture
def room():
    """A folder for the files of a test, whose caches have no place yet."""
    path = tempfile.mkdtemp(prefix="cache2-test-")
    yield path
    shutil.rmtree(path)


@pytest.fixture
def path(room):
    return os.path.join(room, "cache")


@pytest.fixture
def cache(path):
    with cache2.open(path) as one:
        yield one


@pytest.fixture
def other_program(room):
    """Makes a program of Python code, in place of the real one. `say` answers, and `ask` reads a line.

    It has answered the first command by then, and answers each `at` by itself.
    """
    def make(code):
        file = os.path.join(room, "program")
        with open(file, "w", encoding="utf-8") as out:
            out.write(f"#!{sys.executable}\n"
                      "import os, signal, sys, time\n"
                      "def say(data):\n    sys.stdout.buffer.write(data); sys.stdout.buffer.flush()\n"
                      "def ask():\n"
                      "    while (line := sys.stdin.buffer.readline()).startswith(b'at '): say(b'ok\\n')\n"
                      "    return line\n"
                      f"ask(); say(b'ready\\n')\n{code}\n")
        os.chmod(file, 0o700)
        return file
    return make


@pytest.fixture
def run_python():
    """Runs Python code in a process of its own, and gives what it prints."""
    def run(code, *words, **more):
        root = os.path.dirname(os.path.dirname(os.path.abspath(__file__)))
        ran = subprocess.run([sys.executable, "-c", code, *words], stdout=subprocess.PIPE, text=True, timeout=SECONDS,
                             env={**os.environ, "PYTHONPATH": root}, check=True, **more)
        return ran.stdout
    return run
