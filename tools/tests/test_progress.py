"""How far a tool is: what the line says, when it comes and that it goes."""
import io
import os
import pty
import select
import subprocess
import time
import types

import pytest
from cachelib import output, page, progress
from support import NUMBERS, TOOLS, dump_of


class Terminal(io.StringIO):
    def isatty(self):
        return True


class Room:
    """A moment, which a test sets, and standard error, which is a terminal."""

    def __init__(self, monkeypatch):
        self.monkeypatch = monkeypatch
        self.now = 100.0
        monkeypatch.setattr(progress, "time", types.SimpleNamespace(monotonic=lambda: self.now))
        monkeypatch.setenv("TERM", "xterm")
        self.take(Terminal())

    def take(self, stderr):
        self.stderr = stderr
        for module in (progress, output):
            self.monkeypatch.setattr(module, "sys", types.SimpleNamespace(stderr=stderr))

    @property
    def shown(self):
        return self.stderr.getvalue()


@pytest.fixture
def room(monkeypatch):
    return Room(monkeypatch)


def test_line_comes_after_two_seconds_and_goes(room):
    with progress.Progress("import", 100000) as line:
        line.at(5)
        room.now += 1.9
        line.at(1000)
        assert room.shown == ""
        room.now += 0.1
        line.at(20000)
        assert room.shown == "\r\x1b[Kimport: 20,000 of 100,000, 8 s left"
        room.now += 0.4
        line.at(30000)
        assert room.shown.count("import") == 1
    assert room.shown.endswith("\r\x1b[K")


@pytest.mark.parametrize("done, total, unit, size, seconds, wanted", [
    (0, 7, "", 1, 5, "0 of 7"),
    (1, 1000, "", 1, 5, "1 of 1,000, 83 min left"),
    (12345678, None, " MB", 1000000, 5, "12 MB"),
    (2500000, 5000000, " MB", 1000000, 5, "2 of 5 MB, 5 s left"),
    (9, 7, "", 1, 5, "9 of 7"),
])
def test_what_it_says(done, total, unit, size, seconds, wanted):
    assert progress.Progress("x", total, unit, size).line(done, seconds) == wanted


def test_another_line_has_a_line_of_its_own(room):
    with progress.Progress("import", 10) as line:
        room.now += 2
        line.at(5)
        output.say("import: a file: why")
    assert room.shown == "\r\x1b[Kimport: 5 of 10, 2 s left\r\x1b[Kimport: a file: why\n"


def test_it_goes_where_the_work_fails(room):
    with pytest.raises(OSError):
        with progress.Progress("import", 10) as line:
            room.now += 2
            line.at(5)
            raise OSError
    assert room.shown.endswith("\r\x1b[K")


@pytest.mark.parametrize("stream, term", [(io.StringIO(), "xterm"), (Terminal(), "dumb"), (None, "xterm")])
def test_none_without_a_terminal(room, monkeypatch, stream, term):
    room.take(stream)
    monkeypatch.setenv("TERM", term)
    with progress.Progress("import", 10) as line:
        room.now += 9
        line.at(5)
    assert not stream or room.shown == ""


def test_counted_gives_all(room):
    assert list(progress.counted("import", ["a", "b"])) == ["a", "b"]


def shown_by(words, dump):
    """What a tool shows on a terminal whose dump comes in two halves, and what it writes."""
    terminal, stderr = pty.openpty()
    environment = {**os.environ, "TERM": "xterm"}
    with subprocess.Popen([os.path.join(TOOLS, words[0]), *words[1:]], stdin=subprocess.PIPE, stdout=subprocess.PIPE,
                          stderr=stderr, env=environment) as tool:
        os.close(stderr)
        tool.stdin.write(dump[:len(dump) // 2])
        tool.stdin.flush()
        time.sleep(progress.BEGIN + 1)
        out, _ = tool.communicate(dump[len(dump) // 2:], timeout=60)
    shown = b""
    while select.select([terminal], [], [], 1)[0]:
        try:
            shown += os.read(terminal, 65536)
        except OSError:
            break
    os.close(terminal)
    assert tool.returncode == 0
    return shown, out


@pytest.mark.parametrize("tool", ["extract", "report"])
def test_a_tool_on_a_terminal(tool, tmp_path):
    if tool == "report" and not all(os.path.exists(path) for _, path in page.LIBRARIES):
        pytest.skip("the packages for the page are missing")
    dump = dump_of([(b":https://example.com/%d" % n, bytes(100000), NUMBERS, b"") for n in range(40)])
    words = [tool, "-", str(tmp_path / "to")] if tool == "extract" else [tool]
    shown, out = shown_by(words, dump)
    assert f"\r\x1b[K{tool}: ".encode() in shown and shown.endswith(b"\r\x1b[K")
    assert b" MB" in shown
    assert out == b"extracted 40\n" if tool == "extract" else out.endswith(b"</html>\n")
