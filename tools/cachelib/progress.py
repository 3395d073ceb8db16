"""How far a tool is: a line on standard error, written over itself, where that is a terminal and work takes long."""
import os
import sys
import time

# Seconds before the line comes, and between two states of it.
BEGIN, PAUSE = 2, 0.5


def is_terminal():
    return bool(sys.stderr) and sys.stderr.isatty() and os.environ.get("TERM", "dumb") != "dumb"


def left(seconds):
    """The time that is left, in words."""
    return f"{seconds:.0f} s left" if seconds < 120 else f"{seconds / 60:.0f} min left"


class Progress:
    """The line of one work, as a context: it is gone at the end, also where that is an exception."""
    shown = None

    def __init__(self, tool, total=None, unit="", size=1):
        self.tool, self.total, self.unit, self.size = tool, total, unit, size
        self.is_seen = is_terminal()
        self.began = time.monotonic()
        self.due = self.began + BEGIN

    def __enter__(self):
        return self

    def __exit__(self, *_):
        self.hide()

    def at(self, done):
        """Tells how much is done."""
        if not self.is_seen:
            return
        now = time.monotonic()
        if now >= self.due:
            self.due = now + PAUSE
            self.write(f"\r\x1b[K{self.tool}: {self.line(done, now - self.began)}")
            Progress.shown = self

    def line(self, done, seconds):
        if self.total is None:
            return f"{done // self.size:,}{self.unit}"
        line = f"{done // self.size:,} of {self.total // self.size:,}{self.unit}"
        return f"{line}, {left(seconds * (self.total - done) / done)}" if 0 < done <= self.total else line

    def hide(self):
        if Progress.shown is self:
            Progress.shown = None
            self.write("\r\x1b[K")

    def write(self, text):
        """A terminal that is gone ends no work."""
        try:
            sys.stderr.write(text)
            sys.stderr.flush()
        except OSError:
            self.is_seen = False


def hide():
    """Before another line is written to the terminal."""
    if Progress.shown:
        Progress.shown.hide()


def counted(tool, things):
    """Gives each of the things, which are a list, and tells how many were given."""
    with Progress(tool, len(things)) as progress:
        for done, thing in enumerate(things):
            progress.at(done)
            yield thing


def of_file(tool, file):
    """The progress through the bytes of a file. Of what has no length, as a pipe, it is not known how many are to come.
    """
    return Progress(tool, os.fstat(file.fileno()).st_size if file.seekable() else None, " MB", 1000000)
