"""How a tool ends and what it says: errors as `NAME: PATH: why`, and status 2 for malformed words."""
import argparse
import os
import sys

from cachelib import progress
from cachelib.keys import shown

DONE, PARTLY, REFUSED = 0, 1, 2


def say(line):
    """A line on standard error, and never on standard output. Where standard error is closed or full, a tool goes on.
    """
    progress.hide()
    try:
        if sys.stderr:
            print(line, file=sys.stderr)
    except OSError:
        pass


class Refused(Exception):
    """Why a tool does nothing more, and its status."""

    def __init__(self, why, status=PARTLY):
        super().__init__(why)
        self.status = status


class Words(argparse.ArgumentParser):
    """The words of a tool: its help is the text at the top of its file, and an error is one line."""

    def __init__(self, name, text, **more):
        super().__init__(prog=name, description=text, formatter_class=argparse.RawDescriptionHelpFormatter,
                         allow_abbrev=False, **more)

    def error(self, message):
        say(f"{self.prog}: {message}; {self.prog} --help tells more")
        sys.exit(REFUSED)


def standard_input():
    """By its number, since there is no `sys.stdin` where it is closed."""
    return open(0, "rb", closefd=False)


def standard_output():
    """By its number, as above."""
    return open(1, "wb", closefd=False)


def run_tool(name, work, no_path="standard output", at_pipe=PARTLY):
    """The status of the work. What the system refuses is named with its path, or with `no_path` where it has none.
    Where who reads has enough, the status is `at_pipe`.
    """
    try:
        return work()
    except Refused as fault:
        say(f"{name}: {fault}")
        return fault.status
    except BrokenPipeError:
        return at_pipe
    except OSError as fault:
        path = fault.filename if isinstance(fault.filename, (str, bytes)) else no_path
        say(f"{name}: {shown(os.fsencode(path))}: {fault.strerror}")
        return REFUSED
