"""Finds the program `cache2` and starts it."""
from __future__ import annotations

import os
import shutil
import subprocess
from typing import IO, Optional, Sequence, Union

from .errors import ProgramNotFound

REPOSITORY = os.path.dirname(os.path.dirname(os.path.dirname(os.path.realpath(__file__))))
# What a build makes there: the proved program, and the one that is only compiled. The launcher is not taken, since it
# may build for an hour.
BUILT = [os.path.join(REPOSITORY, "crates", "cache2", "out", name) for name in ("cache2", "cache2-unproved")]


def is_program(path: str) -> bool:
    return os.path.isfile(path) and os.access(path, os.X_OK)


def find_program(named: Optional[str] = None) -> str:
    """The path of the program: as named, by CACHE2_PROGRAM, on the PATH, or built in this repository."""
    named = named or os.environ.get("CACHE2_PROGRAM")
    if named:
        if not is_program(named):
            raise ProgramNotFound(f"this is no program: {named}")
        return os.path.abspath(named)
    found = shutil.which("cache2") or next((path for path in BUILT if is_program(path)), None)
    if not found:
        raise ProgramNotFound("there is no cache2 on the PATH: set CACHE2_PROGRAM, or build it (docs/GUIDE.md)")
    return os.path.abspath(found)


def start(program: str, words: Sequence[str], stdin: Union[int, IO[bytes]]) -> "subprocess.Popen[bytes]":
    """Starts the program. In its own session ^C does not reach it."""
    try:
        return subprocess.Popen([program, *words], stdin=stdin, stdout=subprocess.PIPE, bufsize=0,
                                start_new_session=True)
    except OSError as error:
        raise ProgramNotFound(f"the program does not start: {error}") from error
