"""Each tool as the system runs it: its help, and that one of Python leaves no compiled modules beside it."""
import os
import subprocess

import pytest

from support import TOOLS

TOOLS_OF_PYTHON = ("dump-extract", "dump-list", "draw-report", "extract", "import", "keys", "ls", "report")


@pytest.mark.parametrize("name", TOOLS_OF_PYTHON)
def test_help(name):
    ran = subprocess.run([os.path.join(TOOLS, name), "--help"], capture_output=True, text=True, check=False)
    assert (ran.returncode, ran.stderr) == (0, "")
    assert ran.stdout.startswith(f"usage: {name} [-h]") and "positional arguments:" in ran.stdout
    assert "__pycache__" not in os.listdir(os.path.join(TOOLS, "cachelib"))


@pytest.mark.parametrize("name", ["body-of", "make-entry", "package", "test"])
def test_help_of_a_script(name):
    ran = subprocess.run([os.path.join(TOOLS, name), "--help"], capture_output=True, text=True, check=False)
    assert (ran.returncode, ran.stdout.split()[:2], ran.stderr) == (0, ["usage:", name], "")
