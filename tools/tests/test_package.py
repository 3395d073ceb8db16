"""tools/package: that it makes the same bytes twice, what is in its packages, and that the sessions of README.md run
with what is installed from them, where there is no kit."""
import gzip
import os
import shutil
import stat
import subprocess

import pytest

from sessions import faults_in
from support import TOOLS, files_in

ROOT = os.path.dirname(TOOLS)
USAGE = "usage: cache2 [--proved | --unproved] [--read-only] DIR NOW VERB [WORD ..]"
# What may be run, in the folder of the library.
COMMANDS = ["bin/cache2", "bin/cache2_view", "cache2", *(f"tools/{name}" for name in (
    "body-of", "dump-extract", "dump-list", "extract", "import", "keys", "ls", "make-entry", "report"))]
# The folders of the path without a kit.
BARE_PATH = os.pathsep.join(folder for folder in os.environ["PATH"].split(os.pathsep)
                            if not os.access(os.path.join(folder, "rt"), os.X_OK))


def read(*names):
    with open(os.path.join(*names), "rb") as file:
        return file.read()


VERSION = read(ROOT, "VERSION").decode().strip()
DEB, TAR = f"cache2_{VERSION}_amd64.deb", f"cache2-{VERSION}.tar.gz"


def package(*words, umask=0o22):
    ran = subprocess.run([os.path.join(TOOLS, "package"), *words], stdout=subprocess.PIPE, stderr=subprocess.STDOUT,
                         text=True, umask=umask, check=False)
    return ran.returncode, ran.stdout


def output(*words):
    return subprocess.run(words, stdout=subprocess.PIPE, text=True, check=True).stdout


@pytest.fixture(scope="module")
def made(binary, view, module_room):
    """A folder with the packages, and what is unpacked from each."""
    status, said = package(f"{module_room}/one", binary.path, view.path, umask=0o77)
    assert status == 0, said
    os.mkdir(f"{module_room}/deb")
    output("dpkg-deb", "-x", f"{module_room}/one/{DEB}", f"{module_room}/deb")
    output("tar", "-C", module_room, "-xzf", f"{module_room}/one/{TAR}")
    os.rename(f"{module_room}/cache2-{VERSION}", f"{module_room}/tar")
    return module_room


def test_the_same_bytes_twice(made, binary, view):
    assert package(f"{made}/other", binary.path, view.path, umask=0o02)[0] == 0
    assert sorted(os.listdir(f"{made}/one")) == sorted([DEB, TAR])
    assert files_in(f"{made}/one") == files_in(f"{made}/other")


def test_no_program(view, tmp_path):
    missing = f"{tmp_path}/missing"
    assert package(f"{tmp_path}/none", missing, view.path) == (1, f"package: '{missing}' is no program\n")
    assert not os.path.exists(f"{tmp_path}/none")


@pytest.mark.parametrize("words", [(), ("--other",), ("a", "b")])
def test_malformed_words(words):
    assert package(*words) == (2, "package: usage: package FOLDER [PROGRAM VIEW]\n")


def test_what_is_inside(made, binary, view):
    assert subprocess.run(["diff", "-r", f"{made}/deb", f"{made}/tar"], check=False).returncode == 0
    assert {line.split()[1] for line in output("dpkg-deb", "-c", f"{made}/one/{DEB}").splitlines()} == {"root/root"}
    assert output("dpkg-deb", "-f", f"{made}/one/{DEB}", "Version") == f"{VERSION}\n"
    lib = f"{made}/deb/usr/lib/cache2"
    assert read(lib, "bin/cache2") == read(binary.path)
    assert read(lib, "bin/cache2_view") == read(view.path)
    modes = {path: stat.S_IMODE(os.stat(os.path.join(lib, path)).st_mode) for path in files_in(lib)}
    assert sorted(path for path, mode in modes.items() if mode == 0o755) == sorted(COMMANDS)
    assert output("find", f"{made}/deb", "!", "-type", "l", "!", "-perm", "755", "!", "-perm", "644") == ""


@pytest.mark.parametrize("kind", ["deb", "tar"])
def test_what_is_installed(made, kind):
    launcher, guide = f"{made}/{kind}/usr/bin/cache2", f"{made}/{kind}/usr/share/doc/cache2/docs/GUIDE.md"

    def run(*words):
        ran = subprocess.run([launcher, *words], capture_output=True, text=True, stdin=subprocess.DEVNULL, check=False)
        return ran.returncode, ran.stdout, ran.stderr
    assert run("--version") == (0, f"cache2 {VERSION}\n", "")
    assert run("--help")[1].splitlines()[0] == USAGE
    assert run(f"{made}/nowhere", "1", "list") == (10, "",
                                                   f"cache2: '{made}/nowhere' is no cache: there is no such folder\n")
    with open(f"{made}/file", "w", encoding="utf-8"):
        pass
    assert run(f"{made}/file", "1", "put", ":x") == (
        6, "", f"cache2: the disk failed ('{made}/file' is no folder): see 'Troubleshooting' in {guide}\n")
    assert os.path.getsize(guide) > 0
    assert gzip.decompress(read(made, kind, "usr/share/man/man1/cache2.1.gz")) == read(ROOT, "cache2.1")


@pytest.mark.parametrize("kind", ["deb", "tar"])
def test_the_sessions_of_readme(made, kind, tmp_path):
    """They run beside the tools that are installed, and need no kit."""
    assert shutil.which("rt", path=BARE_PATH) is None
    (tmp_path / "tmp").mkdir()
    (tmp_path / "cache2").symlink_to(f"{made}/{kind}/usr/bin/cache2")
    (tmp_path / "tools").symlink_to(f"{made}/{kind}/usr/lib/cache2/tools")
    text = read(made, kind, "usr/share/doc/cache2/README.md").decode()
    assert "    $ ./cache2 " in text
    assert faults_in(text, str(tmp_path), PATH=BARE_PATH) == []
