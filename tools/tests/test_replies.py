"""tools/make-entry and tools/body-of under each shell: what one makes comes back by the other, byte by byte."""
import os
import subprocess

import pytest

from support import TOOLS, elements_with

URL = "https://example.com/a b"


class Shell:
    """A cache whose entries are made by make-entry and whose replies are read by body-of."""

    def __init__(self, words, program, room):
        self.words, self.program, self.room = words, program, str(room)

    def run(self, tool, *words, given=b""):
        ran = subprocess.run([*self.words, os.path.join(TOOLS, tool), *words], input=given, stdout=subprocess.PIPE,
                             stderr=subprocess.PIPE, cwd=self.room, check=False)
        return ran.returncode, ran.stdout, ran.stderr.decode()

    def make(self, body, *words):
        """Makes an entry with this body. `BODY` stands for its file."""
        with open(os.path.join(self.room, "sent"), "wb") as file:
            file.write(body)
        status, script, _ = self.run("make-entry", *("sent" if word == "BODY" else word for word in words))
        assert status == 0
        status, replies = self.program.ends(f"{self.room}/cache", "run", given=script)
        assert (status, set(replies.splitlines())) == (0, {b"ok"})

    def body(self, verb, key):
        """What body-of makes of a reply."""
        status, reply = self.program.ends(f"{self.room}/cache", verb, key)
        assert status == 0
        status, body, says = self.run("body-of", given=reply)
        assert (status, says) == (0, "")
        return body


@pytest.fixture
def made(shell, program, tmp_path):
    return Shell(shell, program, tmp_path)


@pytest.mark.parametrize("body", [b"", b"x", os.urandom(1048576), os.urandom(2500000), b"close 0\n  a\tb \\n\0\n\n"],
                         ids=len)
def test_bodies_come_back(made, body):
    made.make(body, URL, "BODY")
    assert made.body("get", f":{URL}") == made.body("main", f":{URL}") == body


def test_elements(made):
    key = f"O^partitionKey=%28https%2Cexample.com%29,:{URL}"
    made.make(b"hello", "-o", "^partitionKey=%28https%2Cexample.com%29", "-s", "MIIHAzZz", URL, "BODY",
              "Content-Type: text/plain", "X-Say: a  b")
    elements = b"security-info\0MIIHAzZz\0" + elements_with(b"text/plain", b"X-Say: a  b", b"Content-Length: 5")
    status, reply = made.program.ends(f"{made.room}/cache", "get", key)
    assert (status, reply.partition(b"\n")[2]) == (0, elements + b"\nhello\n")
    assert made.body("get", key) == b"hello"


def test_a_comma_in_an_origin_is_doubled(made):
    made.make(b"hello", "-o", "x,y", URL, "BODY")
    assert made.body("main", f"Ox,,y,:{URL}") == b"hello"


@pytest.mark.parametrize("kind", ["wasm", "a b  c", "1 2 3 4 5 6 7 8 9"])
def test_alternative_data_come_apart(made, kind):
    script = f"create 0 :{URL}\nappend 0 5\nhello\nfinish 0\nputalt 0 4 {kind}\nX\nY\n\nclose 0\n".encode()
    assert made.program.ends(f"{made.room}/cache", "run", given=script) == (0, b"ok\n" * 5)
    assert [made.body(verb, f":{URL}") for verb in ("main", "getalt", "get")] == [b"hello", b"X\nY\n", b"helloX\nY\n"]


@pytest.mark.parametrize("tool, words, given, status, says", [
    ("make-entry", (), b"", 2, "make-entry: usage: make-entry [-o ORIGIN] [-s SECURITY_INFO] URL BODY [HEADER]..\n"),
    ("make-entry", ("https://x/\nflush", "/dev/null"), b"", 2, "make-entry: a key has no newline\n"),
    ("make-entry", ("https://x/", "long"), b"", 2, "make-entry: a body has at most 52428800 bytes\n"),
    ("body-of", (), b"absent\n", 1, "body-of: the reply is no 'main', 'found' or 'alt'\n"), ("body-of", (), b"", 1, ""),
    ("body-of", ("reply",), b"main 0\n\n", 2, "body-of: usage: body-of <REPLY\n"),
])
def test_refusals(shell, tmp_path, tool, words, given, status, says):
    with open(tmp_path / "long", "wb") as file:
        file.truncate(52428801)
    assert Shell(shell, None, tmp_path).run(tool, *words, given=given) == (status, b"", says)
