"""Conversations with the program over two pipes: each command is written only once the reply to the one before is
there.

A reply has to come whole within its time, with no byte more, while the program's standard input stays open. Each
command of docs/COMMANDS.md stands in the first conversation with the reply that its table gives, on a real folder."""
import os

import pytest

from cachelib.keys import name_of
from support import Talk

NAME_A, NAME_B = name_of(":a").encode(), name_of(":b").encode()
# More than a pipe holds, and more than a chunk.
LONG = bytes(number % 251 for number in range(300_000))
# Commands, each with its reply. The record has no content type and one KB, and the hash of no origin.
COMMANDS = [
    (b"state\n", b"ready\n"),
    (b"has :a\n", b"no\n"),
    (b"create 0 :a\n", b"ok\n"),
    (b"open 1 :a\n", b"ok\n"),
    (b"append 0 5\nhello\n", b"ok\n"),
    (b"read 1 0 9\n", b"data 5\nhello\n"),
    (b"set 0 1 n\nv\n", b"ok\n"),
    (b"element 1 n\n", b"value 1\nv\n"),
    (b"get :a\n", b"unfinished\n"),
    (b"finish 0\n", b"ok\n"),
    (b"append 0 1\nx\n", b"finished\n"),
    (b"use 0\n", b"ok\n"),
    (b"get :a\n", b"found 2 1000 1000 22600 4294967295 0 4 5\nn\0v\0\nhello\n"),
    (b"unset 1 n\n", b"ok\n"),
    (b"unset 1 n\n", b"none\n"),
    (b"getalt :a\n", b"no alt\n"),
    (b"putalt 1 2 wasm\nXY\n", b"not writer\n"),
    (b"putalt 0 2 wasm\nXY\n", b"ok\n"),
    (b"putalt 0 0 wasm\n\n", b"has alt\n"),
    (b"getalt :a\n", b"alt 2 wasm\nXY\n"),
    (b"main :a\n", b"main 5\nhello\n"),
    (b"close 0\n", b"ok\n"),
    (b"close 1\n", b"ok\n"),
    (b"close 1\n", b"no slot\n"),
    (b"list\n", b"records 1\n" + NAME_A + b" 22600 DA39A3EE5E6B4B0D 65535 65535 0 82000001\n"),
    (b"evict 1\n", b"evicted 0\n"),
    (b"verify\n", b"findings 0\n"),
    (b"flush\n", b"ok\n"),
    (b"rebuild\n", b"rebuilt 1\n"),
    (b"step 5\n", b"ready\n"),
    (b"at 2000\n", b"ok\n"),
    (b"create 63 :b\n", b"ok\n"),
    (b"append 63 300000\n" + LONG + b"\n", b"ok\n"),
    (b"read 63 0 300000\n", b"data 300000\n" + LONG + b"\n"),
    (b"close 63\n", b"ok\n"),
    (b"main :b\n", b"main 300000\n" + LONG + b"\n"),
    (b"get :b\n", b"found 1 2000 2000 2000 4294967295 0 0 300000\n\n" + LONG + b"\n"),
    (b"doom :a\n", b"ok\n"),
    (b"get :a\n", b"absent\n"),
    (b"create 0 O^a,:c\n", b"ok\n"),
    (b"pin 0\n", b"ok\n"),
    (b"pin 1\n", b"no slot\n"),
    (b"finish 0\n", b"ok\n"),
    (b"clear ^a\n", b"cleared 0\n"),
    (b"unpin 0\n", b"ok\n"),
    (b"clear ^a\n", b"cleared 1\n"),
    (b"close 0\n", b"ok\n"),
    (b"evict 0\n", b"evicted 1\n" + NAME_B + b"\n"),
]


def test_each_command(cache):
    talk = Talk(cache)
    for command, reply in COMMANDS:
        assert talk.ask(command, reply) == reply, command[:40]
    assert talk.end() == (0, b"")


def test_a_command_in_parts(cache):
    """It is answered once it is whole, and not before."""
    talk = Talk(cache)
    assert talk.ask(b"create 5 :p\n", b"ok\n") == b"ok\n"
    for part in (b"app", b"end 5 6\n", b"abc", b"def"):
        talk.write(part)
        assert talk.read(bool, 0.2) == b"", part
    assert talk.ask(b"\n", b"ok\n") == b"ok\n"
    assert talk.end() == (0, b"")


def test_two_commands_at_once(cache):
    talk = Talk(cache)
    two = b"ok\ndata 6\nabcdef\n"
    assert talk.ask(b"create 5 :p\nappend 5 6\nabcdef\n", b"ok\nok\n") == b"ok\nok\n"
    assert talk.ask(b"finish 5\nread 5 0 9\n", two) == two
    assert talk.ask(b"close 5\n", b"ok\n") == b"ok\n"
    assert talk.end() == (0, b"")


def test_a_failed_look(cache):
    """A folder stands in the place of an entry's file, which cannot be read then: that is told, and the session goes
    on."""
    assert cache.run("put", ":p", given=b"abcdef") == (0, b"ok\n")
    os.makedirs(cache.entry(":f"))
    talk = Talk(cache)
    found = b"found 1 1000 1000 1000 4294967295 0 0 6\n\nabcdef\n"
    for command, reply in ((b"get :f\n", b"fault\n"), (b"open 3 :f\n", b"fault\n"), (b"get :p\n", found)):
        assert talk.ask(command, reply) == reply
    assert talk.end() == (0, b"")


@pytest.mark.parametrize("command", [
    pytest.param(b"fly\n", id="a line of no command"),
    pytest.param(b"create 64 :x\n", id="a slot that is not there"),
    pytest.param(b"append 0 3\nabcd", id="no newline after the bytes"),
    pytest.param(b"get :" + b"x" * 19_996, id="a line that is too long"),
])
def test_a_malformed_command(cache, command):
    """It is answered as soon as its bytes show it: the program ends, and nobody has closed the pipe."""
    talk = Talk(cache)
    assert talk.ask(b"at 5\n", b"ok\n") == b"ok\n"
    assert talk.ask(command, b"script 2\n") == b"script 2\n"
    assert talk.status() == (3, b"")
