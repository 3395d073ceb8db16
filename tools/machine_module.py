"""What the commands of a script do to whole entries, and what a stop may leave of them, for the tool that stops
scripts. It is no tool.

The commands follow docs/COMMANDS.md, and the marks docs/CRASH.md ("What may be lost of the entries"); nothing here
looks at the program. A command is a tuple of its word and its fields, as ("append", 0, b"hello"). The names of a
session's keys have to differ, so that a key stands for its name.
"""
import dataclasses
import hashlib

from cachelib.entries import NO_EXPIRATION
from cachelib.hashes import CHUNK, WORD
from cachelib.keys import name_of

STEP, REACH = 21600, 172800
POINTS = (121, 243, 483, 959, 1889, 3670, 6954, 12635, 21600, 34235, 50154, 68470, 88289, 108959, 130083, 151443,
          172921, 172921)
PINNED = 1
OK, NONE = b"ok\n", b"none\n"
ALT = b"alt-data"


class Refused(Exception):
    """A command that changes nothing, with its reply."""


def frecency_after(old, now):
    """The frecency after a use at the moment `now`."""
    if old == 0:
        return now
    if old + REACH < now:
        return min(WORD, now + POINTS[0])
    if now + REACH < old:
        return min(WORD, old + POINTS[0])
    place, rest = divmod(old + REACH - now, STEP)
    return min(WORD, now + POINTS[place] + (POINTS[place + 1] - POINTS[place]) * rest // STEP)


# ---- entries

@dataclasses.dataclass(frozen=True)
class Version:
    """A body and its metadata, as `get` prints them."""
    numbers: tuple
    elements: bytes = b""
    body: bytes = b""

    def is_pinned(self):
        return bool(self.numbers[5] & PINNED)

    def pairs(self):
        pieces = self.elements.split(b"\0")[:-1]
        return list(zip(pieces[::2], pieces[1::2]))

    def with_pairs(self, pairs):
        return dataclasses.replace(self, elements=b"".join(name + b"\0" + value + b"\0" for name, value in pairs))

    def with_numbers(self, **places):
        """With other numbers at these places of the header."""
        numbers = list(self.numbers)
        for place, number in places.items():
            numbers[("count", "fetched", "modified", "frecency", "expires", "flags").index(place)] = number
        return dataclasses.replace(self, numbers=tuple(numbers))

    def kilobytes(self, key):
        """The size of its file as its record has it."""
        size = len(self.body) + 4 + 2 * (-(-len(self.body) // CHUNK)) + 32 + len(key) + 1 + len(self.elements) + 4
        return -(-size // 1024)

    def shown(self):
        """In a few words, for a line of a fault."""
        body = f"body of {len(self.body)} ({hashlib.sha1(self.body).hexdigest()[:8]})"
        return f"{' '.join(map(str, self.numbers))}, elements of {len(self.elements)}, {body}"


def fresh(now):
    return Version((1, now, now, now, NO_EXPIRATION, 0))


def origin_of(key):
    """The value of the tag `O` of a key that has no tag before it and no comma in it."""
    return key[1:key.index(b",")] if key.startswith(b"O") else b""


class Entry:
    """An entry that is or was in use."""

    def __init__(self, key, version, finished):
        self.key, self.version, self.finished, self.doomed = key, version, finished, False


# ---- the machine and its marks

class Session:
    """The machine of a script, which begins with these entries on its shelf, and the marks since its last settling."""

    def __init__(self, shelf, moment):
        self.shelf, self.moment = dict(shelf), moment
        self.in_use, self.slots = {}, {}
        self.settle()

    def settle(self):
        """The marks at the opening, and at an acknowledged flush or clearing."""
        self.marked = dict(self.shelf)
        self.touched, self.in_place, self.since = set(), set(), {}
        self.buried = {entry for entry, _ in self.slots.values() if entry.doomed}

    def may_stand(self, key, found):
        """Whether a stop may leave this version under the key, or none."""
        if key not in self.touched:
            return found == self.marked.get(key)
        return found is None or found == self.marked.get(key) or found in self.since.get(key, ())

    def perform(self, command):
        """The command has begun. Returns its reply, or None where that is not said here."""
        word, *fields = command
        try:
            return getattr(self, "do_" + word)(*fields)
        except Refused as refused:
            return refused.args[0]

    def acknowledge(self, command):
        """The reply to the command went out."""
        if command[0] in ("flush", "clear"):
            self.settle()

    # ---- what commands have in common

    def entry(self, slot):
        if slot not in self.slots:
            raise Refused(b"no slot\n")
        return self.slots[slot][0]

    def written(self, slot):
        """The entry of a writer's slot."""
        entry = self.entry(slot)
        if not self.slots[slot][1]:
            raise Refused(b"not writer\n")
        return entry

    def settable(self, slot):
        """The entry of a slot through which elements may be set."""
        entry = self.entry(slot)
        return entry if entry.finished else self.written(slot)

    def doom_under(self, key):
        self.touched.add(key)
        self.shelf.pop(key, None)
        if key in self.in_use:
            self.in_use.pop(key).doomed = True

    def put_out(self, entry, version):
        """The entry has this version now. Of a finished one its metadata are rewritten in place."""
        entry.version = version
        if not entry.doomed:
            self.touched.add(entry.key)
        if entry.finished and entry not in self.buried:
            self.since.setdefault(entry.key, []).append(version)
            self.in_place.add(entry.key)
        if entry.finished and not entry.doomed:
            self.shelf[entry.key] = version
        return OK

    def change(self, entry, version):
        """The same; of an entry that is being written nothing goes out."""
        if entry.finished:
            return self.put_out(entry, version)
        entry.version = version
        return OK

    def finish(self, entry):
        entry.finished = True
        if entry not in self.buried:
            self.since.setdefault(entry.key, []).append(entry.version)
        if not entry.doomed:
            self.touched.add(entry.key)
            self.shelf[entry.key] = entry.version

    # ---- the commands

    def do_at(self, now):
        self.moment = now
        return OK

    def do_create(self, slot, key):
        if slot in self.slots:
            raise Refused(b"slot taken\n")
        self.doom_under(key)
        self.in_use[key] = Entry(key, fresh(self.moment), False)
        self.slots[slot] = (self.in_use[key], True)
        return OK

    def do_open(self, slot, key):
        if slot in self.slots:
            raise Refused(b"slot taken\n")
        if key not in self.in_use:
            if key not in self.shelf:
                raise Refused(b"absent\n")
            self.in_use[key] = Entry(key, self.shelf[key], True)
        self.slots[slot] = (self.in_use[key], False)
        return OK

    def do_append(self, slot, data):
        entry = self.written(slot)
        if entry.finished:
            raise Refused(b"finished\n")
        if not entry.doomed:
            self.touched.add(entry.key)
        entry.version = dataclasses.replace(entry.version, body=entry.version.body + data)
        return OK

    def do_finish(self, slot):
        entry = self.written(slot)
        if entry.finished:
            raise Refused(b"finished\n")
        self.finish(entry)
        return OK

    def do_set(self, slot, name, value):
        entry = self.settable(slot)
        pairs = entry.version.pairs()
        at = next((n for n, pair in enumerate(pairs) if pair[0] == name), len(pairs))
        pairs[at:at + 1] = [(name, value)]
        return self.change(entry, entry.version.with_pairs(pairs))

    def do_unset(self, slot, name):
        entry = self.settable(slot)
        pairs = entry.version.pairs()
        at = next((n for n, pair in enumerate(pairs) if pair[0] == name), None)
        if at is None:
            return NONE
        del pairs[at]
        return self.change(entry, entry.version.with_pairs(pairs))

    def do_use(self, slot):
        entry = self.entry(slot)
        old = entry.version
        after = frecency_after(old.numbers[3], self.moment)
        return self.change(entry, old.with_numbers(count=min(WORD, old.numbers[0] + 1), fetched=self.moment,
                                                   frecency=after))

    def do_pin(self, slot):
        entry = self.written(slot)
        return self.change(entry, entry.version.with_numbers(flags=entry.version.numbers[5] | PINNED))

    def do_unpin(self, slot):
        entry = self.written(slot)
        return self.change(entry, entry.version.with_numbers(flags=entry.version.numbers[5] & ~PINNED))

    def do_putalt(self, slot, kind, data):
        entry = self.written(slot)
        if not entry.finished:
            raise Refused(b"unfinished\n")
        old = entry.version
        if any(name == ALT for name, _ in old.pairs()):
            raise Refused(b"has alt\n")
        told = old.with_pairs([*old.pairs(), (ALT, b"1;%d,%s" % (len(old.body), kind))])
        return self.change(entry, dataclasses.replace(told, body=old.body + data))

    def do_close(self, slot):
        entry = self.entry(slot)
        _, writes = self.slots.pop(slot)
        if writes and not entry.finished:
            self.finish(entry)
        if not entry.doomed and all(other is not entry for other, _ in self.slots.values()):
            del self.in_use[entry.key]
        return OK

    def do_doom(self, key):
        if key not in self.in_use and key not in self.shelf:
            raise Refused(b"absent\n")
        self.doom_under(key)
        return OK

    def do_evict(self, most):
        total = sum(version.kilobytes(key) for key, version in self.shelf.items())
        may_go = [key for key, version in self.shelf.items() if not version.is_pinned() and key not in self.in_use]
        gone = []
        for key in sorted(may_go, key=lambda key: (self.shelf[key].numbers[3] or 1 << 32, name_of(key.decode()))):
            if total <= most:
                break
            total -= self.shelf[key].kilobytes(key)
            self.doom_under(key)
            gone.append(key)
        return b"evicted %d\n" % len(gone) + b"".join(name_of(key.decode()).encode() + b"\n" for key in gone)

    def do_clear(self, origin):
        versions = {**self.shelf, **{key: entry.version for key, entry in self.in_use.items()}}
        gone = [key for key, version in versions.items() if origin_of(key) == origin and not version.is_pinned()]
        for key in gone:
            self.doom_under(key)
        return b"cleared %d\n" % len(gone)

    def do_get(self, key):
        if key in self.in_use and not self.in_use[key].finished:
            raise Refused(b"unfinished\n")
        if key not in self.shelf:
            raise Refused(b"absent\n")
        version = self.shelf[key]
        head = b"found %d %d %d %d %d %d" % version.numbers
        return head + b" %d %d\n%s\n%s\n" % (len(version.elements), len(version.body), version.elements, version.body)

    def do_read(self, slot, begin, count):
        part = self.entry(slot).version.body[begin:begin + count]
        return b"data %d\n%s\n" % (len(part), part)

    def do_rebuild(self):
        return b"rebuilt %d\n" % len(self.shelf)

    def do_flush(self):
        return OK

    def do_list(self):
        """Says nothing of the records."""

    do_verify = do_state = do_list

    def do_step(self, _names):
        """Says nothing of how far the update is."""


# ---- commands and replies as bytes

SPELLED = {
    "append": lambda slot, data: b"append %d %d\n%s\n" % (slot, len(data), data),
    "set": lambda slot, name, value: b"set %d %d %s\n%s\n" % (slot, len(value), name, value),
    "putalt": lambda slot, kind, data: b"putalt %d %d %s\n%s\n" % (slot, len(data), kind, data),
}


def spelled(command):
    """The bytes of a command in a script."""
    word, *fields = command
    if word in SPELLED:
        return SPELLED[word](*fields)
    return b" ".join([word.encode(), *(field if isinstance(field, bytes) else b"%d" % field
                                       for field in fields)]) + b"\n"


def line_of(command):
    """The line of a command, without the bytes after it."""
    return spelled(command).split(b"\n", 1)[0].decode()


def reply_end(data):
    """Where the first reply in these bytes ends, or None where it is not whole."""
    at = data.find(b"\n") + 1
    if at == 0:
        return None
    words = bytes(data[:at]).split()
    if words[0] == b"found":
        at += int(words[7]) + int(words[8]) + 2
    elif words[0] in (b"data", b"value", b"main", b"alt"):
        at += int(words[1]) + 1
    elif words[0] in (b"records", b"evicted", b"findings"):
        for _ in range(int(words[1])):
            at = data.find(b"\n", at) + 1
            if at == 0:
                return None
    return at if at <= len(data) else None


def found_in(reply):
    """The version that a reply to `get` shows, or None where it shows none."""
    head, rest = reply.split(b"\n", 1)
    words = head.split()
    if words[0] != b"found":
        return None
    numbers = [int(word) for word in words[1:]]
    return Version(tuple(numbers[:6]), rest[:numbers[6]], rest[numbers[6] + 1:-1])
