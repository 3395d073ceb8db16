"""The entries of a folder or of a dump, each with what people ask for, filtered and sorted by words that they know."""
import argparse
import dataclasses
import datetime
import fnmatch
import os

from cachelib import heads
from cachelib.dumps import BadItem, Dump
from cachelib.elements import alternative_place, elements_in
from cachelib.entries import NO_EXPIRATION, PINNED, Unfit, entries_in, entry_names, metadata_of
from cachelib.keys import shown
from cachelib.output import REFUSED, Refused, say, standard_input
from cachelib.sites import host_in, parts_of, tags_say

UTC = datetime.timezone.utc


@dataclasses.dataclass
class Listed:
    """What is listed of an entry. `size` counts its main body, and `alternative` what comes after that, such as
    compiled code.
    """
    __slots__ = ("name", "key", "version", "url", "partition", "host", "size", "alternative", "kind", "type", "status",
                 "method", "encoding", "uses", "used", "changed", "expires", "is_pinned")
    name: str
    key: bytes
    version: int
    url: str
    partition: str
    host: str
    size: int
    alternative: int
    kind: str
    type: str
    status: int
    method: str
    encoding: str
    uses: int
    used: int
    changed: int
    expires: int
    is_pinned: bool


def listed_of(metadata):
    """What is listed of an entry with these metadata."""
    tags, address = parts_of(metadata.key)
    elements = elements_in(metadata.elements)
    head = elements.get(b"response-head", b"")
    place = alternative_place(elements.get(b"alt-data", b""), metadata.body_len)
    main, kind = place or (metadata.body_len, b"")
    url = shown(address)
    return Listed(
        name=metadata.name, key=metadata.key, version=metadata.version, url=url, partition=tags_say(tags),
        host=host_in(url),
        size=main, alternative=metadata.body_len - main, kind=shown(kind), type=shown(heads.type_in(head)),
        status=heads.status_in(head), method=shown(elements.get(b"request-method", b"")),
        encoding=shown(" ".join(heads.encodings_in(head)).encode("latin-1")), uses=metadata.fetch_count,
        used=metadata.fetched,
        changed=metadata.modified, expires=None if metadata.expires == NO_EXPIRATION else metadata.expires,
        is_pinned=bool(metadata.flags & PINNED))


class Listing:
    """The entries of a folder, or of the dump on standard input where there is none. `left_out` counts what is not
    listed.
    """

    def __init__(self, tool, folder):
        self.tool, self.folder = tool, folder
        self.left_out = 0

    def entries(self):
        return self.in_dump() if self.folder is None else self.in_folder()

    def in_folder(self):
        """Hashes are not checked: that takes long, and `verify` does it."""
        for name in entry_names(self.folder):
            try:
                yield listed_of(metadata_of(self.folder, name, is_hashed=False))
            except Unfit as fault:
                self.left_out += 1
                say(f"{self.tool}: {name}: {fault.says()}")

    def in_dump(self):
        with standard_input() as file:
            try:
                for metadata in Dump(file, is_hashed=False).items():
                    yield listed_of(metadata)
            except BadItem as fault:
                self.left_out += 1
                say(f"{self.tool}: {fault}")


# ---- filters

def moment(text):
    """The seconds since 1970 of a date, which may have a time of day. It is read as UTC."""
    try:
        read = datetime.datetime.fromisoformat(text.rstrip("Zz"))
    except ValueError:
        raise argparse.ArgumentTypeError(f"{text!r} is no date such as 2026-11-01 or 2026-11-01T12:30") from None
    return int((read if read.tzinfo else read.replace(tzinfo=UTC)).timestamp())


def add_filters(words):
    """The words that choose entries. An entry has to fit all that are given."""
    choice = words.add_argument_group("which entries")
    choice.add_argument("--type", metavar="TYPE", help="of this type of content, as text/css or image/*")
    choice.add_argument("--host", metavar="HOST",
                        help="of this host, or of one below it: example.com is also www.example.com")
    choice.add_argument("--since", metavar="DATE", type=moment,
                        help="last used then or later, as 2026-11-01 or 2026-11-01T12:30, in UTC")
    choice.add_argument("--name", metavar="NAME", type=str.upper, help="in the file of this name, of 40 digits")
    choice.add_argument("--url", metavar="PART",
                        help="with these characters in the address, for whichever pages it is kept")


def is_chosen(listed, given):
    """Whether an entry fits the filters."""
    host = given.host and given.host.lower()
    return ((given.type is None or fnmatch.fnmatchcase(listed.type, given.type.lower()))
            and (host is None or listed.host == host or listed.host.endswith("." + host))
            and (given.name is None or listed.name == given.name)
            and (given.since is None or listed.used >= given.since)
            and (given.url is None or given.url.casefold() in listed.url.casefold()))


# ---- orders

ORDERS = {
    "url": lambda listed: (listed.url, listed.key),
    "size": lambda listed: (-listed.size, listed.url),
    "used": lambda listed: (-listed.used, listed.url),
    "type": lambda listed: (listed.type, listed.url),
    "host": lambda listed: (listed.host, listed.url),
    "status": lambda listed: (listed.status or 0, listed.url),
    "name": lambda listed: listed.name,
}


def folder_of(path):
    """The path of a folder of a cache. A profile has it below."""
    if not os.path.isdir(entries_in(path)):
        below = os.path.join(path, "cache2")
        hint = f", but {shown(os.fsencode(below))} has one" if os.path.isdir(entries_in(below)) else ""
        raise Refused(f"{shown(os.fsencode(path))}: no folder of a cache: it has no folder `entries`{hint}", REFUSED)
    return path
