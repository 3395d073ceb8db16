"""The page of a report: what it tells as data, and how that is put into one file beside the scripts that show it."""
import array
import base64
import collections
import contextlib
import hashlib
import itertools
import json
import os
import re
import tempfile
import zlib

from cachelib import heads
from cachelib.elements import elements_in
from cachelib.entries import NO_EXPIRATION, PINNED, Unfit, chunks_of
from cachelib.keys import shown
from cachelib.output import Refused
from cachelib.sites import host_in, parts_of, place_in, tags_say

FOLDER = os.path.join(os.path.dirname(os.path.dirname(os.path.realpath(__file__))), "report_page")
LIBRARIES = (
    ("libjs-jquery", "/usr/share/javascript/jquery/jquery.min.js"),
    ("libjs-jquery-datatables", "/usr/share/javascript/jquery-datatables/jquery.dataTables.min.js"),
    ("libjs-chart.js", "/usr/share/javascript/chart.js/chart.min.js"),
)
# The scripts of the page in their order.
SCRIPTS = ("words.js", "rows.js", "filters.js", "plots.js", "details.js", "table.js", "page.js")
# What only a line that is opened needs is packed, in blocks of so many entries.
BLOCK = 500
MAX_PREVIEW = 65536
MAX_PREVIEWS = 16777216
# What is shown as an image. No other kind is: a browser runs what stands in some.
IMAGES = (b"image/png", b"image/jpeg", b"image/gif", b"image/webp", b"image/avif", b"image/bmp")


def head_of(metadata):
    """The elements of an entry, and the head of its response."""
    elements = elements_in(metadata.elements)
    return elements, elements.get(b"response-head", b"")


class Previews:
    """Small images on their way into the page."""

    def __init__(self, is_wanted):
        self.is_wanted = is_wanted
        self.pieces, self.size = [], 0
        self.count = self.used = 0

    def begin(self, _name=None):
        """What takes the next body, piece by piece. No more of it is held than a preview may have."""
        self.pieces, self.size = [], 0
        return self.keep

    def keep(self, piece):
        self.size += len(piece)
        if self.is_wanted and self.size <= MAX_PREVIEW:
            self.pieces.append(piece)

    def read(self, number, metadata):
        """Takes the body from an open entry file. A damaged one has no preview."""
        keep = self.begin()
        if self.may_have(metadata):
            with contextlib.suppress(Unfit):
                for piece in chunks_of(number, metadata):
                    keep(piece)

    def may_have(self, metadata):
        """Whether there is a preview of an entry."""
        if not self.is_wanted or not 0 < metadata.body_len <= MAX_PREVIEW or metadata.alternative:
            return False
        _, head = head_of(metadata)
        is_image = heads.type_in(head) in IMAGES and not heads.encodings_in(head)
        return is_image and self.used + metadata.body_len <= MAX_PREVIEWS

    def kept(self, metadata):
        """The image of an entry as the address of its data, or None."""
        if not self.may_have(metadata):
            return None
        body = b"".join(self.pieces)
        if len(body) != metadata.body_len:
            return None
        self.count += 1
        self.used += len(body)
        kind = heads.type_in(head_of(metadata)[1]).decode()
        return f"data:{kind};base64,{base64.b64encode(body).decode()}"


class Numbers:
    """Texts that are told by numbers, since most of them come many times."""

    def __init__(self):
        self.of = {}

    def number(self, text):
        return self.of.setdefault(text, len(self.of))

    def texts(self):
        return list(self.of)


class Entries:
    """What the page tells of the entries: a column for each thing, and what opens with a line in blocks."""
    COLUMNS = ("prefix", "site", "type", "status", "size", "used", "changed", "expires", "uses")

    def __init__(self, now, folder, findings=None):
        self.now, self.folder = now, folder
        # Each finding with its name, which becomes the number of the entry once that comes.
        self.findings = findings
        self.wanted = collections.defaultdict(list)
        for finding in findings or ():
            self.wanted[finding[0]].append(finding)
        self.prefixes, self.sites, self.types = Numbers(), Numbers(), Numbers()
        self.columns = {name: array.array("q") for name in self.COLUMNS}
        self.addresses = []
        self.waiting = []
        # The blocks are as long as all heads together, so they are no part of what is held.
        self.blocks = tempfile.TemporaryFile()

    def add(self, metadata, preview=None):
        """Adds an entry, and the preview of its body where there is one."""
        for finding in self.wanted.get(metadata.name, ()):
            finding[0] = len(self.addresses)
        tags, address = parts_of(metadata.key)
        elements, head = head_of(metadata)
        prefix = shown(metadata.key[:len(metadata.key) - len(address)])
        url = shown(address)
        self.addresses.append(url.encode())
        told = {
            "prefix": self.prefixes.number((prefix, tags_say(tags))),
            "site": self.sites.number((host_in(url), place_in(url))),
            "type": self.types.number(shown(heads.type_in(head)) or "(not told)"), "status": heads.status_in(head) or 0,
            "size": metadata.body_len, "used": metadata.fetched, "changed": metadata.modified,
            "expires": -1 if metadata.expires == NO_EXPIRATION else metadata.expires, "uses": metadata.fetch_count}
        for name, number in told.items():
            self.columns[name].append(number)
        main, kind = metadata.alternative or (metadata.body_len, b"")
        self.waiting.append([
            metadata.name, metadata.version, shown(elements.get(b"request-method", b"")), main, shown(kind),
            metadata.flags & PINNED,
            [shown(line) for line in head.split(b"\r\n") if line], preview])
        if len(self.waiting) == BLOCK:
            self.end_block()

    def end_block(self):
        """Packs what waits, as text that may stand in a page."""
        packed = zlib.compress(json.dumps(self.waiting, separators=(",", ":")).encode())
        self.blocks.write(base64.b64encode(packed) + b"\n")
        self.waiting = []

    def told(self, more):
        """The data of the page in pieces of JSON, of which the columns are the most."""
        yield as_data({"made": self.now, "folder": self.folder, "block": BLOCK, "prefixes": self.prefixes.texts(),
                       "sites": self.sites.texts(), "types": self.types.texts(), "findings": self.findings,
                       **more})[:-1]
        for name, column in self.columns.items():
            yield f',"{name}":{as_data(column.tolist())}'
        yield ',"address":['
        for at in range(0, len(self.addresses), BLOCK):
            piece = as_data([address.decode() for address in self.addresses[at:at + BLOCK]])[1:-1]
            yield f"{',' if at else ''}{piece}"
        yield "]}"

    def told_blocks(self):
        """An element for each block."""
        if self.waiting:
            self.end_block()
        self.blocks.seek(0)
        for number in itertools.count():
            line = self.blocks.readline()
            if not line:
                return
            yield f'<script type="text/plain" id="block-{number}">{line.decode().strip()}</script>\n'


# ---- the file

def as_data(told):
    """JSON that ends no element and begins none."""
    text = json.dumps(told, separators=(",", ":"))
    return re.sub("[<>&]", lambda found: f"\\u{ord(found[0]):04x}", text)


def library(package, path):
    try:
        with open(path, encoding="utf-8") as file:
            return file.read()
    except FileNotFoundError:
        raise Refused(f"{path} is missing: apt-get install {package}") from None


def part(name):
    with open(os.path.join(FOLDER, name), encoding="utf-8") as file:
        return file.read()


def hash_word(script):
    """The word by which a page allows a script, and no other."""
    return f"'sha256-{base64.b64encode(hashlib.sha256(script.encode()).digest()).decode()}'"


class Page:
    """The page. What it tells is data beside its scripts, and none of it is read as HTML."""

    def __init__(self):
        self.scripts = [library(package, path) for package, path in LIBRARIES] + [part(name) for name in SCRIPTS]
        self.parts = re.split("@([A-Z]+)@", part("page.html"))

    def pieces(self, entries, more):
        """The page in pieces, so that it is never held whole."""
        made = {
            "POLICY": lambda: [" ".join(map(hash_word, self.scripts))],
            "STYLE": lambda: [part("page.css")],
            "DATA": lambda: entries.told(more),
            "BLOCKS": entries.told_blocks,
            "SCRIPTS": lambda: (f"<script>{script}</script>\n" for script in self.scripts),
        }
        for number, text in enumerate(self.parts):
            yield from made[text]() if number % 2 else [text]

    def write(self, out, entries, more):
        for piece in self.pieces(entries, more):
            out.write(piece.encode())
