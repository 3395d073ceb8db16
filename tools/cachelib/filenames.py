"""Names of files for bodies, made from addresses that anybody may have chosen.

A name has letters, digits, dots, dashes and underscores, and at most so many of them. It is never hidden, never an
option of a command, never that of a device, and stands for one entry alone, also where case does not count.
"""
import mimetypes
import re
import urllib.parse

from cachelib.sites import NO_SITE

LONGEST = 100
ODD = re.compile(r"[^A-Za-z0-9._-]+")
END = re.compile(r"\.[A-Za-z0-9]{1,8}$")
# What some systems take for a device, whatever its end.
DEVICE = re.compile(r"(con|prn|aux|nul|com[0-9]|lpt[0-9]|conin\$|conout\$)(\.|$)", re.IGNORECASE)
# What Python does not know, or names by another end than people do.
ENDS = {
    "application/javascript": ".js", "application/x-javascript": ".js", "application/wasm": ".wasm",
    "application/xhtml+xml": ".xhtml", "audio/webm": ".weba", "font/otf": ".otf", "font/ttf": ".ttf",
    "font/woff": ".woff", "font/woff2": ".woff2", "image/avif": ".avif", "image/jpeg": ".jpg",
    "image/vnd.microsoft.icon": ".ico", "image/webp": ".webp", "image/x-icon": ".ico", "text/html": ".html",
    "text/javascript": ".js", "text/plain": ".txt", "text/xml": ".xml", "video/mp4": ".mp4", "video/webm": ".webm",
}
# Ends that say the same, of which the one in the address stays.
ALIKE = ({".htm", ".html"}, {".jpeg", ".jpg", ".jfif"}, {".js", ".mjs"}, {".tif", ".tiff"}, {".mpg", ".mpeg"})
# Types that tell nothing of the content.
GENERAL = ("", "application/octet-stream", "binary/octet-stream", "application/binary")
# Of Python's own table, and of no file of the system: names are the same on each machine.
TYPES = mimetypes.MimeTypes(filenames=())


def safe(text):
    """Text as a name, or as a part of one."""
    name = ODD.sub("_", text).strip("._-")[:LONGEST].rstrip(".") or "_"
    return f"_{name}" if DEVICE.match(name) else name


def end_of(kind, name):
    """The end that a file of this type gets, whose address ends in this name."""
    own = END.search(name)
    own = own[0].lower() if own else ""
    if kind in GENERAL:
        return own or ".bin"
    end = ENDS.get(kind) or TYPES.guess_extension(kind) or own or ".bin"
    return own if any({own, end} <= alike for alike in ALIKE) else end


def stem_and_query(address):
    """What of an address names its body: its path and its query, without the scheme and the host."""
    rest = re.sub(r"^[A-Za-z][A-Za-z0-9+.-]*:(//[^/?#]*)?", "", address).partition("#")[0]
    path, _, query = rest.partition("?")
    return urllib.parse.unquote(path).strip("/") or "index", urllib.parse.unquote(query)


class Names:
    """Names that were given, each once, with those that files beside a body have. Some are taken from the beginning."""

    def __init__(self, taken, beside):
        self.taken = {name.lower() for name in taken}
        self.beside = ("", *beside)

    def of(self, listed, packed=""):
        """The folder and the name of the file for the body of an entry, with an end that tells how it is packed."""
        host = "no-site" if listed.host == NO_SITE else safe(listed.host)
        host = f"{host}_" if host.lower() in self.taken else host
        stem, query = stem_and_query(listed.url)
        end = end_of(listed.type, stem)
        end = ".bin" if end in self.beside else end
        if stem.lower().endswith(end):
            stem = stem[:-len(end)]
        stem = safe(f"{stem}_{query}" if query else stem)
        for more in ("", f"-{listed.name[:8]}", f"-{listed.name}"):
            name = f"{host}/{stem}{more}{end}{packed}"
            names = {f"{name}{other}".lower() for other in self.beside}
            if not names & self.taken:
                break
        self.taken |= names
        return name
