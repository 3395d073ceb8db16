"""Whose an entry is, in words: the host of its address, and what the tags of its key say of the pages for which it is
kept."""
import re
import urllib.parse

from cachelib.keys import key_parts, shown

SITE = re.compile(r"([A-Za-z][A-Za-z0-9+.-]*)://(?:[^/?#]*@)?(\[[^\]/?#]*\]|[^/?#:]+)(?::([0-9]+))?")
NO_SITE = "(no site)"
# The ports that an address has where it names none.
PORTS = {"https": "443", "http": "80"}


def parts_of(key):
    """The tags of a key and its address. Of a malformed key all is the address."""
    return key_parts(key) or ([], key)


def host_in(address):
    """The host of an address, or what an address without one is called."""
    found = SITE.match(address)
    return found[2].lower() if found else NO_SITE


def place_in(address):
    """The host of an address with what may tell it from others: another scheme than https, and a port of its own."""
    found = SITE.match(address)
    if not found:
        return NO_SITE
    scheme, host, port = found[1].lower(), found[2].lower(), found[3]
    own_port = f":{port}" if port and PORTS.get(scheme) != port else ""
    return f"{'' if scheme == 'https' else scheme + '://'}{host}{own_port}"


def party_in(value):
    """The site of a partition key such as `(https,example.org)`, with what may tell it from others."""
    scheme, host, *more = value.strip("()").split(",") if "," in value else ("https", value)
    port = "".join(f":{mark}" for mark in more if mark.isdecimal())
    marks = "".join(" within another site" if mark == "f" else f" {mark}" for mark in more if not mark.isdecimal())
    return f"{'' if scheme == 'https' else scheme + '://'}{host}{port}{marks}"


def origin_says(suffix):
    """What an origin suffix says, in words."""
    words = []
    for pair in suffix.lstrip("^").split("&"):
        name, _, value = pair.partition("=")
        value = urllib.parse.unquote(value)
        words.append({
            "partitionKey": f"on {party_in(value)}",
            "firstPartyDomain": f"on {value}",
            "userContextId": f"container {value}",
            "privateBrowsingId": "private window",
        }.get(name, pair))
    return ", ".join(words)


def tags_say(tags):
    """What the tags of a key say, in words."""
    words = []
    for letter, value in tags:
        value = shown(value.replace(b",,", b","))
        if letter == b"O":
            words.append(printable(origin_says(value)))
        elif letter == b"a":
            words.append("without cookies")
        elif letter == b"~":
            words.append(f"kept for {value}")
        else:
            words.append(f"{shown(letter)} {value}".rstrip())
    return ", ".join(words)


def printable(text):
    """Text whose odd characters are escaped, as they may stand in it once percent signs are read."""
    return shown(text.encode(errors="surrogateescape")) if not text.isprintable() else text
