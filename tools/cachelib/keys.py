"""The keys of entries, as "Keys" in docs/FORMATS.md has them: their names, their parts, and how a tool shows them."""
import hashlib
import re

MAX_KEY = 16384
# A value up to its comma: commas are read in pairs.
VALUE = re.compile(rb"((?:[^,]|,,)*),(?!,)", re.DOTALL)
BARE = b"abp"


def digest_of(key):
    """The name of a key, as its 20 bytes."""
    return hashlib.sha1(key.encode()).digest()


def name_of(key):
    """The name of a key as text, which is the name of its file."""
    return digest_of(key).hex().upper()


def shown(key):
    """The bytes of a key as text on one line: a backslash is doubled, and a byte that is not printable is `\\xHH`."""
    text = key.decode(errors="surrogateescape").replace("\\", "\\\\")
    escaped = (c if c.isprintable() else "".join(f"\\x{byte:02X}" for byte in c.encode(errors="surrogateescape"))
               for c in text)
    return "".join(escaped)


def key_parts(key):
    """The tags of a key, each a letter and a value as it is spelled, and its address; or None where the key is
    malformed.
    """
    tags, last, at = [], ord(","), 0
    while key[at:at + 1] != b":":
        value = VALUE.match(key, at + 1)
        if at >= len(key) or key[at] <= last or not value or (key[at] in BARE and value[1]):
            return None
        last = key[at]
        tags.append((key[at:at + 1], value[1]))
        at = value.end()
    return tags, key[at + 1:]


def may_write(key):
    """Whether an entry may be written under the key."""
    return 1 <= len(key) <= MAX_KEY and b"\0" not in key and b"\n" not in key and key_parts(key) is not None
