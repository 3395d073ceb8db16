"""The head of a response as it is kept in the element `response-head`: its status, and its headers."""
import re

STATUS = re.compile(rb"HTTP/[0-9.]+[ \t]+([0-9]{3})(?![0-9])")
HEADER = re.compile(rb"^([^:\s]+)[ \t]*:[ \t]*([^\r\n]*)", re.MULTILINE)


def status_in(head):
    """The status of a response, or None."""
    found = STATUS.match(head)
    return int(found[1]) if found else None


def headers_in(head):
    """The headers of a head in their order, each a name and a value."""
    return [(found[1], found[2].rstrip()) for found in HEADER.finditer(head)]


def header_in(head, name):
    """The value of the first header of this name, which is given in lower case, or None."""
    return next((value for other, value in headers_in(head) if other.lower() == name), None)


def type_in(head):
    """The type that the head tells of, in lower case and without its parameters, or no bytes."""
    return (header_in(head, b"content-type") or b"").split(b";")[0].strip().lower()


def encodings_in(head):
    """How a body was packed, in the order in which that was done."""
    named = b",".join(value for name, value in headers_in(head) if name.lower() == b"content-encoding")
    words = [word.strip().lower().decode("latin-1") for word in named.split(b",")]
    return [word for word in words if word not in ("", "identity")]
