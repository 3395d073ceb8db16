"""The elements of an entry: names and values that stand beside its body."""
from __future__ import annotations

from typing import Dict, List, Mapping, Optional, Tuple, Union

from .errors import BadElement, TooLarge
from .limits import MAX_ELEMENTS, MAX_NAME

Value = Union[str, bytes]
Elements = Mapping[str, Value]


def encoded_one(name: str, value: Value) -> Tuple[bytes, bytes]:
    """The bytes of a name and a value that may be set."""
    try:
        name_bytes = name.encode("utf-8", "surrogateescape")
        value_bytes = value.encode("utf-8", "surrogateescape") if isinstance(value, str) else bytes(value)
    except UnicodeEncodeError as error:
        raise BadElement(f"an element with characters that UTF-8 does not have: {error}") from None
    if not name_bytes or b"\0" in name_bytes or b"\n" in name_bytes:
        raise BadElement(f"a name of an element is not empty, and has no zero byte and no newline: {name!r}")
    if len(name_bytes) > MAX_NAME:
        raise BadElement(f"a name of an element has at most {MAX_NAME} bytes, and this has {len(name_bytes)}")
    if b"\0" in value_bytes:
        raise BadElement(f"the value of the element {name!r} has a zero byte")
    return name_bytes, value_bytes


def check_size(pairs: Mapping[bytes, bytes]) -> None:
    """Refuses more elements than an entry may have."""
    size = sum(len(name) + len(value) + 2 for name, value in pairs.items())
    if size > MAX_ELEMENTS:
        raise TooLarge(f"elements have at most {MAX_ELEMENTS} bytes with a zero byte after each, and these have {size}")


def encoded(elements: Optional[Elements]) -> Dict[bytes, bytes]:
    """The bytes of elements that may be set all."""
    if not elements:
        return {}
    pairs = dict(encoded_one(name, value) for name, value in elements.items())
    check_size(pairs)
    return pairs


def decoded(data: bytes) -> Dict[str, bytes]:
    """The elements by their names. Where a name stands twice the first one counts."""
    pieces: List[bytes] = data.split(b"\0")
    found: Dict[str, bytes] = {}
    for name, value in zip(pieces[0:-1:2], pieces[1::2]):
        found.setdefault(name.decode("utf-8", "surrogateescape"), value)
    return found
