"""The elements of an entry, and the alternative data that one of them tells of, as docs/FORMATS.md has them."""
import re

from cachelib.hashes import WORD

# No offset below 2^32 has more digits, and of some thousands Python makes no number.
ALTERNATIVE = re.compile(rb"1;(0|[1-9][0-9]{0,9}),([^\0]+)", re.DOTALL)


def are_elements(data):
    """Whether these bytes are well formed as elements."""
    return not data or (data[-1] == 0 and data.count(0) % 2 == 0)


def elements_in(data):
    """The elements by their names. Where a name stands twice the first one counts."""
    pieces = data.split(b"\0")[:-1]
    return dict(reversed(list(zip(pieces[::2], pieces[1::2]))))


def alternative_place(value, body_len):
    """Where the alternative data begin in a stored body of this length, and their kind, by the value of the element
    `alt-data`.
    """
    told = ALTERNATIVE.fullmatch(value)
    if not told or int(told[1]) > min(body_len, WORD):
        return None
    return int(told[1]), told[2]


def alternative(value, body):
    """The main body, the kind and the alternative data, by the value of the element `alt-data`; or None where it tells
    of none.
    """
    place = alternative_place(value, len(body))
    return place and (body[:place[0]], place[1], body[place[0]:])
