"""Responses of HTTP, stored as Firefox stores them and read back.

    http.store(cache, "https://example.com/", 200, {"Content-Type": "text/html"}, b"<p>hello")
    response = http.read(cache, "https://example.com/")
    print(response.status, response.header("content-type"), response.body.read())

A body is stored as the server sent it: one that was sent packed has its `Content-Encoding` beside it.
"""
from __future__ import annotations

import base64
import dataclasses
import functools
import hashlib
import re
from typing import BinaryIO, Dict, Iterable, List, Mapping, NamedTuple, Optional, Tuple, Union
from urllib.parse import quote, quote_plus, urlsplit

from .cache import Cache, length_of
from .entry import Entry
from .errors import BadElement, BadKey, Cache2Error, TooLarge
from .keys import Key
from .limits import MAX_PIECE
from .pipes import Bytes

Text = Union[str, bytes]
Headers = Union[Mapping[str, Text], Iterable[Tuple[Text, Text]]]
Pairs = List[Tuple[str, str]]
StoredPairs = List[Tuple[bytes, bytes]]

METHOD, HEAD, ORIGINAL, SECURITY = "request-method", "response-head", "original-response-headers", "security-info"
# What Firefox leaves out of `response-head`, since it is of one connection or one user.
TRANSIENT = {"connection", "proxy-connection", "keep-alive", "www-authenticate", "proxy-authenticate", "trailer",
             "transfer-encoding", "upgrade", "set-cookie", "content-length"}
# Of these the first counts. Others that stand more than once are joined.
SINGLE = {"content-type", "content-disposition", "location", "retry-after", "last-modified", "etag", "date", "expires",
          "server", "age"}
STATUS_LINE = re.compile(r"HTTP/([0-9.]+) ([0-9]{3})(?: (.*))?")
TOKEN = re.compile(r"[!#$%&'*+.^_`|~0-9A-Za-z-]+")
DEFAULT_PORTS = {"http": 80, "https": 443}
# What is spelled so already, as most addresses are: with another port than those of the schemes, or with none.
SPELLED = re.compile(r"https?://[a-z0-9.-]+(:(?!80/|443/)[1-9][0-9]*)?/[a-zA-Z0-9!$%&()*+,./:;=@_~-]*"
                     r"(\?[a-zA-Z0-9!$%&()*+,./:;=?@_~-]+)?")
# What stays as it is in a path and in a query, beside letters and digits.
KEPT_IN_PATH = "!$%&'()*+,-./:;=@[]_|~"
KEPT_IN_QUERY = "!#$%&()*+,-./:;=?@[\\]^_`{|}~"


class NotAResponse(Cache2Error):
    """The entry is none of a response."""


@dataclasses.dataclass
class Response:
    """A response that was stored."""
    status: int
    reason: str
    version: str
    headers: Pairs
    method: str
    length: int
    body: BinaryIO
    entry: Entry

    def header(self, name: str) -> Optional[str]:
        """The first header of a name, whatever its case."""
        return next((value for one, value in self.headers if one.lower() == name.lower()), None)


# ---- keys

@functools.lru_cache(maxsize=256)
def address(url: str) -> str:
    """An address as Firefox spells it: without its fragment, in ASCII, and with a path."""
    if SPELLED.fullmatch(url) and "/." not in url:
        return url
    try:
        # A backslash before the query is a slash.
        end = min((at for at in map(url.find, "?#") if at >= 0), default=len(url))
        parts = urlsplit(url[:end].replace("\\", "/") + url[end:])
        host, port = parts.hostname or "", parts.port
        if not host.isascii():
            host = host.encode("idna").decode("ascii")
    except ValueError as error:
        raise BadKey(f"this is no address: {url!r}: {error}") from None
    if not parts.scheme or not host:
        raise BadKey(f"this is no address: {url!r}")
    place = f"[{host}]" if ":" in host else host
    if port is not None and port != DEFAULT_PORTS.get(parts.scheme):
        place += f":{port}"
    user = parts.netloc.rpartition("@")[0]
    place = f"{user}@{place}" if user else place
    path = quote(without_dots(parts.path), safe=KEPT_IN_PATH)
    query = "?" + quote(parts.query, safe=KEPT_IN_QUERY) if parts.query else ""
    return f"{parts.scheme}://{place}{path}{query}"


def without_dots(path: str) -> str:
    """A path without segments that mean its own folder or the one above."""
    found: List[str] = []
    segments = path.split("/")[1:] or [""]
    for segment in segments:
        if segment == "..":
            del found[-1:]
        elif segment != ".":
            found.append(segment)
    if segments[-1] in (".", ".."):
        found.append("")
    return "/" + "/".join(found)


def partition_of(scheme: str, site: str, port: Optional[int] = None) -> str:
    """The partition of pages of a site, such as `example.org`, for what is fetched by them."""
    return f"({scheme},{site})" if port is None else f"({scheme},{site},{port})"


def key_for(url: str, *, partition: Optional[str] = None, is_anonymous: bool = False,
            extra: Optional[str] = None) -> str:
    """The key of an address, in a partition or in none. `extra` keeps entries of one address apart."""
    tags = ""
    if partition:
        suffix = "^partitionKey=" + quote_plus(partition, safe="*").replace("~", "%7E")
        tags += f"O{suffix.replace(',', ',,')},"
    if is_anonymous:
        tags += "a,"
    if extra:
        tags += f"~{extra.replace(',', ',,')},"
    return f"{tags}:{address(url)}"


# ---- headers

def text_of(data: Text) -> str:
    return data if isinstance(data, str) else data.decode("latin-1")


# The names of headers are few.
@functools.lru_cache(maxsize=1024)
def is_token(name: str) -> bool:
    return TOKEN.fullmatch(name) is not None


def breaks_line(text: str) -> bool:
    return "\n" in text or "\r" in text or "\0" in text


def pairs_of(headers: Headers) -> Pairs:
    """Headers as a list of names and values, none of which breaks a line."""
    items = headers.items() if isinstance(headers, Mapping) else headers
    pairs = [(text_of(name), text_of(value).strip(" \t")) for name, value in items]
    for name, value in pairs:
        if not is_token(name) or breaks_line(value):
            raise BadElement(f"this is no header: {name!r}: {value[:100]!r}")
    return pairs


def lines(pairs: Iterable[Tuple[str, str]]) -> str:
    return "".join(f"{name}: {value}\r\n" for name, value in pairs)


def head_of(version: str, status: int, reason: str, pairs: Pairs, length: int) -> bytes:
    """The element `response-head`."""
    joined: Dict[str, Tuple[str, str]] = {}
    for name, value in pairs:
        low = name.lower()
        if low in TRANSIENT:
            continue
        if low not in joined:
            joined[low] = name, value
        elif low not in SINGLE:
            joined[low] = joined[low][0], f"{joined[low][1]}, {value}"
    joined["content-length"] = "Content-Length", str(length)
    return encoded(f"HTTP/{version} {status} {reason}\r\n{lines(joined.values())}")


def encoded(text: str) -> bytes:
    """Headers as bytes. A character that none has is sent as UTF-8."""
    try:
        return text.encode("latin-1")
    except UnicodeEncodeError:
        return text.encode("utf-8")


def vary_elements(pairs: Pairs, request_headers: Headers) -> Dict[str, bytes]:
    """The request's headers by which the response varies. A cookie is not kept, but its hash."""
    sent_pairs = pairs_of(request_headers)
    found: Dict[str, bytes] = {}
    varies = [value for name, value in pairs if name.lower() == "vary"]
    if not varies:
        return found
    asked = {name.lower(): value for name, value in sent_pairs}
    for value in varies:
        for token in filter(None, (one.strip() for one in value.split(","))):
            sent = asked.get(token.lower())
            if sent is not None and token != "*":
                hashed = base64.b64encode(hashlib.sha1(encoded(sent)).digest())
                found[f"request-{token}"] = hashed if token.lower() == "cookie" else encoded(sent)
    return found


def headers_in(data: bytes) -> StoredPairs:
    """The headers in an element."""
    found = []
    for line in data.split(b"\r\n"):
        name, colon, value = line.partition(b":")
        if colon:
            found.append((name, value.strip(b" \t")))
    return found


# ---- responses

class StatusLine(NamedTuple):
    version: str
    status: int
    reason: str


# The first lines of responses are few.
@functools.lru_cache(maxsize=256)
def status_line(line: bytes) -> Optional[StatusLine]:
    """What the first line of a head says, or None where it is none."""
    told = STATUS_LINE.fullmatch(line.decode("latin-1"))
    return StatusLine(told[1], int(told[2]), told[3] or "") if told else None


@dataclasses.dataclass
class Head:
    """All of a response but its body, ready to be stored."""
    version: str
    status: int
    reason: str
    pairs: Pairs
    elements: Dict[str, Union[str, bytes]]

    def line(self, length: int) -> bytes:
        return head_of(self.version, self.status, self.reason, self.pairs, length)

    def with_length(self, length: int) -> Dict[str, Union[str, bytes]]:
        return {**self.elements, HEAD: self.line(length), ORIGINAL: encoded(lines(self.pairs))}


def made_head(status: int, headers: Headers, *, method: str = "GET", reason: str = "OK", version: str = "1.1",
              request_headers: Headers = (), security_info: Optional[Text] = None,
              elements: Optional[Mapping[str, Text]] = None) -> Head:
    """The head of a response, of which `store` says what the words mean."""
    if not 100 <= status <= 999 or breaks_line(reason + version + method):
        raise BadElement(f"this is no response: {version!r} {status} {reason!r} to {method!r}")
    pairs = pairs_of(headers)
    made: Dict[str, Union[str, bytes]] = dict(elements or {})
    if security_info is not None:
        made[SECURITY] = security_info
    made[METHOD] = method
    made.update(vary_elements(pairs, request_headers))
    return Head(version, status, reason, pairs, made)


def store(cache: Cache, url: str, status: int, headers: Headers, body: Union[Bytes, BinaryIO], *,
          key: Optional[Key] = None, method: str = "GET", reason: str = "OK", version: str = "1.1",
          request_headers: Headers = (), security_info: Optional[Text] = None,
          elements: Optional[Mapping[str, Text]] = None) -> None:
    """Stores a response under the key of its address, or another. Of one that is too large nothing is left there.

    The request's headers are wanted where the response varies by them. Firefox serves a response to https only with the
    `security_info` of its site, which is taken from an entry that Firefox has made.
    """
    name = key_for(url) if key is None else key
    head = made_head(status, headers, method=method, reason=reason, version=version, request_headers=request_headers,
                     security_info=security_info, elements=elements)
    try:
        if isinstance(body, (bytes, bytearray, memoryview)):
            cache.put(name, body, head.with_length(memoryview(body).nbytes))
        else:
            store_file(cache, name, head, body)
    except TooLarge:
        # What is stored there is not the response that was given now.
        cache.doom(name)
        raise


def store_file(cache: Cache, name: Key, head: Head, file: BinaryIO) -> None:
    """Stores a response whose body is read from a file. Its length is known at the end."""
    known = length_of(file)
    piece = file.read(MAX_PIECE)
    with cache.create(name, head.with_length(known or 0)) as writer:
        while piece:
            writer.write(piece)
            piece = file.read(MAX_PIECE)
        if writer.length != known:
            writer.set(HEAD, head.line(writer.length))


def head_in(entry: Entry) -> Tuple[StatusLine, bytes]:
    """The first line of the response in an entry, and the element with its headers."""
    first, _, others = entry.elements.get(HEAD, b"").partition(b"\r\n")
    line = status_line(first)
    if not line:
        entry.close()
        raise NotAResponse(f"the entry of {entry.key} has no response in it")
    return line, entry.elements.get(ORIGINAL, others)


def response_of(entry: Entry) -> Response:
    """The response in an entry."""
    line, head = head_in(entry)
    pairs = [(text_of(name), text_of(value)) for name, value in headers_in(head)]
    method = entry.elements.get(METHOD, b"GET").decode("latin-1")
    return Response(line.status, line.reason, line.version, pairs, method, entry.length, entry.body, entry)


def read(cache: Cache, url: str, *, key: Optional[Key] = None) -> Response:
    """The response that is stored under the key of an address, or another."""
    name = key_for(url) if key is None else key
    return response_of(cache.get(name, only_main=True))
