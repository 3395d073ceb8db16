"""Made-up caches for the tests of the page, and for its picture."""
import random

from cachelib.entries import NO_EXPIRATION
from support import elements_with

DAY = 86400
SECRET = b"a-body-that-no-page-may-show"
# Keys of dumps are well formed, whatever stands in their addresses and tags.
HOSTILE = (
    b":https://a.example/<script>window.hit=1</script>",
    b":https://a.example/</script><script>window.hit=2</script>",
    b":https://a.example/&<img src=x onerror=window.hit=3>",
    b":https://<img src=x onerror=window.hit=4>/x",
    b"O^partitionKey=%28https%2C<svg onload=window.hit=5>%29,:https://b.example/\xff\xfe\x01",
    b"O^userContextId=%3Cimg src=x onerror=window.hit=6%3E%E2%80%AE,:https://c.example/",
    b":https://c.example/&lt;img src=x onerror=window.hit=7&gt;",
    b":https://c.example/<!--<script>",
    b":https://c.example/\xe2\x80\xae\xe2\x80\xa8turned",
    b":https://c.example/@DATA@@SCRIPTS@ \\u003c ${window.hit=8} {{1}}",
    b":\"'><a href=javascript:window.hit=9>",
    b"~<b>x</b>,,y,:",
    b":https://long.example/" + b"<i>" * 5000,
    b":https://[::1/<i>",
    b":" + b"<u>\\" * 4,
)


def hostile_entries():
    """Entries whose keys, types and headers are HTML, scripts and commands."""
    for number, key in enumerate(HOSTILE):
        numbers = (number, 0 if number % 2 else 0xFFFFFFFF, 0xFFFFFFFF, 0, (0, NO_EXPIRATION, 0xFFFFFFFE)[number % 3])
        kind = b"<img src=x onerror=window.hit=10>%d" % number
        yield key, SECRET, numbers, elements_with(kind,
                                                  b"X: <img src=x onerror=window.hit=11>\xff") if number % 3 else b""


def few_entries(now):
    """Three entries of one site, by which sorting and searching is seen."""
    fruits = ((b"apple", 3000, 2, b"text/css; charset=utf-8"), (b"pear", 20, 400, b"image/png"),
              (b"plum", 100000, 40, b"text/css"))
    for name, size, age, kind in fruits:
        key = b"O^partitionKey=%28https%2Cexample.org%29,:https://example.com/" + name
        moment = now - age * DAY
        yield key, b"x" * size, (3, moment, moment, moment, NO_EXPIRATION), elements_with(kind)


def apart_entries(now):
    """Entries of one host that its scheme, its port and the pages tell apart, and of another host."""
    for number, key in enumerate((
            b":https://example.com/a", b":http://example.com/b", b":https://example.com:8443/c",
            b"O^partitionKey=%28https%2Cexample.org%29,:https://example.com/d",
            b"O^partitionKey=%28http%2Cexample.org%29,:https://example.com/e",
            b"O^partitionKey=%28https%2Cexample.org%2C8443%29,:https://example.com/f",
            b"O^partitionKey=%28https%2Cexample.org%2Cf%29,:https://example.com/g", b":https://example.net/h")):
        yield key, b"x" * (1000 - number), (1, now, now, now, 0), elements_with(b"image/png")


SITES = ("www.example.org", "images.example.org", "news.example.com", "cdn.example.net", "fonts.example.net",
         "shop.example.com", "maps.example.org", "video.example.net", "wiki.example.org", "blog.example.com",
         "docs.example.net", "music.example.org")
KINDS = (("text/html", "", 9000), ("text/css", ".css", 6000), ("text/javascript", ".js", 20000),
         ("image/jpeg", ".jpg", 40000),
         ("image/webp", ".webp", 26000), ("image/png", ".png", 12000), ("font/woff2", ".woff2", 18000),
         ("application/json", ".json", 3000), ("image/svg+xml", ".svg", 2500), ("video/mp4", ".mp4", 120000),
         ("text/plain", ".txt", 400))


def many_entries(now, count, share=1.0):
    """As many entries of made-up sites, always the same but for their moments. `share` makes their bodies shorter."""
    chance = random.Random(41)
    for number in range(count):
        site = chance.choices(SITES, [40 // (place + 1) for place in range(len(SITES))])[0]
        kind, end, size = chance.choices(KINDS, (8, 9, 14, 22, 16, 12, 5, 9, 6, 1, 2))[0]
        party = chance.choice(("example.org", "example.org", "example.com", "example.net"))
        moment = now - int(min(chance.expovariate(1 / (20 * DAY)), 500 * DAY))
        expires = chance.choice((moment + 30 * DAY, moment + 365 * DAY, NO_EXPIRATION))
        numbers = (chance.randint(1, 30), moment, moment - chance.randint(0, 5 * DAY), 1, expires)
        folder = chance.choice(("assets", "img", "2026/11", "article"))
        word = chance.choice(("garden", "river", "main", "logo", "theme", "update", "chunk", "photo"))
        key = f"O^partitionKey=%28https%2C{party}%29,:https://{site}/{folder}/{word}-{number}{end}"
        body = b"\0" * int(min(chance.lognormvariate(0, 1.2) * size, 2500000) * share)
        yield key.encode(), body, numbers, elements_with(kind.encode())
