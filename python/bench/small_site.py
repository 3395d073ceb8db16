#!/usr/bin/python3
"""A site on this machine, of pages and images whose bodies follow from their addresses.

Run as a program it prints the port, and serves until its standard input ends. `/asked` tells how many other paths were
asked for.
"""
import hashlib
import random
import sys
import threading
from http.server import BaseHTTPRequestHandler, ThreadingHTTPServer

# One image for so many pages.
PAGES_AN_IMAGE = 4


def page_body(number, pages):
    """A page with links to two others, so that all are found from the first, and to an image."""
    links = [f"/p/{other}" for other in (2 * number + 1, 2 * number + 2) if other < pages]
    links.append(f"/i/{number // PAGES_AN_IMAGE}.png")
    text = random.Random(number).randbytes(2000 + number % 50 * 150).hex()
    head = f"<!DOCTYPE html><title>{number}</title>" + "".join(f'<a href="{one}">x</a>' for one in links)
    return (head + text).encode()


def image_body(number):
    return random.Random(-1 - number).randbytes(2000 + number % 40 * 2000)


def body_of(path, pages):
    """The body and the type of what stands under a path."""
    kind, _, rest = path[1:].partition("/")
    if kind == "p":
        return page_body(int(rest), pages), "text/html; charset=utf-8"
    return image_body(int(rest.partition(".")[0])), "image/png"


def paths(pages):
    """All paths of a site of so many pages."""
    images = (pages - 1) // PAGES_AN_IMAGE + 1
    return [f"/p/{number}" for number in range(pages)] + [f"/i/{number}.png" for number in range(images)]


def digests(pages):
    return {path: hashlib.sha256(body_of(path, pages)[0]).hexdigest() for path in paths(pages)}


class Site(ThreadingHTTPServer):
    """Serves so many pages. `asked` counts what was asked for."""
    daemon_threads = True

    def __init__(self, pages):
        self.pages = pages
        self.asked = 0
        self.bodies = {path: body_of(path, pages) for path in paths(pages)}
        super().__init__(("127.0.0.1", 0), Handler)
        threading.Thread(target=self.serve_forever, daemon=True).start()

    @property
    def url(self):
        return f"http://127.0.0.1:{self.server_port}"


class Handler(BaseHTTPRequestHandler):
    protocol_version = "HTTP/1.1"
    # Head and body go out at once.
    wbufsize = -1

    def do_GET(self):
        if self.path == "/asked":
            body, kind = str(self.server.asked).encode(), "text/plain"
        else:
            self.server.asked += 1
            body, kind = self.server.bodies.get(self.path, (b"", "text/plain"))
        self.send_response(200)
        self.send_header("Content-Type", kind)
        self.send_header("Content-Length", str(len(body)))
        self.send_header("Cache-Control", "max-age=1000000")
        self.send_header("Set-Cookie", "a=1")
        self.send_header("Set-Cookie", "b=2")
        self.end_headers()
        self.wfile.write(body)

    def log_message(self, *_):
        pass


def main():
    site = Site(int(sys.argv[1]))
    print(site.server_port, flush=True)
    sys.stdin.read()


if __name__ == "__main__":
    main()
