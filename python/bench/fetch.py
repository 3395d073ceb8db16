#!/usr/bin/python3
"""fetch.py URL FOLDER LOG CACHE

Fetches a site of small_site.py by requests with CacheControl, whose CACHE is FileCache or cache2. LOG gets a line for
each response, as by crawl.py.
"""
import hashlib
import re
import sys

import cachecontrol
import requests

LINK = re.compile(rb'href="([^"]+)"')


def fetch_all(url, cache, log):
    with cachecontrol.CacheControl(requests.Session(), cache=cache) as session:
        paths, seen = ["/p/0"], {"/p/0"}
        while paths:
            path = paths.pop()
            response = session.get(url + path)
            came = "cached" if response.from_cache else "fetched"
            log.write(f"{path} {hashlib.sha256(response.content).hexdigest()} {came}\n")
            found = LINK.findall(response.content) if response.headers["Content-Type"].startswith("text/html") else []
            new = [one.decode() for one in found if one.decode() not in seen]
            seen.update(new)
            paths += new


def main():
    url, folder, log_path, name = sys.argv[1:]
    with open(log_path, "w", encoding="ascii") as log:
        if name == "FileCache":
            from cachecontrol.caches import FileCache
            fetch_all(url, FileCache(folder), log)
        else:
            import cache2
            from cache2.cachecontrol import Cache
            with cache2.open(folder) as store:
                fetch_all(url, Cache(store), log)


if __name__ == "__main__":
    main()
