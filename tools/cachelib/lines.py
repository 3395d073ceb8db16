"""Entries as lines: as a table, separated by tabs, as CSV, or as JSON. No text of an entry breaks a line or reaches a
terminal raw."""
import csv
import datetime
import io
import json

from cachelib.listing import UTC
from cachelib.keys import shown

HEADS = ("size", "type", "status", "used", "url", "partition", "name", "key")
# A spreadsheet takes a cell that begins so for a formula.
FORMULA = ("=", "+", "-", "@")


def time_of(seconds, form="%Y-%m-%dT%H:%M:%SZ"):
    """A moment in UTC, or no text where there was none."""
    return datetime.datetime.fromtimestamp(seconds, UTC).strftime(form) if seconds else ""


def cells(listed):
    """The texts of an entry in the order of HEADS."""
    return (str(listed.size), listed.type, str(listed.status or ""), time_of(listed.used), listed.url, listed.partition,
            listed.name, shown(listed.key))


def as_tabs(listed):
    return "\t".join(cells(listed))


def as_csv(row):
    """A line of CSV. What a spreadsheet would take for a formula has an apostrophe before it."""
    out = io.StringIO()
    csv.writer(out, lineterminator="").writerow("'" + cell if cell.startswith(FORMULA) else cell for cell in row)
    return out.getvalue()


def as_json(listed):
    """A line of JSON in ASCII. A key that is no UTF-8 has its bytes as digits instead."""
    try:
        key = {"key": listed.key.decode()}
    except UnicodeDecodeError:
        key = {"key_hex": listed.key.hex()}
    return json.dumps({
        "name": listed.name, **key, "url": listed.url, "partition": listed.partition, "host": listed.host,
        "size": listed.size,
        "type": listed.type, "status": listed.status, "method": listed.method, "encoding": listed.encoding,
        "alternative_size": listed.alternative, "alternative_kind": listed.kind, "uses": listed.uses,
        "used": time_of(listed.used) or None, "changed": time_of(listed.changed) or None,
        "expires": None if listed.expires is None else time_of(listed.expires) or "at once",
        "pinned": listed.is_pinned, "version": listed.version})


def size_says(size):
    """A size in three digits and a unit."""
    if size < 1000:
        return f"{size} B"
    value = float(size)
    for unit in ("kB", "MB", "GB", "TB"):
        value /= 1000
        if value < 999.5:
            break
    return f"{value:.1f} {unit}" if value < 9.95 else f"{value:.0f} {unit}"


def cut(text, width):
    return text if len(text) <= width else text[:width - 1] + "…"


def as_table(listed, width, is_long):
    """A line of a table. It is cut to the width, but for the file's name and the key at the end of a long one."""
    place = f"{listed.url}  [{listed.partition}]" if listed.partition else listed.url
    front = (f"{size_says(listed.size):>7}  {cut(listed.type, 24):24}  {listed.status or '':>3}  "
             f"{time_of(listed.used, '%Y-%m-%d %H:%M'):16}  ")
    return f"{front}{listed.name}  {shown(listed.key)}" if is_long else front + cut(place, max(16, width - len(front)))


def table_head(is_long):
    place = f"{'NAME':40}  KEY" if is_long else "URL"
    return f"{'SIZE':>7}  {'TYPE':24}  {'':>3}  {'LAST USED':16}  {place}"
