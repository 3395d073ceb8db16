#!/usr/bin/python3
"""pipe.py PROGRAM [ROUNDS]

What the pipe and the client cost beside the program itself: processor time of both processes for a `get` and a `put` of
entries of several sizes, against that of the program with a script from a file, and for a body of 50 MiB. Of ROUNDS
rounds the least counts. It prints a table, draws pipe.svg beside this file, and its status is 1 where a goal is missed.
"""
import math
import os
import resource
import subprocess
import sys
import tempfile
import time

HERE = os.path.dirname(os.path.realpath(__file__))
sys.path[:0] = [os.path.dirname(HERE), os.path.join(HERE, "..", "..", "bench")]
sys.dont_write_bytecode = True
import cache2  # noqa: E402
from plot import COLOURS, line, text  # noqa: E402

SIZES = (0, 1 << 10, 1 << 14, 1 << 17, 1 << 20)
GETS, PUTS = 600, 60
GOAL_SIZE, GOAL_MICROSECONDS = 1 << 14, 100
LONG, GOAL_RATIO = 50 << 20, 1.5
KEY = ":https://example.com/%d"
WIDTH, LEFT, RIGHT, HEIGHT = 640, 60, 190, 220


def seconds_of(work):
    """The processor time of this process and of the programs that ended in the meantime, and the time that passed."""
    def used():
        own, others = resource.getrusage(resource.RUSAGE_SELF), resource.getrusage(resource.RUSAGE_CHILDREN)
        return own.ru_utime + own.ru_stime, others.ru_utime + others.ru_stime
    begun, (own, others) = time.monotonic(), used()
    work()
    own_after, others_after = used()
    return own_after - own, others_after - others, time.monotonic() - begun


def by_client(program, folder, call, count):
    """Seconds of both processes for so many calls, but those of opening and closing."""
    def run(calls):
        with cache2.open(folder, program=program, flush_every=None) as cache:
            for number in range(calls):
                call(cache, number)
    return sum(seconds_of(lambda: run(count))[:2]) - sum(seconds_of(lambda: run(0))[:2])


def by_script(program, folder, script):
    """Seconds of the program for a script from a file, but those of opening and closing. It prints into a pipe."""
    def run(data):
        with tempfile.TemporaryFile() as file:
            file.write(data)
            file.seek(0)
            child = subprocess.Popen([program, folder, "1000", "run"], stdin=file, stdout=subprocess.PIPE, bufsize=0)
            buffer = bytearray(1 << 18)
            while child.stdout.readinto(buffer):
                pass
            child.stdout.close()
            _, status, usage = os.wait4(child.pid, 0)
            child.returncode = os.waitstatus_to_exitcode(status)
            assert child.returncode == 0
            return usage.ru_utime + usage.ru_stime
    return run(script) - run(b"")


def put_script(size, count):
    parts = []
    for number in range(count):
        parts.append(b"create 0 %s\n" % (KEY % number).encode())
        if size:
            parts.append(b"append 0 %d\n%s\n" % (size, bytes(size)))
        parts.append(b"close 0\n")
    return b"".join(parts)


def microseconds(program, room, rounds):
    """By sizes, the least of each: get and put by the client, and by a script."""
    found = {}
    for size in SIZES:
        gets, puts = (GETS, PUTS) if size < 1 << 17 else (GETS // 10, PUTS // 10)
        folder, body = os.path.join(room, f"c{size}"), bytes(size)
        with cache2.open(folder, program=program) as cache:
            cache.put(KEY % 0, body)
        script = b"get %s\n" % (KEY % 0).encode() * gets
        times = [(by_client(program, folder, lambda cache, number: cache.get(KEY % 0).read(), gets) / gets,
                  by_script(program, folder, script) / gets,
                  by_client(program, folder, lambda cache, number: cache.put(KEY % number, body), puts) / puts,
                  by_script(program, folder, put_script(size, puts)) / puts) for _ in range(rounds)]
        found[size] = [1e6 * min(column) for column in zip(*times)]
    return found


def long_body(program, room, rounds):
    """The least seconds of processor time and of time for a body of 50 MiB: by the client, and by the program alone."""
    path, folder = os.path.join(room, "body"), os.path.join(room, "long")
    with open(path, "wb") as file:
        for _ in range(50):
            file.write(os.urandom(1 << 20))

    def client():
        with cache2.open(folder, program=program) as cache:
            with open(path, "rb") as file:
                cache.put(KEY % 0, file)
            entry, buffer = cache.get(KEY % 0), bytearray(1 << 18)
            while entry.body.readinto(buffer):
                pass

    def alone():
        words = [program, folder, "1000"]
        with open(path, "rb") as file:
            subprocess.run([*words, "put", KEY % 0], stdin=file, stdout=subprocess.DEVNULL, check=True)
        subprocess.run([*words, "get", KEY % 0], stdout=subprocess.DEVNULL, check=True)
    rows = {}
    for name, work in (("client", client), ("alone", alone)):
        times = [seconds_of(work) for _ in range(rounds)]
        rows[name] = min(own + others for own, others, _ in times), min(passed for *_, passed in times)
    return rows


def draw(found, path):
    """A line over the sizes for each of the four, both scales by powers of ten."""
    names = ("get, client", "get, program alone", "put, client", "put, program alone")
    top, bottom, powers = 30, 30 + HEIGHT, range(1, 5)

    def place(size, value):
        share = (math.log10(max(value, 10)) - powers[0]) / (powers[-1] - powers[0])
        return LEFT + (WIDTH - LEFT - RIGHT) * SIZES.index(size) / (len(SIZES) - 1), bottom - HEIGHT * share
    parts = [text(8, 16, "microseconds of processor time of one call, over the size of the body")]
    for power in powers:
        y = place(0, 10 ** power)[1]
        parts += [line(LEFT, y, WIDTH - RIGHT, y), text(LEFT - 8, y + 4, f"{10 ** power:,}", "end")]
    for size in SIZES:
        x = place(size, 1)[0]
        parts += [line(x, top, x, bottom), text(x, bottom + 16, f"{size >> 10:,} KiB" if size else "0", "middle")]
    below = 0
    for at, name in sorted(enumerate(names), key=lambda one: -found[SIZES[-1]][one[0]]):
        points = [place(size, values[at]) for size, values in found.items()]
        joined = " ".join(f"{x:.1f},{y:.1f}" for x, y in points)
        parts.append(f'<polyline points="{joined}" fill="none" stroke="{COLOURS[at]}" stroke-width="2"/>')
        below = max(below + 14, points[-1][1] + 4)
        parts.append(text(points[-1][0] + 8, below, name, colour=COLOURS[at]))
    with open(path, "w", encoding="utf-8") as file:
        file.write(f'<svg xmlns="http://www.w3.org/2000/svg" viewBox="0 0 {WIDTH} {bottom + 30}" width="{WIDTH}"'
                   ' font-family="sans-serif" font-size="12">\n<title>The cost of the pipe, drawn by '
                   'python/bench/pipe.py</title>\n' + "\n".join([*parts, "</svg>", ""]))


def main():
    program, rounds = os.path.realpath(sys.argv[1]), int(sys.argv[2]) if len(sys.argv) > 2 else 5
    print(f"load {os.getloadavg()[0]:.1f}, least of {rounds} rounds; microseconds of processor time a call")
    with tempfile.TemporaryDirectory() as room:
        found = microseconds(program, room, rounds)
        print(f"{'bytes':>9}{'get, client':>14}{'get, alone':>13}{'put, client':>14}{'put, alone':>13}")
        for size, values in found.items():
            print(f"{size:>9}{values[0]:>14.1f}{values[1]:>13.1f}{values[2]:>14.1f}{values[3]:>13.1f}")
        rows = long_body(program, room, rounds)
    more = found[GOAL_SIZE][0] - found[GOAL_SIZE][1]
    print(f"a get of {GOAL_SIZE} bytes: {more:.1f} beside the program's own, to be at most {GOAL_MICROSECONDS}")
    (busy, passed), (own_busy, own_passed) = rows["client"], rows["alone"]
    print(f"50 MiB put and got, seconds of processor time: {busy:.3f}, alone {own_busy:.3f}, "
          f"ratio {busy / own_busy:.2f}, to be at most {GOAL_RATIO}")
    print(f"50 MiB put and got, seconds: {passed:.3f}, alone {own_passed:.3f}")
    draw(found, os.path.join(HERE, "pipe.svg"))
    sys.exit(0 if more <= GOAL_MICROSECONDS and busy / own_busy <= GOAL_RATIO else 1)


if __name__ == "__main__":
    main()
