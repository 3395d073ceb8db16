"""Runs programs, and tells what that cost: processor time of user and system, and the peak of the memory.

Where the machine has other work the least time of many runs says most of the program, and the median more of that
work."""
import os
import re
import shutil
import statistics
import subprocess
import sys

# Calls that make a folder, sync, rename or remove.
CALLS = "mkdir,fsync,fdatasync,rename,unlink"


def run(command, source="/dev/null", is_piped=False):
    """The processor seconds of one run with the file `source` as its standard input. What it prints goes nowhere, or
    where it is piped into a pipe that is read as it comes."""
    drain = subprocess.Popen(["cat"], stdin=subprocess.PIPE, stdout=subprocess.DEVNULL) if is_piped else None
    with open(source, "rb") as body:
        child = subprocess.Popen(command, stdin=body, stdout=drain.stdin if drain else subprocess.DEVNULL)
        _, status, usage = os.wait4(child.pid, 0)
    if drain:
        drain.communicate()
    child.returncode = os.waitstatus_to_exitcode(status)
    if child.returncode != 0:
        sys.exit(f"{command}: status {child.returncode}")
    return usage.ru_utime + usage.ru_stime


def in_turn(runs, each, once):
    """What `once` gives of each of these by its name, which come in turn, so many times."""
    times = {name: [] for name in each}
    for _ in range(runs):
        for name, one in each.items():
            times[name].append(once(one))
    return times


def medians(times):
    return {name: statistics.median(seconds) for name, seconds in times.items()}


def peak(measure, command, source="/dev/null"):
    """The peak of the memory of one run, in bytes, by the program `measure` (peak.c)."""
    with open(source, "rb") as body:
        told = subprocess.run([measure, *command], stdin=body, stdout=subprocess.DEVNULL, stderr=subprocess.PIPE,
                              check=True)
    return 1024 * int(told.stderr)


def print_times(times, goal):
    """A table of them, and whether the first takes at most `goal` times as long as the second, by the least of each."""
    least = {name: min(seconds) for name, seconds in times.items()}
    first, *others = least
    second = others[0] if others else first
    print(f"{'program':<10}{'least ms':>10}{'median ms':>11}{'ratio':>8}")
    for name, median in medians(times).items():
        print(f"{name:<10}{1e3 * least[name]:>10.3f}{1e3 * median:>11.3f}{least[name] / least[second]:>8.2f}")
    ratio = least[first] / least[second]
    if goal:
        print(f"ratio {first}/{second}: {ratio:.2f}, which is to be at most {goal:g}")
    sys.stdout.flush()
    return not goal or ratio <= goal


def is_within(what, found, most):
    print(f"{what}: {found:.0f}, which is to be at most {most}")
    return found <= most


# ---- what runs print and leave

def copy_of(folder, to):
    shutil.rmtree(to, ignore_errors=True)
    return shutil.copytree(folder, to)


def files_in(folder):
    found = {}
    for place, _, names in os.walk(folder):
        for name in names:
            with open(os.path.join(place, name), "rb") as file:
                found[os.path.relpath(file.name, folder)] = file.read()
    return found


def may_watch():
    """Whether a program may be watched here."""
    try:
        return subprocess.run(["strace", "-o", os.devnull, "true"], stderr=subprocess.DEVNULL,
                              check=False).returncode == 0
    except FileNotFoundError:
        return False


def told_by(program, words, folder, source, calls=None):
    """What the program prints, the files that it leaves in the folder, and the calls that change something and succeed,
    where a file for them is given. The numbers of open files are nobody's concern."""
    before = ["strace", "-y", "-o", calls, "-e", f"trace={CALLS}"] if calls else []
    with open(source, "rb") as given:
        reply = subprocess.run([*before, program, folder, *words], stdin=given, stdout=subprocess.PIPE,
                               check=True).stdout
    if not calls:
        return reply, files_in(folder)
    with open(calls, encoding="utf-8", errors="replace") as lines:
        kept = [re.sub(r"\(\d+<", "(<", line) for line in lines if " = -1 " not in line and not line.startswith("+++")]
    return reply, files_in(folder), kept
