"""The sessions in documents, and what they quote of the code.

A session is a block that is set in by four spaces and has lines that begin with '$ ': commands of a shell. What follows
a command, up to the next one, is what it prints; '> ' begins a command's further lines. 'Killed' is a word of the shell
and is not compared. The sessions of a document run one after another in one shell, in an empty folder that has what
they use beside it, and its own /tmp. A quote of the code is any other block that is so set in and begins as code
does."""
import os
import re
import subprocess

MARK = "-- the next command --"
# How a line begins that looks like a command.
COMMAND = re.compile(r"\s*\$ ")
# How a block begins that quotes a function, a definition, a proof or a wrong body.
QUOTED = re.compile("(pub|abbrev|use|file:|///) |pub\\(")


def steps_in(text):
    """The commands of a document in order, each with its line's number and what it is to print. And the numbers of
    lines that look like commands and are in no session.
    """
    steps, strays = [], []
    open_step = None
    for number, line in enumerate(text.splitlines(), 1):
        if line.startswith("    $ "):
            open_step = (number, [line[6:]], [])
            steps.append(open_step)
        elif open_step and line.startswith("    > ") and not open_step[2]:
            open_step[1].append(line[6:])
        elif open_step and line.startswith("    "):
            open_step[2].append(line[4:])
        elif open_step and line == "":
            open_step[2].append("")
        else:
            open_step = None
            if COMMAND.match(line):
                strays.append(number)
    return steps, strays


def quotes_in(text):
    """The blocks that quote the code, each with its line's number and its lines, which are not set in."""
    quotes, block = [], None
    for number, line in enumerate(text.splitlines() + ["the end"], 1):
        if line.startswith("    ") or (block and not line):
            block = block or (number, [])
            block[1].append(line.strip())
        elif block:
            if QUOTED.match(block[1][0]):
                quotes.append((block[0], "\n".join(block[1]).strip()))
            block = None
    return quotes


def code_below(root):
    """All lines of the code, which are not set in, with a line's end before and after each."""
    lines = [""]
    for folder, _, names in os.walk(os.path.join(root, "crates")):
        for name in names:
            if name.endswith((".rt", ".antt", ".edit")):
                with open(os.path.join(folder, name), encoding="utf-8") as file:
                    lines += [line.strip() for line in file]
    return "\n".join(lines + [""])


def run_all(steps, room, **environment):
    """What each command printed that ran to its end, and then what came after these."""
    script = "".join(f"{chr(10).join(command)}\necho; echo '{MARK}'\n" for _, command, _ in steps)
    script = script.replace("/tmp/", f"{room}/tmp/")
    # A `cd -` goes back within the session alone.
    words = {name: value for name, value in os.environ.items() if name != "OLDPWD"}
    ran = subprocess.run(["bash", "-c", script], cwd=room, text=True, timeout=120, check=False,
                         stdin=subprocess.DEVNULL, stdout=subprocess.PIPE, stderr=subprocess.DEVNULL,
                         env={**words, "HOME": room, **environment})
    return ran.stdout.split(MARK + "\n")


def tidy(lines):
    return "\n".join(line for line in lines if line != "Killed").rstrip("\n")


def faults_of(steps, printed, room):
    """A line for each command that printed something else than it is to print, or did not run to its end."""
    faults = []
    for at, (number, command, wanted) in enumerate(steps):
        found = tidy(re.sub(r"\n$", "", printed[at]).replace(room, "").split("\n"))
        if at + 1 >= len(printed):
            return [*faults,
                    f"line {number}: {command[0]}: it did not run to its end, nor those after it; it printed {found!r}"]
        if tidy(wanted) != found:
            faults.append(f"line {number}: {command[0]}: wanted {tidy(wanted)!r}, found {found!r}")
    if len(printed) != len(steps) + 1:
        faults.append(f"{len(printed) - 1} commands ended, of {len(steps)}")
    return faults


def faults_in(text, room, **environment):
    """The faults of a document whose sessions run in this folder, which has a `tmp`."""
    steps, strays = steps_in(text)
    faults = [f"line {number}: a command that is not set in by four spaces, and so is not run" for number in strays]
    return faults + (faults_of(steps, run_all(steps, room, **environment), room) if steps else [])
