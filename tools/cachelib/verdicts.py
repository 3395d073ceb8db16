"""What is said of entries elsewhere: the findings of `verify`, and what `import --report` left out."""
import re

from cachelib.output import Refused

FINDING = re.compile(r"([0-9A-F]{40}) "
                     r"(?:(unfit) ([a-z-]+)|(damaged) (\d+) [0-9A-F]{4} [0-9A-F]{4}|(missing)|(extra)|(differs))")
LEFT_OUT = re.compile(r"import: ([0-9A-F]{40}): (.+)")
COUNTS = re.compile(r"import: taken \d+, with bodies of \d+ bytes; left out (\d+)(?:: .*)?")
SAYS = {
    "damaged": "Part {} of its content, of 262,144 bytes each, is not what was written.",
    "missing": "The cache's index does not have it.",
    "extra": "The cache's index has it, but no file that can be read.",
    "differs": "The cache's index and its file disagree.",
}


def lines_of(path):
    """The lines of a file, of which the last one is ended."""
    with open(path, encoding="utf-8", errors="replace") as file:
        *lines, rest = file.read().split("\n")
    return lines if not rest else []


def finding_in(line):
    """The name in the line of a finding, and what it says in words; or None."""
    found = FINDING.fullmatch(line)
    if not found:
        return None
    name, unfit, check, damaged, chunk, *others = found.groups()
    if unfit:
        return [name, f"Its file cannot be read as an entry ({check})."]
    return [name, SAYS[damaged or next(filter(None, others))].format(int(chunk or 0) + 1)]


def read_findings(path):
    """The findings in a file of what `verify` printed, each with its name and what it says."""
    first, *lines = lines_of(path) or [""]
    findings = [finding_in(line) for line in lines]
    if first != f"findings {len(findings)}" or None in findings:
        raise Refused(f"{path}: this is not what verify prints")
    return findings


def read_left_out(path):
    """The files in what `import --report` said, each with its name and why."""
    *lines, last = lines_of(path) or [""]
    found = [LEFT_OUT.fullmatch(line) for line in lines]
    counts = COUNTS.fullmatch(last)
    if not counts or None in found or int(counts[1]) != len(found):
        raise Refused(f"{path}: this is not what import --report says")
    return [[one[1], one[2]] for one in found]
