"""The sessions of the documents, those at the top and those in docs/, run with the program that is tried, and what they
quote of the code. And that each fault of a session or of a quote is seen."""
import os

import pytest

from sessions import code_below, faults_in, quotes_in
from support import TOOLS, text_of

ROOT = os.path.dirname(TOOLS)
DOCS = [os.path.join(folder, name) for folder in ("", "docs") for name in sorted(os.listdir(os.path.join(ROOT, folder)))
        if name.endswith(".md")]
TEXTS = {doc: text_of(os.path.join(ROOT, doc)) for doc in DOCS}
QUOTES = [(doc, number, quote) for doc in DOCS for number, quote in quotes_in(TEXTS[doc])]


@pytest.fixture
def place(tmp_path):
    """A folder with a `tmp`, for the sessions of a document."""
    (tmp_path / "tmp").mkdir()
    return tmp_path


@pytest.mark.parametrize("doc", DOCS)
def test_sessions(doc, program, place):
    for name, there in (("cache2", program.path), ("tools", TOOLS), ("python", os.path.join(ROOT, "python"))):
        (place / name).symlink_to(there)
    assert faults_in(TEXTS[doc], str(place)) == []


@pytest.fixture(scope="module")
def code():
    return code_below(ROOT)


@pytest.mark.parametrize("quote", [pytest.param(quote, id=f"{doc}:{number}") for doc, number, quote in QUOTES])
def test_quotes(quote, code):
    assert f"\n{quote}\n" in code


@pytest.mark.parametrize("lines, faults", [
    (("$ echo a", "a", "$ echo b", "b"), []),
    (("$ echo a", "a", "$ echo b", "c"), ["line 3: echo b: wanted 'c', found 'b'"]),
    (("$ echo a", "a", "$ exit 0", "$ echo b", "c"),
     ["line 3: exit 0: it did not run to its end, nor those after it; it printed ''"]),
    (("$ if true; then", "$ echo b", "b"),
     ["line 1: if true; then: it did not run to its end, nor those after it; it printed ''"]),
])
def test_faults_of_a_session(place, lines, faults):
    assert faults_in("".join(f"    {line}\n" for line in lines), str(place)) == faults


def test_a_command_that_is_set_in_further(place):
    assert faults_in("- so:\n      $ echo b\n      b\n", str(place)) == [
        "line 2: a command that is not set in by four spaces, and so is not run"]


@pytest.mark.parametrize("lines, is_there", [
    (("pub fn one() {", "1", "}"), True), (("pub fn one() {", "2", "}"), False), (("pub fn one()",), False)])
def test_quotes_of_other_code(tmp_path, lines, is_there):
    (tmp_path / "crates").mkdir()
    (tmp_path / "crates/lib.rt").write_text("    pub fn one() {\n        1\n    }\n")
    (number, quote), = quotes_in("".join(f"    {line}\n" for line in lines))
    assert (number, f"\n{quote}\n" in code_below(tmp_path)) == (1, is_there)
