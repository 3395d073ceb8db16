"""The page of tools/report in a Firefox: it is searched, sorted, filtered by clicks on bars, opened line by line and
saved as CSV."""
import csv
import os
import shlex
import subprocess
import tempfile
import time

import pytest

from browser import Browser
from cachelib.keys import shown
from sites import HOSTILE, apart_entries, few_entries, hostile_entries, many_entries
from support import NUMBERS, TOOLS, dump_of, elements_with, name_in, run_tool
from test_report import PNG, SHOWN

NOW = int(time.time())
APPLE, PEAR, PLUM = (f"https://example.com/{fruit}" for fruit in ("apple", "pear", "plum"))
KEY = "O^partitionKey=%28https%2Cexample.org%29,:"
UNFOLD = "document.querySelectorAll('details').forEach(one => { one.open = true })"
CHANGE = "const one = document.getElementById('%s'); one.value = '%s'; one.dispatchEvent(new Event('%s'))"
ENTER, TAB, DELETE = "\ue007", "\ue004", "\ue003"


class Tried:
    """A Firefox, and a folder for its pages and for what it saves."""

    def __init__(self, one, room):
        self.one, self.room = one, room
        self.run, self.press = one.run, one.press

    def open(self, text, hash_of=""):
        """Opens a page, and the seconds that this took."""
        path = os.path.join(self.room, "page.html")
        with open(path, "wb") as file:
            file.write(text)
        self.one.clear_console()
        # A page that is open is not loaded again for what stands after the # in its address.
        self.one.go("about:blank")
        begun = time.monotonic()
        self.one.go(f"file://{path}{hash_of}")
        return time.monotonic() - begun

    def addresses(self):
        return self.texts("#table tbody .address")

    def focus(self, selector):
        self.run("document.querySelector(arguments[0]).focus()", selector)

    def search(self, words):
        """Writes words into the search field, in the place of what is there."""
        self.focus("#words")
        self.run("document.activeElement.select()")
        self.press([DELETE, *words])

    def click(self, x, y):
        """A click of the mouse on a place of the window."""
        actions = [{"type": "pointerMove", "x": round(x), "y": round(y), "origin": "viewport"},
                   {"type": "pointerDown", "button": 0},
                   {"type": "pointerUp", "button": 0}]
        self.one.ask("WebDriver:PerformActions", actions=[{"type": "pointer", "id": "mouse", "actions": actions}])

    def click_on(self, selector):
        x, y = self.run("""const one = document.querySelector(arguments[0]);
            one.scrollIntoView({ block: 'center' });
            const box = one.getBoundingClientRect();
            return [box.x + box.width / 2, box.y + box.height / 2]""", selector)
        self.click(x, y)

    def click_on_bar(self, plot, label):
        """A click on the bar of this label."""
        x, y = self.run("""const chart = Chart.getChart(arguments[0]);
            const at = chart.data.labels.indexOf(arguments[1]);
            chart.canvas.scrollIntoView({ block: 'center' });
            const box = chart.canvas.getBoundingClientRect();
            return [box.x + chart.scales.x.getPixelForValue(0) + 2, box.y + chart.scales.y.getPixelForValue(at)]""",
                        f"plot-{plot}", label)
        self.click(x, y)

    def texts(self, selector):
        """The texts of the elements that fit, in their order."""
        return self.run("return [...document.querySelectorAll(arguments[0])].map(one => one.textContent)", selector)

    def chips(self):
        return [text.replace(" ✕", "") for text in self.texts(".chip")]

    def hash_of(self):
        return self.run("return location.hash")

    def open_line(self, number=1):
        """The facts of a line that is opened, the headers, the commands and the address of the preview."""
        self.click_on(f"#table tbody tr:nth-child({number}) .opener")
        until = time.monotonic() + 10
        while not self.run("return document.querySelectorAll('.opened').length") and time.monotonic() < until:
            time.sleep(0.05)
        return self.run("""const box = document.querySelector('.opened');
            const names = [...box.querySelectorAll('dt')].map(one => one.textContent);
            const facts = [...box.querySelectorAll('dd')].map(one => one.textContent);
            const [headers, commands] = [...box.querySelectorAll('pre')].map(one => one.textContent.split('\\n'));
            const image = box.querySelector('img')?.src ?? null;
            return [names.map((name, at) => [name, facts[at]]), headers, commands, image]""")


@pytest.fixture(scope="module")
def browser(firefox):
    with tempfile.TemporaryDirectory() as room:
        prefs = {"browser.download.folderList": 2, "browser.download.dir": room,
                 "browser.download.always_ask_before_handling_new_types": False}
        with Browser(firefox, os.path.join(room, "profile"), prefs) as one:
            yield Tried(one, room)


@pytest.fixture
def tried(browser):
    """The Firefox with a wide window. Whatever is done with a page, it has nothing to complain of."""
    browser.one.resize(1280, 900)
    yield browser
    assert browser.one.complaints() == []


# ---- what a page may not do

def test_a_page_that_complains_is_seen(browser, made):
    """So that silence of another says something."""
    browser.open(b"<script>throw new Error('seen')</script>")
    assert any("seen" in line for line in browser.one.complaints())
    browser.open(made(given=dump_of([])).replace(b'"use strict";', b'"use strict" ;', 1))
    assert browser.run("return document.documentElement.dataset.ready || null") is None
    assert browser.one.complaints()


def test_hostile_keys_are_text(tried, made, tmp_path):
    problems = ("differs", "damaged 0 399E 6DAA", "missing", "unfit short")
    names = [name_in(key) for key in HOSTILE[:3]] + ["0" * 40]
    (tmp_path / "said").write_text("findings 4\n" + "".join(f"{name} {what}\n" for name, what in zip(names, problems)))
    tried.open(made("--verify", f"{tmp_path}/said", "--previews", given=dump_of(hostile_entries())))
    tried.run(UNFOLD)
    tried.run("document.getElementById('keys').click()")
    keys = tried.run("""return [...document.querySelectorAll('#table tbody .key')]
        .map(one => { one.querySelector('summary')?.remove(); return one.textContent })""")
    assert sorted(keys) == sorted(map(shown, HOSTILE))
    assert sorted(tried.texts("#findings-table tbody code")) == sorted(
        [*map(shown, HOSTILE[:3]), "0" * 40])
    for words in ("<script>", "&<img", "onerror=window.hit=3", "\\xFF"):
        tried.search(words)
        found = tried.texts("#table tbody .key")
        assert found and all(words.lower() in key.lower() for key in found)
    tried.search("")
    for number in range(1, len(HOSTILE) + 1):
        tried.run("document.querySelectorAll('#table .opener')[arguments[0]].click()", number - 1)
    time.sleep(1)
    assert len(tried.texts(".opened")) == len(HOSTILE)
    foreign = "img, svg, iframe, object, embed, a:not(.to-table, .paginate_button), i, u, b"
    assert tried.run(
        "return [document.querySelectorAll(arguments[0]).length,"
        " document.querySelectorAll('script:not([type])').length, window.hit ?? null]", foreign) == [0, 10, None]
    assert tried.run("return performance.getEntriesByType('resource').length") == 0


def test_hostile_addresses_of_the_page(tried, made):
    """What stands after the # is text, too, and what is no filter is ignored."""
    tried.open(made(given=dump_of(few_entries(NOW))),
               "#host=<img src=x onerror=window.hit=1>&words=<b>&colour=red&__proto__=x&part=%00")
    assert tried.chips() == ["Site: <img src=x onerror=window.hit=1>", "Of it: \0", "Words: <b>"]
    assert tried.addresses() == []
    assert tried.run("return [document.querySelectorAll('img').length, window.hit ?? null]") == [0, None]


# ---- the table

def test_the_table_is_searched_and_sorted(tried, made):
    tried.open(made(given=dump_of(few_entries(NOW))))
    assert tried.addresses() == [PLUM, APPLE, PEAR]
    for words, found in (("css", [PLUM, APPLE]), ("example.org pe", [PEAR]),
                         ("EXAMPLE.ORG%29,:https", [PLUM, APPLE, PEAR]), ("none", [])):
        tried.search(words)
        assert tried.addresses() == found
    tried.search("")
    assert tried.hash_of() == ""
    for column, orders in ((1, ([APPLE, PEAR, PLUM], [PLUM, PEAR, APPLE])),
                           (4, ([PLUM, APPLE, PEAR], [PEAR, APPLE, PLUM])),
                           (5, ([APPLE, PLUM, PEAR], [PEAR, PLUM, APPLE]))):
        for order in orders:
            tried.focus(f"#table th:nth-child({column})")
            tried.press([ENTER])
            assert tried.addresses() == order
    assert tried.run("return document.querySelector('#table th:nth-child(5)').getAttribute('aria-sort')") == "ascending"


FOCUSED = """
const at = document.activeElement;
return at.matches('#table th') ? at.textContent : at.id || at.className || at.tagName.toLowerCase();
"""


def test_the_key_tab_leads_to_everything(tried, made):
    tried.open(made(given=dump_of(few_entries(NOW))))
    tried.run("document.activeElement.blur(); scrollTo(0, 0); document.querySelector('.skip').focus()")
    seen = set()
    for _ in range(45):
        seen.add(tried.run(FOCUSED))
        tried.press([TAB])
    heads = {"Address", "Type", "Status", "Size", "Last used", "Last changed", "Expires", "Uses"}
    assert heads | {"words", "keys", "csv", "opener", "summary", "input"} <= seen


def test_keys_are_shown_beside_addresses(tried, made):
    tried.open(made(given=dump_of(few_entries(NOW))))
    seen = """return [...document.querySelectorAll('#table .address, #table .key')]
        .filter(one => one.offsetParent).map(one => one.textContent)"""
    assert sorted(tried.run(seen)) == [APPLE, PEAR, PLUM]
    tried.click_on("#keys")
    assert sorted(tried.run(seen)) == sorted([APPLE, PEAR, PLUM] + [KEY + one for one in (APPLE, PEAR, PLUM)])


def test_long_types_and_addresses_fold(tried, made):
    address, kind = "https://example.com/" + "a" * 300, "application/" + "b" * 300
    tried.open(made(given=dump_of([(f":{address}".encode(), b"", NUMBERS, elements_with(kind.encode()))])))
    assert tried.texts("#table summary") == [
        "80 characters more", "81 characters more", "272 characters more"]
    assert tried.texts("#table td.kind")[0].replace("272 characters more", "") == kind


# ---- plots and filters

def labels_of(tried, plot):
    return tried.run("return Chart.getChart(arguments[0]).data.labels", f"plot-{plot}")


def test_bars(tried, made):
    tried.open(made(given=dump_of(few_entries(NOW))))
    told = "return Chart.getChart(arguments[0]).data.datasets[0].data"
    assert (labels_of(tried, "sites"), tried.run(told, "plot-sites")) == (["example.com\non example.org"], [103020])
    assert (labels_of(tried, "types"), tried.run(told, "plot-types")) == (["text/css", "image/png"], [103000, 20])
    tried.click_on("input[value=count]")
    assert tried.run(told, "plot-ages") == [None, 1, None, 1, None, 1]
    assert tried.run(told, "plot-sizes") == [None, 1, 1, 1, None, None, None]
    assert tried.texts("#largest .address") == [PLUM, APPLE, PEAR]
    assert tried.texts("#oldest .address")[0] == PEAR
    assert tried.texts("#sums")[0] .startswith("Entries3Their content103 kBSites1")


def test_bars_of_one_host_are_told_apart(tried, made):
    tried.open(made(given=dump_of(apart_entries(NOW))))
    assert tried.texts("#sums dd")[2] == "2"
    assert labels_of(tried, "sites") == ["example.com", "↳ for any page", "↳ http://example.com, for any page",
                                         "↳ 5 more ways", "example.net"]
    names = tried.texts("#plots .box:first-child tbody th")
    assert names == labels_of(tried, "sites")
    contexts = tried.texts("#table .context")
    assert sorted(contexts) == ["on example.org", "on example.org within another site", "on example.org:8443",
                                "on http://example.org"]


def test_a_click_on_a_bar_filters(tried, made):
    tried.open(made(given=dump_of([*few_entries(NOW), *apart_entries(NOW)])))
    everything = tried.addresses()
    tried.click_on_bar("types", "text/css")
    assert (tried.chips(), tried.addresses(), tried.hash_of()) == (["Type: text/css"], [PLUM, APPLE],
                                                                   "#type=text%2Fcss")
    assert tried.texts("#found")[0] == "2 of 11 entries, 103 kB"
    tried.click_on_bar("ages", "30 to 90 days")
    assert (tried.chips(), tried.addresses()) == (["Type: text/css", "Last used: 30 to 90 days"], [PLUM])
    # A second click takes it away, and so does one on its chip.
    tried.click_on_bar("ages", "30 to 90 days")
    assert tried.addresses() == [PLUM, APPLE]
    tried.click_on(".chip")
    assert (tried.chips(), tried.addresses(), tried.hash_of()) == ([], everything, "")
    assert tried.run("return document.getElementById('filters').hidden")


def test_bars_below_a_site_filter_it(tried, made):
    tried.open(made(given=dump_of(apart_entries(NOW))))
    tried.click_on_bar("sites", "↳ http://example.com, for any page")
    assert (tried.chips(), tried.addresses()) == (["Site: example.com", "Of it: http://example.com, for any page"],
                                                  ["http://example.com/b"])
    tried.click_on_bar("sites", "example.net")
    assert (tried.chips(), tried.addresses()) == (["Site: example.net"], ["https://example.net/h"])
    tried.click_on_bar("sites", "↳ 5 more ways")
    assert tried.chips() == ["Site: example.net"]


def test_filters_are_chosen_by_keys_too(tried, made):
    tried.open(made(given=dump_of(few_entries(NOW))))
    tried.run(UNFOLD)
    tried.run("[...document.querySelectorAll('.link')].find(one => one.textContent === 'image/png').focus()")
    tried.press([ENTER])
    assert (tried.chips(), tried.addresses()) == (["Type: image/png"], [PEAR])
    tried.focus("#clear")
    tried.press([ENTER])
    assert (tried.chips(), tried.addresses()) == ([], [PLUM, APPLE, PEAR])


def test_the_address_of_the_page_has_the_filters(tried, made):
    text = made(given=dump_of(few_entries(NOW)))
    tried.open(text, "#type=text%2Fcss&words=plum")
    assert (tried.chips(), tried.addresses()) == (["Type: text/css", "Words: plum"], [PLUM])
    assert tried.run("return document.getElementById('words').value") == "plum"
    tried.run("location.hash = '#size=1+to+10+kB'")
    time.sleep(0.3)
    assert (tried.chips(), tried.addresses()) == (["Size: 1 to 10 kB"], [APPLE])
    tried.click_on(".filters .to-table")
    assert (tried.hash_of(), tried.run("return document.activeElement.id")) == ("#size=1+to+10+kB", "all")


def saved(tried):
    """The file that a click on the button saves."""
    path = os.path.join(tried.room, "entries.csv")
    if os.path.exists(path):
        os.remove(path)
    tried.click_on("#csv")
    until = time.monotonic() + 20
    while (not os.path.exists(path) or not os.path.getsize(path)) and time.monotonic() < until:
        time.sleep(0.1)
    with open(path, encoding="utf-8", newline="") as file:
        return list(csv.reader(file))


def test_csv_has_the_lines_that_are_shown(tried, made, folder):
    """They are those of tools/ls."""
    for key, body, numbers, elements in [*few_entries(NOW), *hostile_entries()]:
        folder.add(key, body, elements, 4, numbers)
    tried.open(made(folder.room), "#type=text%2Fcss")
    rows = saved(tried)
    _, out, _ = run_tool("ls", folder.room, "--csv", "--type", "text/css", "--sort", "size")
    assert rows == list(csv.reader(out.decode().splitlines()))
    tried.click_on("#clear")
    everything = list(csv.reader(run_tool("ls", folder.room, "--csv", "--sort", "size")[1].decode().splitlines()))
    typed = [[row[0], row[1] or "(not told)", *row[2:]] for row in everything]
    assert sorted(saved(tried)) == sorted(typed)


# ---- a line that is opened

def test_a_line_opens(tried, made, folder, tmp_path):
    key = "O^partitionKey=%28https%2Cexample.org%29,:https://example.com/it's.js"
    numbers = (7, 1000000000, 1000000060, 5, 1000000120)
    elements = elements_with(b"text/javascript", b"Content-Encoding: x-none, gzip",
                             b"X: <b>") + b"alt-data\x001;5,javascript/moz-1\0"
    name = folder.add(key.encode(), b"helloXYZ", elements, 3, numbers)
    (tmp_path / "said").write_text(f"findings 1\n{name} differs\n")
    tried.open(made(folder.room, "--verify", f"{tmp_path}/said"))
    facts, headers, commands, preview = tried.open_line()
    assert facts == [
        ["File", f"entries/{name}"], ["Key", key], ["Request", "GET"], ["Status", "200"],
        ["Size", "5 bytes, and 3 of javascript/moz-1"],
        ["Last used", "2001-09-09 01:46"], ["Last changed", "2001-09-09 01:47"], ["Expires", "2001-09-09 01:48"],
        ["Uses", "7"],
        ["Packed by", "x-none, gzip"], ["Problem", "The cache's index and its file disagree."]]
    assert headers == ["HTTP/1.1 200 OK", "Content-Type: text/javascript", "Content-Encoding: x-none, gzip", "X: <b>"]
    assert (len(commands), preview) == (2, None)
    # The second click closes it.
    tried.click_on("#table tbody .opener")
    assert tried.run("return document.querySelectorAll('.opened').length") == 0


def run_line(line, room, program=None):
    """What a line of shell writes to its file, run where the tools are."""
    os.symlink(TOOLS, room / "tools")
    if program:
        os.symlink(program.path, room / "cache2")
    subprocess.run(["bash", "-c", line], cwd=room, check=True, stderr=subprocess.DEVNULL)
    found = room / "body"
    return next(found.rglob("*.*/*")).read_bytes() if found.is_dir() else found.read_bytes()


def test_its_lines_of_shell_get_the_body(tried, made, folder, program, tmp_path):
    """Also where the key is a command by itself."""
    folder.add(b":https://x.example/'$(touch pwned)`touch pwned`\\n\"", b"hello", version=3)
    tried.open(made(folder.room))
    _, _, commands, _ = tried.open_line()
    for number, line in enumerate(commands):
        room = tmp_path / str(number)
        room.mkdir()
        assert run_line(line, room, program) == b"hello"
        assert not (room / "pwned").exists()
    assert [shlex.split(line)[0] for line in commands] == ["tools/extract", "./cache2"]


@pytest.mark.parametrize("key, version", [(b":https://example.com/", 4), (b":https://example.com/\xff", 3)])
def test_lines_of_shell_that_would_not_work_are_left_out(tried, made, folder, tmp_path, key, version):
    """The program reads no version 4, and takes no word that is not UTF-8."""
    folder.add(key, b"hello", version=version)
    tried.open(made(folder.room))
    _, _, commands, _ = tried.open_line()
    assert (len(commands), run_line(commands[0], tmp_path)) == (1, b"hello")


def test_a_line_of_shell_for_a_dump(tried, made, tmp_path):
    dump = dump_of([(b":https://example.com/", b"hello", NUMBERS, b"")])
    (tmp_path / "dump").write_bytes(dump)
    tried.open(made(given=dump))
    _, _, commands, _ = tried.open_line()
    assert run_line(commands[0], tmp_path) == b"hello"


def test_previews(tried, made, folder):
    folder.add(b":https://example.com/a.png", PNG, elements_with(b"image/png"))
    tried.open(made(folder.room))
    assert tried.open_line()[3] is None
    tried.open(made(folder.room, "--previews"))
    assert tried.open_line()[3] == SHOWN
    assert tried.run("return document.querySelector('.preview').naturalWidth") == 1
    assert "1 small images" in tried.texts("#content")[0]


# ---- what is not on the page

def test_what_is_left_out_is_said(tried, made, folder):
    tried.open(made(given=dump_of([])))
    visible = "return [...document.querySelectorAll('[id^=left-out-]:not([hidden])')].map(one => one.id)"
    assert "left-out-unknown" in tried.run(visible)
    folder.add(b":https://example.com/")
    tried.open(made(folder.room))
    assert "left-out-none" in tried.run(visible)
    for number in range(12):
        folder.put(f"{number:040X}", b"")
    tried.open(made(folder.room))
    assert tried.texts("#left-out-count") == ["12 files"]
    tried.click_on("#left-out-some summary")
    rows = tried.texts("#left-out-table tbody tr")
    assert rows == [f"{number:040X}empty" for number in range(12)]


# ---- looks

# The contrasts of texts against their grounds, as WCAG 2 has them.
CONTRAST = """
const texts = ['h1', 'header p', '.note', 'dt', 'dd', 'summary', '.context', '.figure', '#table th', '#table td',
  '.dataTables_info', '.paginate_button', '.paginate_button.current', '.chip', '#clear', '.filters a', '.opened dt',
  '.opened pre'];
const numbers = colour => colour.match(/[\\d.]+/g).map(Number);
const linear = c => c <= 0.04045 ? c / 12.92 : ((c + 0.055) / 1.055) ** 2.4;
const light = ([r, g, b]) => 0.2126 * linear(r / 255) + 0.7152 * linear(g / 255) + 0.0722 * linear(b / 255);
const ground = element => {
  for (let at = element; at; at = at.parentElement) {
    const colour = numbers(getComputedStyle(at).backgroundColor);
    if (colour.length < 4 || colour[3] > 0) return colour;
  }
  return [255, 255, 255];
};
return texts.map(name => document.querySelector(name)).map(element => {
  const lights = [light(numbers(getComputedStyle(element).color)), light(ground(element))].sort((a, b) => a - b);
  return (lights[1] + 0.05) / (lights[0] + 0.05);
});
"""
# What is wider than the place that it has.
OUTSIDE = """
const wide = [...document.querySelectorAll('html, .box, .cards > div, td, li, p, dd, pre, .filters, .choice')];
return wide.filter(one => one.scrollWidth > one.clientWidth + 1).map(one => one.outerHTML.slice(0, 80))
  .concat(innerWidth > arguments[0] ? ['the window'] : []);
"""
# How much room there is between the boxes that stand below one another.
HOLES = """
const boxes = [...document.querySelectorAll('#plots .box')].map(one => one.getBoundingClientRect());
const below = box => boxes.filter(other => other.left === box.left && other.top >= box.bottom);
const gap = box => Math.min(...below(box).map(other => other.top - box.bottom));
return boxes.map(gap).filter(Number.isFinite);
"""


@pytest.mark.parametrize("scheme", [1, 0], ids=["light", "dark"])
@pytest.mark.parametrize("width", [1280, 390])
def test_looks(tried, made, tmp_path, scheme, width):
    """Text is seen against its ground, nothing sticks out, and there is no hole between the plots."""
    (tmp_path / "said").write_text("findings 12\n" + "".join(f"{number:040X} extra\n" for number in range(12)))
    text = made("--verify", f"{tmp_path}/said", given=dump_of([*many_entries(NOW, 60, 0.01), *hostile_entries()]))
    scheme_pref = "layout.css.prefers-color-scheme.content-override"
    tried.one.run_inside("Services.prefs.setIntPref(...arguments)", scheme_pref, scheme)
    tried.one.resize(width, 900)
    tried.open(text, "#words=e")
    tried.open_line()
    assert tried.run(OUTSIDE, width) == []
    assert min(tried.run(CONTRAST)) >= 4.5
    assert all(gap < 20 for gap in tried.run(HOLES))
    ground = tried.run("return getComputedStyle(document.body).backgroundColor")
    brightness = sum(int(number) for number in ground[4:-1].split(", "))
    assert (brightness > 600) == (scheme == 1)
    tried.run(CHANGE % ("sort", "4 asc", "change"))
    assert tried.texts("#table th[aria-sort]")[0] == "Last used"


# What the process of the page has used of a processor so far, in seconds. Other work of the machine does not count.
PROCESSOR_TIME = """
const pid = gBrowser.selectedBrowser.browsingContext.currentWindowGlobal.osPid;
return ChromeUtils.requestProcInfo().then(info => info.children.find(one => one.pid === pid).cpuTime / 1e9);
"""


def test_many_entries(tried, made):
    """20,000 entries open within two seconds of processor time, and to search or sort them takes less than one."""
    text = made(given=dump_of(many_entries(NOW, 20000, 0.001)))

    def taken(work):
        begun = tried.one.run_inside(PROCESSOR_TIME)
        work()
        return tried.one.run_inside(PROCESSOR_TIME) - begun

    tried.open(text)
    assert taken(lambda: tried.open(text)) < 2
    assert len(tried.addresses()) == 25
    assert taken(lambda: tried.run(CHANGE % ("words", "-1999", "input"))) < 1
    assert len(tried.addresses()) == 11
    assert taken(lambda: tried.run("clearFilters(); $('#table').DataTable().order([0, 'asc']).draw()")) < 1
