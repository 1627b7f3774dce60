"""Checks the page of a recording against its export: that its data are the same messages, and, where a browser is there,
what that shows of them.

    recording_page.py PAGE LINES [FOLDER]

Prints what it checked. A browser draws pictures of the page into the folder.
"""

import html.parser
import json
import pathlib
import re
import shutil
import subprocess
import sys
import tempfile

BROWSERS = ("chromium", "chromium-browser", "google-chrome")
# A page of so many messages is looked at for the time alone in which it opens.
MANY = 100_000
MOST_MILLISECONDS = 2000
# How often that is tried, since other work on the machine may be in its way.
TRIES = 4

# A script that presses keys.
PRESSED = """
for (const key of ["x", "j", "ArrowDown", "Enter", "t"]) {
  document.activeElement.dispatchEvent(new KeyboardEvent("keydown", { key, bubbles: true }));
}
"""
# A script that has the body keep what rows show of all messages.
SUMMARIES = "document.body.dataset.summaries = JSON.stringify(lines.map(summary));"
FLAGS = ["--headless", "--no-sandbox", "--disable-gpu", "--window-size=1200,900", "--virtual-time-budget=20000"]

# The pictures of a page: what comes after its address.
PICTURES = {"messages.png": "", "slowest.png": "slowest&theme=dark"}


class Page(html.parser.HTMLParser):
    """The texts of a page's elements by their ids, its addresses, and the rows that are shown."""

    def __init__(self, text):
        super().__init__()
        self.texts, self.addresses, self.rows, self.body, self.path, self.theme = {}, [], [], {}, [], None
        self.feed(text)

    def handle_starttag(self, tag, attrs):
        attrs = dict(attrs)
        self.addresses += [attrs[name] for name in ("src", "href") if name in attrs]
        if tag == "body":
            self.body = attrs
        if tag == "html":
            self.theme = attrs.get("data-theme")
        if "row" in attrs.get("class", "").split():
            self.rows.append((attrs["class"], ""))
        if tag not in ("meta", "input", "br", "link"):
            self.path.append(attrs.get("id"))

    def handle_endtag(self, tag):
        if self.path:
            self.path.pop()

    def handle_data(self, data):
        for name in self.path[-1:]:
            self.texts[name] = self.texts.get(name, "") + data
        if self.rows and "room" in self.path:
            self.rows[-1] = (self.rows[-1][0], f"{self.rows[-1][1]} {data}")


def check_data(page, lines):
    """The data of the page are the lines, each with its exchange."""
    data = json.loads(page.texts["data"])
    for row in data:
        row.pop("exchange", None)
    if data != lines:
        sys.exit("the data of the page are other messages than those of the export")


def browse(browser, path, asked, flag):
    """What a browser prints that opens the page."""
    with tempfile.TemporaryDirectory() as profile:
        address = f"{pathlib.Path(path).resolve().as_uri()}#{asked}"
        words = [browser, *FLAGS, flag, f"--user-data-dir={profile}", address]
        return subprocess.run(words, capture_output=True, text=True, timeout=120, check=True).stdout


def shown(browser, path, asked):
    """The page as a browser has it."""
    return Page(browse(browser, path, asked, "--dump-dom"))


def scripted(browser, path, asked, script):
    """The page as a browser has it that runs a script after those of the page."""
    text = pathlib.Path(path).read_text(encoding="utf-8")
    with tempfile.TemporaryDirectory() as folder:
        page = pathlib.Path(folder) / "scripted.html"
        page.write_text(text.replace("</html>", f"<script>{script}</script></html>"), encoding="utf-8")
        return shown(browser, page, asked)


def draw(browser, path, folder):
    """Draws the pictures of a page."""
    for name, asked in PICTURES.items():
        picture = pathlib.Path(folder).resolve() / name
        browse(browser, path, asked, f"--screenshot={picture}")
        if picture.read_bytes()[:4] != b"\x89PNG":
            sys.exit(f"{picture} is no picture")


def check_keys(browser, path):
    """Keys go from the slowest exchanges to the first message of the third one, and change between light and dark."""
    slowest = shown(browser, path, "slowest&theme=dark")
    page = scripted(browser, path, "theme=dark", PRESSED)
    number = slowest.rows[2][1].split()[2].split(".")[0]
    chosen = [row for classes, row in page.rows if "chosen" in classes.split()]
    if (slowest.theme, page.theme) != ("dark", "light") or [row.split()[2] for row in chosen] != [number]:
        sys.exit(f"by keys {page.theme} and {chosen} come, and not a message of connection {number}")


def check_opened(browser, path, lines):
    """A browser opens the page soon, and shows the first messages. Gives the milliseconds that its script took."""
    for _ in range(TRIES):
        first = shown(browser, path, "")
        opened = int(first.body["data-opened"])
        if opened <= MOST_MILLISECONDS:
            break
    if int(first.body["data-messages"]) != len(lines) or opened > MOST_MILLISECONDS:
        sys.exit(f"the browser has {first.body} and not {len(lines)} messages in two seconds")
    if len(first.rows) < 20 or "Opened" not in first.rows[0][1]:
        sys.exit(f"the first rows are {first.rows[:2]}")
    return opened


def check_shown(browser, path, lines):
    """A browser filters and searches messages, marks errors, and has the slowest exchange first."""
    errors = shown(browser, path, "kind=ErrorResponse").rows
    wanted = [line for line in lines if line["kind"] == "ErrorResponse"]
    if len(errors) != len(wanted) or not all("error" in classes for classes, _ in errors):
        sys.exit(f"of {len(wanted)} errors {errors} are shown")
    found = shown(browser, path, "search=taped_role&kind=Query").rows
    if len(found) != sum("taped_role" in json.dumps(line) for line in lines if line["kind"] == "Query"):
        sys.exit(f"a search finds {found}")
    slowest = shown(browser, path, "slowest").rows
    times = [micros(row) for _, row in slowest]
    if len(times) < 5 or times != sorted(times, reverse=True):
        sys.exit(f"the slowest exchanges are {slowest}")


def check_summaries(browser, path, lines):
    """Rows show the fields of all messages: none is undefined, and of a list each part is there."""
    summaries = json.loads(scripted(browser, path, "", SUMMARIES).body["data-summaries"])
    for line, summary in zip(lines, summaries, strict=True):
        types = ", ".join(map(str, line.get("types", [])))
        if "undefined" in summary or (line["kind"] == "ParameterDescription" and summary != types):
            sys.exit(f"of {line} {summary!r} is shown")


def micros(row):
    """The duration that a row begins with."""
    number, unit = re.match(r" *([\d.]+) (µs|ms|s)\b", row).groups()
    return float(number) * {"µs": 1, "ms": 1e3, "s": 1e6}[unit]


def main():
    path = sys.argv[1]
    page = Page(pathlib.Path(path).read_text(encoding="utf-8"))
    with open(sys.argv[2], encoding="utf-8") as file:
        lines = [json.loads(line) for line in file][1:]
    check_data(page, lines)
    if page.addresses:
        sys.exit(f"the page asks for {page.addresses}")
    browser = next(filter(None, map(shutil.which, BROWSERS)), None)
    if browser is None:
        print(f"{len(lines)} messages are the data of the page, which no browser is there to show")
        return
    opened = check_opened(browser, path, lines)
    if len(lines) < MANY:
        check_shown(browser, path, lines)
        check_keys(browser, path)
        check_summaries(browser, path, lines)
    for folder in sys.argv[3:]:
        draw(browser, path, folder)
    print(f"{len(lines)} messages are shown by {pathlib.Path(browser).name}, after {opened} ms")


if __name__ == "__main__":
    main()
