"""Opens pages of `report` in headless Chromium: browser.py PROGRAM [FOLDER]. Screenshots go to FOLDER, if it is named.
Skipped, with a line that says so, where Chromium is not installed."""

import base64
import json
import os
import random
import re
import shutil
import subprocess
import sys
import tempfile

sys.path.insert(0, os.path.dirname(os.path.abspath(__file__)))
import numbers_of  # noqa: E402
from page import Page  # noqa: E402
import sample_profiles  # noqa: E402

PROGRAM = sys.argv[1]
SHOTS = sys.argv[2] if len(sys.argv) > 2 else None
NAMES = ("chromium", "chromium-browser", "chromium-headless-shell", "google-chrome")


def chromium():
    """Returns the path of Chromium, or None."""
    return next(filter(None, map(shutil.which, NAMES)), None)


class Browser:
    """A browser that is asked through a pair of pipes (the DevTools protocol)."""

    def __init__(self, program, folder):
        to_read, self.to = os.pipe()
        self.come, to_write = os.pipe()
        # the protocol has its commands at descriptor 3, and answers at 4
        command = (
            f"exec 3<&{to_read} 4>&{to_write}; exec \"$0\" --headless=new --no-sandbox --disable-gpu --no-first-run --disable-background-networking"
            " --disable-component-update --disable-sync --remote-debugging-pipe --user-data-dir=\"$1\" about:blank"
        )
        self.process = subprocess.Popen(
            ["bash", "-c", command, program, folder], pass_fds=(to_read, to_write), stdin=subprocess.DEVNULL, stdout=subprocess.DEVNULL, stderr=subprocess.DEVNULL
        )
        os.close(to_read)
        os.close(to_write)
        self.pending, self.number, self.events = b"", 0, []
        target = self.ask("Target.createTarget", url="about:blank")["targetId"]
        self.session = self.ask("Target.attachToTarget", targetId=target, flatten=True)["sessionId"]
        for domain in ("Page", "Runtime", "Log", "Network"):
            self.ask(domain + ".enable")

    def message(self):
        while b"\0" not in self.pending:
            more = os.read(self.come, 1 << 20)
            assert more, "the browser ended"
            self.pending += more
        one, self.pending = self.pending.split(b"\0", 1)
        return json.loads(one)

    def ask(self, method, **params):
        self.number += 1
        message = {"id": self.number, "method": method, "params": params}
        if hasattr(self, "session"):
            message["sessionId"] = self.session
        os.write(self.to, json.dumps(message).encode() + b"\0")
        while True:
            come = self.message()
            if come.get("id") == self.number:
                assert "error" not in come, (method, come)
                return come["result"]
            self.events.append(come)

    def value(self, expression):
        return self.ask("Runtime.evaluate", expression=expression, returnByValue=True)["result"].get("value")

    def open(self, path, width):
        self.events.clear()
        self.ask("Emulation.setDeviceMetricsOverride", width=width, height=900, deviceScaleFactor=1, mobile=width < 600)
        self.ask("Page.navigate", url="file://" + path)
        while not any(event.get("method") == "Page.loadEventFired" for event in self.events):
            self.events.append(self.message())

    def look(self, medium, scheme):
        """Shows the page on a light or dark screen, or on paper."""
        self.ask("Emulation.setEmulatedMedia", media=medium, features=[{"name": "prefers-color-scheme", "value": scheme}])

    def shot(self, path, scheme):
        self.look("screen", scheme)
        with open(path, "wb") as file:
            file.write(base64.b64decode(self.ask("Page.captureScreenshot", format="png")["data"]))

    def close(self):
        """Asks the browser to end, and waits until it has."""
        try:
            os.write(self.to, json.dumps({"id": 0, "method": "Browser.close"}).encode() + b"\0")
            self.process.wait(20)
        except (OSError, subprocess.TimeoutExpired):
            self.process.kill()
            self.process.wait()


def cell_shown(cell):
    """Returns the text of a cell as a browser has it."""
    kind, *parts = cell
    return "" if kind == "bar" else numbers_of.shown(str(parts[-1]))


def computed(csv_text, page_text):
    """Returns the page as it is read from the file, and the rows of its tables as they are computed from the CSV."""
    read = Page(page_text)
    start, end = page_text.index("<main>"), page_text.index("</body>")
    around = len((page_text[:start] + page_text[end:]).encode())
    tables, _ = numbers_of.fitting(numbers_of.Numbers(csv_text), read.title, read.about, around)
    return read, [table[3] for table in tables]


# of each picture: its title, whether each row has a name, a number and a bar that only the eye sees, and its columns' names
PICTURES = """JSON.stringify([...document.querySelectorAll('section')].filter(one => one.querySelector('svg')).map(one => [
    one.querySelector('h2').textContent,
    [...one.querySelectorAll('tbody tr')].every(row => row.cells.length == 3 && row.querySelector('td:nth-child(1) bdi')
        && row.querySelector('td.n:nth-child(2)') && row.querySelector('td:nth-child(3) svg[aria-hidden=true]')),
    [...one.querySelectorAll('thead th[scope=col]')].map(head => head.textContent)]))"""
# the colours of the text, the paper, a link and a bar, and how numbers are aligned
COLOURS = """JSON.stringify([document.body, 'color', document.body, 'backgroundColor', document.querySelector('td a'), 'color',
    document.querySelector('rect'), 'fill', document.querySelector('td.n'), 'textAlign'].reduce((all, one, at, list) =>
    at % 2 ? [...all, list[at - 1] ? getComputedStyle(list[at - 1])[one] : null] : all, []))"""


def brightness(colour):
    """Returns the relative luminance of a colour (WCAG 2.2)."""
    parts = [int(part) / 255 for part in re.fullmatch(r"rgb\((\d+), (\d+), (\d+)\)", colour).groups()]
    parts = [part / 12.92 if part <= 0.04045 else ((part + 0.055) / 1.055) ** 2.4 for part in parts]
    return sum(weight * part for weight, part in zip((0.2126, 0.7152, 0.0722), parts))


def contrast(one, other):
    low, high = sorted(map(brightness, (one, other)))
    return (high + 0.05) / (low + 0.05)


def looks(browser, name):
    """On a light and a dark screen and on paper: text can be read, and bars can be told from the paper (WCAG 2.2: 7 and 3)."""
    papers = []
    for medium, scheme in (("screen", "light"), ("screen", "dark"), ("print", "light"), ("print", "dark")):
        browser.look(medium, scheme)
        ink, paper, link, bar, alignment = json.loads(browser.value(COLOURS))
        assert contrast(ink, paper) >= 7 and (link is None or contrast(link, paper) >= 7), (name, medium, scheme, ink, paper, link)
        assert bar is None or contrast(bar, paper) >= 3, (name, medium, scheme, bar, paper)
        assert alignment == "right", alignment
        papers.append(round(brightness(paper), 1))
    assert papers == [1, 0, 1, 1], papers
    browser.look("", "light")
    assert base64.b64decode(browser.ask("Page.printToPDF")["data"]).startswith(b"%PDF-"), name


def see(browser, path, name, csv_text):
    """Opens a page: no message, no request but for the page itself, the tables as they are computed from the CSV, each picture
    with a title and numbers, nothing to scroll to the side."""
    for width in (1200, 400):
        browser.open(path, width)
        reported = [event for event in browser.events if event.get("method") in ("Runtime.consoleAPICalled", "Runtime.exceptionThrown", "Log.entryAdded")]
        assert not reported, reported
        asked = [event["params"]["request"]["url"] for event in browser.events if event.get("method") == "Network.requestWillBeSent"]
        assert asked == ["file://" + path], asked
        wide = browser.value("document.documentElement.scrollWidth")
        assert wide <= width, (name, width, wide)
        with open(path, encoding="utf-8", newline="") as file:
            wanted, rows = computed(csv_text, file.read())
        found = json.loads(browser.value(
            "JSON.stringify([...document.querySelectorAll('tbody')].map(body => [...body.rows].map(row => [...row.cells].map(cell => cell.textContent))))"
        ))
        assert found == [[list(map(cell_shown, row)) for row in table] for table in rows], name
        bars = json.loads(browser.value("JSON.stringify([...document.querySelectorAll('rect')].map(bar => +bar.getAttribute('width')))"))
        assert bars == [cell[1] for table in rows for row in table for cell in row if cell[0] == "bar"], name
        titles = [(table[0], table[2]) for table, lines in zip(wanted.tables, rows) if any(cell[0] == "bar" for row in lines for cell in row)]
        assert json.loads(browser.value(PICTURES)) == [[title, True, heads] for title, heads in titles], name
        assert browser.value("document.title") == wanted.title and wanted.title.startswith(name), name
        looks(browser, name)
        if SHOTS:
            for scheme in ("light", "dark"):
                browser.shot(os.path.join(SHOTS, f"{name[:20]}-{width}-{scheme}.png"), scheme)


def main():
    program = chromium()
    if not program:
        print("browser: skipped, Chromium is not installed")
        return
    with tempfile.TemporaryDirectory(ignore_cleanup_errors=True) as folder:
        browser = Browser(program, os.path.join(folder, "user"))
        try:
            for name, text in sample_profiles.all_of(random.Random(7)).items():
                source, page = os.path.join(folder, name + ".csv"), os.path.join(folder, name[:200] + ".html")
                with open(source, "w", encoding="utf-8", newline="") as file:
                    file.write(text)
                subprocess.run([PROGRAM, "report", source, "--output", page], check=True, timeout=120)
                see(browser, page, name, text)
        finally:
            browser.close()
    print("browser: passed")


main()
