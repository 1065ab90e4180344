"""Tests `report` of the built program: every number of the page is computed again from the CSV, which is random or odd.
check_report.py PROGRAM"""

import csv
import datetime
import io
import os
import random
import re
import resource
import shutil
import subprocess
import sys
import tempfile
import time
from xml.etree import ElementTree

sys.path.insert(0, os.path.dirname(os.path.abspath(__file__)))
import numbers_of  # noqa: E402
from numbers_of import NAMES  # noqa: E402
from page import Page  # noqa: E402
from sample_profiles import ODD, profile, row, written  # noqa: E402
import sample_profiles  # noqa: E402

PROGRAM = sys.argv[1]
def run(*words):
    return subprocess.run([PROGRAM, "report", *words], capture_output=True, timeout=120)


class Place:
    """A folder with a CSV in it."""

    def __init__(self, csv_bytes):
        self.folder = tempfile.TemporaryDirectory()
        self.csv, self.page = (os.path.join(self.folder.name, name) for name in ("p.csv", "p.html"))
        with open(self.csv, "wb") as file:
            file.write(csv_bytes)

    def __enter__(self):
        return self

    def __exit__(self, *_):
        self.folder.cleanup()

    def names(self):
        return sorted(os.listdir(self.folder.name))


def page_by(csv_bytes, title):
    """Returns the page for this CSV."""
    with Place(csv_bytes) as place:
        done = run(place.csv, f"--title={title}", "--output", place.page)
        assert done.returncode == 0, (done.returncode, done.stderr)
        assert done.stdout == b"" and done.stderr == b"", (done.stdout, done.stderr)
        assert place.names() == ["p.csv", "p.html"], place.names()
        with open(place.page, encoding="utf-8", newline="") as file:
            return file.read()


def shown_cell(cell):
    kind, *parts = cell
    return (kind, *(numbers_of.shown(part) if isinstance(part, str) else part for part in parts))


def see(text, title, hash_words="Its hashes are MD5"):
    """Compares a page with its CSV: as it is read, and letter for letter."""
    page = page_by(text.encode("utf-8"), title)
    read = Page(page)
    assert read.title == numbers_of.shown(title) and read.heading == numbers_of.shown(title), (read.title, title)
    about = re.fullmatch(r"Made by droid_desk from p\.csv at (\d{4}-\d\d-\d\dT\d\d:\d\d:\d\d) \(UTC\)\. (.*)\. A file with several formats counts once\.", read.about)
    assert about and about.group(2) == hash_words, read.about
    made = datetime.datetime.fromisoformat(about.group(1) + "+00:00")
    assert abs(datetime.datetime.now(datetime.timezone.utc) - made) < datetime.timedelta(minutes=10), made
    start, end = page.index("<main>"), page.index("</body>")
    around = len((page[:start] + page[end:]).encode())
    tables, body = numbers_of.fitting(numbers_of.Numbers(text), title, read.about, around)
    for wanted, found in zip(tables, read.tables, strict=True):
        name, note, heads, rows = wanted
        shown = [name, note, heads, [[shown_cell(cell) for cell in row] for row in rows]]
        assert shown[:3] == found[:3], (shown[:3], found[:3])
        for here, there in zip(shown[3], found[3], strict=True):
            assert here == there, (name, here, there)
    assert page[start:end] == body
    assert len(page.encode("utf-8")) <= numbers_of.MOST_BYTES
    return page


def random_profiles():
    for seed in range(200):
        chance = random.Random(seed)
        name, said = chance.choice([("HASH", "It has no hashes"), ("MD5_HASH", "Its hashes are MD5"), ("SHA256_HASH", "Its hashes are SHA-256")])
        see(profile(chance, chance.choice([0, 1, 5, 60, 700]), name), chance.choice(ODD) + "t", said)
    print("200 random profiles: passed")


# the columns that a report is made of: those that `verify` reads, and its own, in the order in which a missing one is named
READ = "ID PARENT_ID FILE_PATH NAME SIZE TYPE LAST_MODIFIED MD5_HASH FORMAT_COUNT".split()
OWN = "METHOD EXTENSION_MISMATCH PUID FORMAT_NAME FORMAT_VERSION".split()
NEEDED = READ + OWN


def part(text, names):
    """Returns the columns of these names alone, as Python's `csv` writes them."""
    rows = [*csv.reader(io.StringIO(text, newline=""), strict=True)]
    places = [place for place, name in enumerate(rows[0]) if name in names]
    out = io.StringIO(newline="")
    csv.writer(out, lineterminator="\n").writerows([[row[place] for place in places] for row in rows])
    return out.getvalue()


def some_columns():
    """The page of a CSV with some of the columns is that of all, if those that it is made of are there."""
    def without_moment(page):
        return re.sub(r"p\.csv at \S+ ", "p.csv ", page)

    for seed in range(20):
        chance = random.Random(seed)
        text = profile(chance, 40)
        others = [name for name in NAMES if name not in NEEDED]
        whole = without_moment(page_by(text.encode(), "t"))
        for kept in ([], others, chance.sample(others, chance.randrange(len(others)))):
            assert without_moment(page_by(part(text, NEEDED + kept).encode(), "t")) == whole, (seed, kept)
    print("some of the columns: passed")


def odd_profiles():
    """An empty profile, one whose names fill more than a page, one of many years, one whose sums end at 2^64 - 1, and those
    whose formats' names fill a page."""
    see(written([]), "empty")
    see(written([["1", "", "file:/a/", "/a", "a", "", "Done", "", "Folder", "", "", "false", "", "", "", "", "", ""]]), "a folder")
    see(written(row(n, "/" + '"' * 3000 + str(n)) for n in range(1, 301)), "long names")
    see(written(row(n, "/" + "x" * 150 + str(n), digest=f"{n // 2:032}") for n in range(1, 901)), "many names")
    see(written(row(n, f"/{n}", moment=f"{n:04}-01-01T00:00:00") for n in range(1, 10000)), "ten thousand years")
    see(written(row(n, f"/{n}", size=2**63) for n in range(1, 6)), "large files")
    see(written(row(n, f"/{n}", method="Extension", puid=f"fmt/{n}") for n in range(1, 1001)), "many formats")
    for size in (500, 5_000, 50_000):
        see(written(named_rows(20, '"' * size)), "long names of formats")
    # the largest page without a format's name: each size and depth, and numbers of twenty digits
    see(written(row(n, "/a" * (n % 70) + f"/{n}", size=min(4 ** (n % 35), 2**64 - 1)) for n in range(1, 701)) + "\n".join(lines_of(named_rows(20, "&" * 50_000))), "x" * 10_000)
    print("odd profiles: passed")


# odd texts, and how they stand in a page
ODD_TEXTS = [
    ("", ""),
    ("plain", "plain"),
    ("<script>alert(1)</script>", "&lt;script&gt;alert(1)&lt;/script&gt;"),
    ("&amp;", "&amp;amp;"),
    ("\"quoted\" 'so'", "&quot;quoted&quot; 'so'"),
    ("a\0b\n\x7f", "a\u2400b\u240a\u2421"),
    ("\u202egpj.exe \U0001f4c4", "\u202egpj.exe \U0001f4c4"),
]
# the body of a page with one table
ONE_TABLE = ("T", "N", ["name"], [[("words", "a<b"), ("amount", 12), ("bar", 500)]])
ITS_BODY = (
    '<main><h1>&quot;</h1><p>&amp;</p><section><h2>T</h2><p>N</p><table><thead><tr><th scope="col">name</th></tr></thead><tbody><tr><td><bdi>a&lt;b</bdi></td>'
    '<td class="n">12</td><td class="b"><svg viewbox="0 0 1000 20" preserveaspectratio="none" aria-hidden="true"><rect width="500" height="20"></rect></svg></td></tr>'
    "</tbody></table></section></main>"
)


def pages_by_hand():
    """Texts that are no markup, as they stand in pages, and what stands around the body of a page."""
    for text, shown in ODD_TEXTS:
        # a path has no zero byte, which a format's name may have
        file = row(1, f"/{text}x.".replace("\0", ""), method="Extension", puid="fmt/1")
        page = page_by(written([[*file[:16], text, "1"]]).encode(), text.replace("\0", ""))
        title = shown.replace("\u2400", "")
        assert f"<bdi>/{title}x.</bdi>" in page and f"<bdi>{shown} 1</bdi>" in page, (text, page)
        assert f"<title>{title}</title>" in page and f"<main><h1>{title}</h1>" in page, (text, page)
    page = page_by(written([]).encode(), "<t>")
    assert page.startswith('<!DOCTYPE html><html lang="en"><head>') and "<title>&lt;t&gt;</title>" in page, page
    assert "</head><body><main>" in page and page.endswith("</main></body></html>"), page
    # the text that each page is compared with
    assert numbers_of.body_text('"', "&", [ONE_TABLE]) == ITS_BODY
    print("pages by hand: passed")


def named_rows(count, name):
    """Returns rows of files whose formats have this name, and a number behind it."""
    rows = [row(n, f"/{n}", method="Extension", puid=f"fmt/{n}") for n in range(1_000, 1_000 + count)]
    return [[*one[:16], name + str(place), ""] for place, one in enumerate(rows)]


def lines_of(rows):
    """Returns the lines of rows in a CSV, without its header."""
    return written(rows).split("\n")[1:]


# what is said of a CSV that is none
FAULT = (
    rb"fault: List\n.*: (does not begin with the column names of a profile: .*|there is no column [A-Z_0-9, or]+|record \d+ does not have a field for each column"
    rb"|record \d+: [A-Z_0-9]+ is wrong|record \d+: [A-Z_0-9, or]+ contradicts another record|has a path twice: .*)\n"
)


def each_byte_changed():
    """A CSV with a byte changed makes a page of the same elements, or a fault that names the record."""
    chance = random.Random(1)
    whole = profile(chance, 3).encode("utf-8")
    pages = 0
    with Place(whole) as place:
        for at in range(len(whole)):
            for other in (chance.randrange(256), b'"<'[at % 2]):
                with open(place.csv, "wb") as file:
                    file.write(whole[:at] + bytes([other]) + whole[at + 1 :])
                done = run(place.csv)
                if done.returncode == 0:
                    Page(done.stdout.decode("utf-8"))
                    pages += 1
                else:
                    assert done.returncode == 3 and done.stdout == b"", (done.returncode, at, other)
                    assert re.fullmatch(FAULT, done.stderr), (done.stderr, at, other)
    print(f"each of {len(whole)} bytes changed: passed ({pages} pages)")


def faults():
    """What a command that fails says, and what it leaves."""
    good = profile(random.Random(2), 30)
    lines = good.split("\n")

    def fails(csv_bytes, sentence):
        with Place(csv_bytes) as place:
            done = run(place.csv, "--output", place.page)
            assert done.returncode == 3, done.returncode
            said = done.stderr.decode()
            assert said.startswith("fault: List\n") and sentence in said, said
            assert place.names() == ["p.csv"], place.names()

    fails(b"", "does not begin with")
    fails(b"\xef\xbb\xbf", "does not begin with")
    fails(written([], NAMES[1::-1] + NAMES[2:]).encode(), "does not begin with")
    for name in NEEDED:
        named = name.replace("MD5_HASH", "MD5_HASH, SHA256_HASH or HASH")
        fails(part(good, [other for other in NAMES if other != name]).encode(), f"there is no column {named}\n")
    fails(part(good, NEEDED[:3]).encode(), "there is no column NAME\n")
    fails(part(good, READ).encode(), "there is no column METHOD\n")
    fails((part(good, NEEDED) + "1\n").encode(), " does not have a field for each column\n")
    for place in (1, 3, 7):
        bad = written([row(n, f"/{n}") for n in range(1, place)] + [row(place, f"/{place}", size="x")] + [row(place + 1, "/z")])
        fails(bad.encode(), f"record {place + 1}: SIZE is wrong\n")
    fails(written([row(1, "a/b")]).encode(), "record 2: FILE_PATH is wrong\n")
    fails(written([row(1, "/\udcff")]).encode("utf-8", "surrogateescape"), "record 2: FILE_PATH is wrong\n")
    fails(written([row(1, "/a"), row(2, "/b"), row(3, "/a")]).encode(), "has a path twice: /a\n")
    with Place(good.encode()) as place:
        done = run(place.csv, "--output", place.csv)
        assert done.returncode == 4 and done.stderr.startswith(b"fault: Output\n"), done.stderr
        with open(place.csv, "rb") as file:
            assert file.read() == good.encode()
        done = run(place.csv, "--output", os.path.join(place.folder.name, "none", "p.html"))
        assert done.returncode == 4 and done.stderr.startswith(b"fault: Output\n"), done.stderr
        done = run(place.csv + "x", "--output", place.page)
        assert done.returncode == 3 and b"no such file" in done.stderr, done.stderr
        done = run(place.folder.name, "--output", place.page)
        assert done.returncode == 3 and done.stderr.startswith(b"fault: Profile\n"), done.stderr
        with open(place.page, "w", encoding="utf-8") as file:
            file.write("older")
        assert run(place.csv + "x", "--output", place.page).returncode == 3
        with open(place.page, encoding="utf-8") as file:
            assert file.read() == "older"
        assert run(place.csv, "--output", place.page).returncode == 0
        with open(place.page, "rb") as file:
            page = file.read()
        made = run(place.csv)
        assert made.returncode == 0 and len(made.stdout) == len(page)
        assert Page(page.decode()).title == "p.csv"
        full = subprocess.run(["sh", "-c", '"$0" report "$1" >/dev/full', PROGRAM, place.csv], capture_output=True, timeout=120)
        assert full.returncode == 4 and full.stderr.startswith(b"fault: Write\n"), full.stderr
    assert lines[0].startswith('"ID"')
    print("faults: passed")


# what stands in the place of a field
OTHER_FIELDS = ["", "0", "1", "2", "31", "01", "x", "/", "/a", "a/b", "File", "Folder", "Signature", "true", "2023-02-31T23:59:59", "0" * 32, "F" * 64, "18446744073709551616", "\udcff"]


def as_verify():
    """What `verify` refuses is refused with the same words. Beside that, only columns that `verify` does not read are wrong."""
    refused = own = 0
    with tempfile.TemporaryDirectory() as folder:
        at = os.path.join(folder, "p.csv")
        empty = os.path.join(folder, "empty")
        os.mkdir(empty)
        for seed in range(400):
            chance = random.Random(seed)
            rows = [*csv.reader(io.StringIO(profile(chance, chance.randrange(1, 8)), newline=""), strict=True)]
            for _ in range(chance.choice([1, 1, 2])):
                one = chance.choice(rows[chance.randrange(2) :])
                place = chance.randrange(one is rows[0], 18)
                one[place] = chance.choice([*OTHER_FIELDS, chance.choice(rows)[place]])
            if chance.random() < 0.2:
                rows.append(chance.choice(rows[1:]))
            if chance.random() < 0.1:
                chance.choice(rows).pop()
            with open(at, "wb") as file:
                file.write(written(rows[1:], rows[0]).encode("utf-8", "surrogateescape"))
            verified = subprocess.run([PROGRAM, "verify", empty, "--against", at, "--quick"], capture_output=True, timeout=120)
            done = run(at)
            if verified.returncode == 3:
                assert (done.returncode, done.stderr) == (3, verified.stderr), (seed, done.stderr, verified.stderr)
                refused += 1
            elif done.returncode != 0:
                found = re.fullmatch(rb"fault: List\n.*: record \d+: ([A-Z_]+) is wrong\n", done.stderr)
                assert done.returncode == 3 and found, (seed, done.stderr)
                assert found[1].decode() in ["FILE_PATH", *OWN], (seed, done.stderr)
                own += 1
    assert refused > 50 and own > 10, (refused, own)
    print(f"{refused} CSVs that verify refuses, {own} that a report alone refuses: passed")


def many_rows():
    """100,000 rows: the numbers, and what they cost."""
    text = sample_profiles.many(random.Random(3))
    see(text, "many rows")
    with Place(text.encode()) as place:
        before = resource.getrusage(resource.RUSAGE_CHILDREN)
        start = time.monotonic()
        done = run(place.csv, "--output", place.page)
        wall = time.monotonic() - start
        after = resource.getrusage(resource.RUSAGE_CHILDREN)
        assert done.returncode == 0
        spent = after.ru_utime + after.ru_stime - before.ru_utime - before.ru_stime
        print(f"100,000 rows: passed, {spent:.2f} s of a processor, {wall:.2f} s in all")


def pictures(page):
    """Each SVG as XML: by Python, and by xmllint, where it is installed."""
    found = re.findall(r"<svg .*?</svg>", page)
    for svg in found:
        picture = ElementTree.fromstring(svg)
        (bar,) = picture
        assert (picture.tag, bar.tag, len(bar)) == ("svg", "rect", 0), svg
        assert picture.attrib["viewbox"] == "0 0 1000 20" and 0 <= int(bar.attrib["width"]) <= 1000, svg
    print(f"{len(found)} pictures as XML: passed")
    if not shutil.which("xmllint"):
        print("pictures: skipped, xmllint is not installed")
        return
    whole = "<all>" + "".join(found) + "</all>"
    done = subprocess.run(["xmllint", "--noout", "-"], input=whole.encode(), capture_output=True, timeout=60)
    assert done.returncode == 0 and found, done.stderr
    print(f"{len(found)} pictures by xmllint: passed")


def main():
    random_profiles()
    some_columns()
    odd_profiles()
    pages_by_hand()
    each_byte_changed()
    faults()
    as_verify()
    many_rows()
    pictures(see(profile(random.Random(4), 300), "pictures"))


main()
