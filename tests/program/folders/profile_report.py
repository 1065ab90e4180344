"""The page of --report is the one that `report` makes of the CSV, but for the line that says which registry identified the files;
it comes after the CSV, and its faults are its own. The summary names that registry."""
import hashlib
import os
import re
import resource
import signal
import subprocess
import unittest

from lib.program import EVERYDAY, PROGRAM, SAMPLE
from lib.trees import InFolder, lines, profile, registry_of, walk

# when a page was made
MADE = re.compile(rb" at \d{4}-\d\d-\d\dT\d\d:\d\d:\d\d \(UTC\)\.")
# the page has more bytes, and a CSV of four entries fewer
LIMIT = 2_000


def escaped(text):
    """Escapes a text as a page has it."""
    return text.replace(b"&", b"&amp;").replace(b"<", b"&lt;").replace(b">", b"&gt;").replace(b'"', b"&quot;")


class Page(InFolder):
    def setUp(self):
        super().setUp()
        self.folder(b"/in")
        for path, content in ((b"/a.txt", b"a"), (b"/in/b.bin", b"bb"), (b"/in/c.txt", b"a")):
            self.file(path, content)
        self.out, self.page = self.work + b"/out.csv", self.work + b"/page.html"

    def content(self, path):
        with open(path, "rb") as file:
            return file.read()

    def only(self, *names):
        self.assertEqual(sorted(os.listdir(self.work)), sorted([b"tree", *names]))

    def reported(self, csv_path, title):
        """Makes the page of a CSV by `report`, which does not know the registry."""
        done = subprocess.run([PROGRAM, "report", csv_path, b"--title=" + title], capture_output=True, timeout=120, check=True)
        return MADE.sub(b"", done.stdout)

    def check(self, text, name, registry=None, title=b"tree"):
        """Checks a page of the CSV with this text and name, or of a folder's name, against the one that `report` makes. Its
        title is the folder's name."""
        kept = self.work + b"/kept"
        os.makedirs(kept, exist_ok=True)
        path = kept + b"/" + name
        with open(path, "wb") as file:
            file.write(text)
        page = self.content(self.page)
        due = registry_of(registry)
        self.assertEqual(page.count(b"Registry: " + escaped(due) + b". "), 1, page[:3000])
        self.assertEqual(MADE.sub(b"", page.replace(b"Registry: " + escaped(due) + b". ", b"")), self.reported(path, title))
        os.remove(path)
        os.rmdir(kept)

    def test_beside_each_output(self):
        for words in ([], ["--quiet"], ["--hash", "sha256", "--manifest", self.work + b"/sums"], ["--hash", "none", "--match-all"], ["--skipped", self.work + b"/skipped.csv"]):
            plain = profile(self.top, *words)
            status, out, err = profile(self.top, *words, "--report", self.page)
            self.assertEqual((status, out), plain[:2])
            self.check(out, b"tree")
            status, out, err = profile(self.top, *words, "--output", self.out, "--report", self.page)
            self.assertEqual((status, out, self.content(self.out)), (0, b"", plain[1]))
            self.check(plain[1], b"out.csv")
            self.assertEqual([line for line in os.listdir(self.work) if b"unfinished" in line], [])

    def test_odd_names(self):
        """The page's title is the folder's last name, whatever it is called by, and the page names the CSV."""
        odd = self.work + b'/a "<b>&\xc3\xa9'
        os.rename(self.top, odd)
        for path in (odd, odd + b"/", odd + b"/in/.."):
            out = profile(path, "--report", self.page)[1]
            self.check(out, os.path.basename(odd), title=os.path.basename(odd))
        for name in (b"<i>.csv", b"a & b"):
            self.assertEqual(profile(odd, "--output", self.work + b"/" + name, "--report", self.page)[0], 0)
            self.check(self.content(self.work + b"/" + name), name, title=os.path.basename(odd))

    def test_registry(self):
        """The path is as it was given, the MD5 is hashlib's of the file's bytes, and it stands on standard error too."""
        own = self.work + b"/own & odd.csv"
        for text in (self.content(SAMPLE), self.content(EVERYDAY), b"F,a/1,A,,,\n", b""):
            with open(own, "wb") as file:
                file.write(text)
            for quiet in ([], ["--quiet"]):
                status, out, err = profile(self.top, "--registry", own, "--report", self.page, *quiet)
                self.assertEqual(status, 0)
                due = own + b", MD5 " + hashlib.md5(text).hexdigest().encode()
                self.assertEqual([line for line in lines(err, b"registry: ") if b" has no formats" not in line], [due])
                self.check(out, b"tree", own)
        self.assertEqual(lines(profile(self.top)[2], b"registry: "), [registry_of(None)])

    def test_something_skipped(self):
        os.mkfifo(self.top + b"/pipe")
        status, out, _ = profile(self.top, "--report", self.page)
        self.assertEqual(status, 5)
        self.check(out, b"tree")

    def test_in_the_folder(self):
        """The page has no row; a former one has."""
        inside = self.top + b"/page.html"
        for count in (4, 5):
            self.assertEqual(len(walk(self.top)[0]), count)
            out = profile(self.top, "--report", inside)[1]
            os.rename(inside, self.page)
            self.check(out, b"tree")
            self.assertEqual(len(out.splitlines()), count + 1)
            os.rename(self.page, inside)

    def test_replaced(self):
        """A former page stays until the new one is complete."""
        with open(self.page, "wb") as file:
            file.write(b"before")
        self.assertEqual(profile(self.work + b"/none", "--report", self.page)[0], 4)
        self.assertEqual(self.content(self.page), b"before")
        self.check(profile(self.top, "--report", self.page)[1], b"tree")
        self.only(b"page.html")

    def test_no_such_place(self):
        """Nothing is read or written then."""
        for path in (self.work + b"/none/page.html", self.top, b"/dev/null"):
            status, out, err = profile(self.top, "--output", self.out, "--report", path)
            self.assertEqual((status, out, lines(err, b"fault: ")), (4, b"", [b"Output"]), path)
        self.only()

    def test_same_place(self):
        for path in (self.page, self.work + b"/./page.html"):
            for option in ("--output", "--manifest", "--skipped"):
                status, out, err = profile(self.top, option, path, "--report", self.page)
                self.assertEqual((status, out, lines(err, b"fault: ")), (4, b"", [b"Output"]), path)
                self.assertIn(self.page + b": another FILE has this path", err)
        self.only()

    def small(self, *words):
        """Runs `profile` where no file can have more than some bytes."""

        def limited():
            resource.setrlimit(resource.RLIMIT_FSIZE, (LIMIT, LIMIT))
            signal.signal(signal.SIGXFSZ, signal.SIG_IGN)

        return subprocess.run([PROGRAM, "profile", self.top, *words], capture_output=True, timeout=120, preexec_fn=limited, restore_signals=False)

    def test_page_not_written(self):
        """The CSV and the list are in their places, and only the page is missing, or as it was before."""
        plain = profile(self.top)[1]
        self.assertLess(len(plain), LIMIT)
        for there in ([], [b"page.html"]):
            for path in there:
                with open(self.work + b"/" + path, "wb") as file:
                    file.write(b"before")
            done = self.small("--output", self.out, "--manifest", self.work + b"/sums", "--report", self.page)
            self.assertEqual((done.returncode, done.stdout, lines(done.stderr, b"fault: ")), (4, b"", [b"Write"]))
            self.assertIn(self.page + b": could not be written", done.stderr)
            self.only(b"out.csv", b"sums", *there)
            self.assertEqual(self.content(self.out), plain)
            done = self.small("--report", self.page)
            self.assertEqual((done.returncode, done.stdout, lines(done.stderr, b"fault: ")), (4, plain, [b"Write"]))
            self.only(b"out.csv", b"sums", *there)
            for path in there:
                self.assertEqual(self.content(self.work + b"/" + path), b"before")

    def test_csv_not_written(self):
        """Without the CSV there is no page."""
        for number in range(100):
            self.file(b"/%d.txt" % number, b"")
        done = self.small("--output", self.out, "--report", self.page)
        self.assertEqual((done.returncode, lines(done.stderr, b"fault: ")), (4, [b"Write"]))
        self.assertIn(self.out + b": could not be written", done.stderr)
        self.only()
        with open("/dev/full", "wb") as full:
            done = subprocess.run([PROGRAM, "profile", self.top, "--report", self.page], stdout=full, stderr=subprocess.PIPE, timeout=120)
        self.assertEqual((done.returncode, lines(done.stderr, b"fault: ")), (4, [b"Write"]))
        self.only()


if __name__ == "__main__":
    unittest.main()
