"""What `submit` writes: the profile's number, and the files of --export and --skipped, which must not lie in the folder."""
import os
import re
import resource
import signal
import subprocess
import unittest

from lib.connections import free_port
from lib.frames import ADD_FILE, CAUSES, EXPORT
from lib.lying import Lying, closing, first_of, refusing
from lib.program import PROGRAM, Serve
from lib.submissions import WithSmallTree, fault, submit, submit_and_print
from lib.trees import KIND, LINK, NAME, SKIPPED, lines, read_skipped, walk

IN_FOLDER = "%s: lies in the folder that is submitted, and would change it: choose another place"
NO_FOLDER = "%s: cannot be created: its folder does not exist: create it first"


def page_in(path):
    """Returns the page in a file, without the moment when it was made."""
    with open(path, "rb") as file:
        return re.sub(rb" at [^ ]+ \(UTC\)", b"", file.read())


class Outputs(WithSmallTree):
    def setUp(self):
        super().setUp()
        self.skipped = self.work + b"/skipped.csv"


class Printed(Outputs):
    def test_number_of_the_profile(self):
        with Serve.lasting() as service:
            for number, client in enumerate((7, 8, 9), 1):
                for _ in range(2):
                    self.assertEqual(submit_and_print(self.top, service.port, client), (0, b"profile %d\n" % number, b""))
            # also where something was skipped
            os.symlink(b"z.bin", self.top + b"/link")
            status, out, _ = submit_and_print(self.top, service.port, 8)
            self.assertEqual((status, out), (5, b"profile 2\n"))

    def test_no_number(self):
        """Without a profile, or where the walk did not come to its end."""
        self.assertEqual(submit_and_print(self.top, free_port(), 7, "--wait", "0")[:2], (4, b""))
        with Lying(first_of(ADD_FILE, refusing(CAUSES["Store"]))) as service:
            self.assertEqual(submit_and_print(self.top, service.port, 7)[:2], (4, b""))

    def test_number_of_a_profile_that_was_not_compared(self):
        with Lying(first_of(EXPORT, refusing(CAUSES["NoSuchProfile"]))) as service:
            self.assertEqual(submit_and_print(self.top, service.port, 7)[:2], (4, b"profile 1\n"))


class Written(Outputs):
    def test_skipped(self):
        """Each path with its reason as on standard error, whatever bytes a path has."""
        os.symlink(b"z.bin", self.top + b'/a "link", with a comma')
        os.mkfifo(self.top + b"/pipe\nof two lines")
        self.file(b"/caf\xe9", b"its name is no text")
        with Serve.lasting() as service:
            status, err = submit(self.top, service.port, 7, "--skipped", self.skipped, "--export", self.export)
        paths = [(b'/a "link", with a comma', LINK), (b"/caf\xe9", NAME), (b"/pipe\nof two lines", KIND)]
        self.assertEqual(status, 5)
        self.assertEqual(read_skipped(self.skipped), paths)
        with open(self.skipped, "rb") as file:
            self.assertTrue(file.read().startswith(b'"path","reason"\n"/a ""link"", with a comma","it is '))
        self.assertEqual(len(lines(err, SKIPPED)), 3)
        self.same(self.exported(), walk(self.top)[0])
        self.assertEqual(self.beside(), [b"skipped.csv"])

    def test_report(self):
        """The page is the one that `report` makes of the export, with the folder's name as its title. It names no registry,
        which only the service knows."""
        page, made = self.work + b"/page.html", self.work + b"/made.html"
        with Serve.lasting() as service:
            for words, name in ((["--export", self.export], b"export.csv"), ([], b"tree")):
                self.assertEqual(submit(self.top, service.port, 7, *words, "--report", page), (0, b""))
                named = self.work + b"/in/" + name
                os.makedirs(self.work + b"/in", exist_ok=True)
                with open(named, "wb") as file:
                    file.write(self.exported())
                subprocess.run([PROGRAM, "report", named, "--title", "tree", "--output", made], check=True, timeout=120)
                self.assertEqual(page_in(page), page_in(made))
                self.assertNotIn(b"Registry: ", page_in(page))

    def test_report_not_written(self):
        """The export is in its place, and the page is missing, or as it was before."""
        page = self.work + b"/page.html"

        def small():
            resource.setrlimit(resource.RLIMIT_FSIZE, (2_000, 2_000))
            signal.signal(signal.SIGXFSZ, signal.SIG_IGN)

        with Serve.lasting() as service:
            status, err = submit(self.top, service.port, 7, "--export", self.export, "--report", page, preexec_fn=small, restore_signals=False)
            self.assertEqual((status, err), (4, fault("Write", os.fsdecode(page) + ": could not be written: is the disk full, or its reader gone?")))
            self.same(self.exported(), walk(self.top)[0])
            self.assertEqual(self.beside(), [])
            for option, path in (("--export", page), ("--skipped", self.work + b"/./page.html")):
                status, err = submit(self.top, service.port, 7, option, path, "--report", page)
                self.assertEqual((status, err), (4, fault("Output", os.fsdecode(page) + ": another FILE has this path: choose another place")))
        self.assertEqual(self.beside(), [])

    def test_nothing_skipped(self):
        with Serve.lasting() as service:
            self.assertEqual(submit(self.top, service.port, 7, "--skipped", self.skipped), (0, b""))
        self.assertEqual(read_skipped(self.skipped), [])

    def test_what_is_not_in_the_folder_is_not_skipped(self):
        with Serve.lasting() as service:
            self.assertEqual(submit(self.top, service.port, 7), (0, b""))
            os.remove(self.top + b"/z.bin")
            ended = submit(self.top, service.port, 7, "--skipped", self.skipped)
        self.assertEqual(ended, (5, b"not in the folder: /z.bin\n"))
        self.assertEqual(read_skipped(self.skipped), [])

    def test_unchanged_after_a_fault(self):
        """Files that were there stay as they were, and nothing is left beside them."""
        words = ["--wait", "0", "--export", self.export, "--skipped", self.skipped]
        for there in (None, b"from before"):
            for lie in (closing, first_of(ADD_FILE, refusing(CAUSES["Store"]))):
                self.put(there)
                with Lying(lie) as service:
                    self.assertEqual(submit(self.top, service.port, 7, *words)[0], 4)
                self.assertEqual([content_of(path) for path in (self.export, self.skipped)], [there, there])

    def test_walk_without_export(self):
        """Where the walk came to its end and the export did not, what was skipped is known, and written."""
        for there in (None, b"from before"):
            self.put(there)
            with Lying(first_of(EXPORT, refusing(CAUSES["NoSuchProfile"]))) as service:
                ended = submit(self.top, service.port, 7, "--export", self.export, "--skipped", self.skipped)
            self.assertEqual((ended[0], content_of(self.export)), (4, there))
            self.assertEqual(read_skipped(self.skipped), [])

    def put(self, content):
        """Makes both files with this content, or removes them."""
        for path in (self.export, self.skipped):
            if content is None and os.path.exists(path):
                os.remove(path)
            elif content is not None:
                with open(path, "wb") as file:
                    file.write(content)


def content_of(path):
    """Returns what is in a file, or None where it is not there."""
    if not os.path.exists(path):
        return None
    with open(path, "rb") as file:
        return file.read()


class InTheFolder(Outputs):
    def refused(self, path, sentence):
        """Checks that neither file may have this path. Nobody listens: that is seen before anything is sent."""
        before = self.moments()
        for option in ("--export", "--skipped"):
            ended = submit(self.top, 1, 7, "--wait", "0", option, path)
            self.assertEqual(ended, (4, fault("Output", sentence % os.fsdecode(path))), path)
        self.assertEqual(self.moments(), before)

    def moments(self):
        return {folder: os.stat(folder).st_mtime_ns for folder, _, _ in os.walk(self.top)}

    def test_refused(self):
        os.symlink(self.top + b"/sub", self.work + b"/link")
        places = (b"/tree/x.csv", b"/tree/sub/x.csv", b"/tree/a.bin", b"/link/x.csv", b"/tree/../tree/x.csv", b"/tree//sub/./x.csv")
        for place in places:
            self.refused(self.work + place, IN_FOLDER)
        self.refused(self.work + b"/none/x.csv", NO_FOLDER)

    def test_relative(self):
        for path in ("x.csv", "./x.csv", "sub/x.csv"):
            ended = submit(b".", 1, 7, "--wait", "0", "--export", path, cwd=self.top)
            self.assertEqual(ended, (4, fault("Output", IN_FOLDER % path)))

    def test_beside(self):
        """A folder whose name begins alike is another; so is the one above."""
        os.mkdir(self.work + b"/tree2")
        with Serve.lasting() as service:
            for path in (b"../x.csv", b"../tree2/x.csv", b"sub/../../y.csv"):
                self.assertEqual(submit(b".", service.port, 7, "--export", path, cwd=self.top), (0, b""), path)
        self.assertEqual(self.beside(), [b"tree2", b"x.csv", b"y.csv"])


if __name__ == "__main__":
    unittest.main()
