"""While a folder's entries are looked at, the program is in that folder. All relative paths mean what they meant before,
and if it can't go there or back, nothing is read or written in another place."""
import os
import subprocess
import unittest

from lib.program import PROGRAM, Serve
from lib.submissions import records, submit
from lib.trees import SKIPPED, UNREAD, InFolder, lines, profile, read, read_skipped, walk
from verify_lists import contents, expected, moments, rows_in, verify

# the folders that have entries
FOLDERS = [b"/", b"/deep", b"/deep/in", b"/deep/in/a", b"/other"]
# the first change of the working folder only tries whether the program can go to where it is
TRIED = 1


class WorkingFolder(InFolder):
    def setUp(self):
        super().setUp()
        for folder in FOLDERS:
            self.folder(folder)
            # (names that are those of files in the folder that the program is started in)
            for name in (b"a.txt", b"list.csv", b"out.csv", b"out.csv.0.unfinished", b"tree"):
                self.file(folder + b"/" + name, folder + name)
        self.folder(b"/empty")
        self.rows = walk(self.top)[0]
        self.due = profile(self.top, "--quiet")
        self.same(self.due[1], self.rows)
        self.all = self.seen()

    def seen(self):
        """All that is in the tree: each path with its type, moment and bytes."""
        found = {}
        for folder, _, names in os.walk(self.top):
            found[folder] = os.stat(folder).st_mtime_ns
            for name in names:
                with open(os.path.join(folder, name), "rb") as file:
                    found[os.path.join(folder, name)] = (os.stat(file.fileno()).st_mtime_ns, file.read())
        return found

    def preloading(self, **how):
        return os.environ | {"LD_PRELOAD": os.environ["PRELOAD_CHDIRS"]} | {name: str(value) for name, value in how.items()}

    def contents(self, path):
        with open(path, "rb") as file:
            return file.read()


class Relative(WorkingFolder):
    def test_folder(self):
        """The folder by a relative path, from where it lies, from itself, and from below it."""
        for start, path in ((b"", "tree"), (b"", "./tree/"), (b"", "tree/deep/.."), (b"/tree", "."), (b"/tree", "../tree"), (b"/tree/deep/in", "../../")):
            with self.subTest(start=start, path=path):
                self.assertEqual(profile(path, "--quiet", cwd=self.work + start)[:2], self.due[:2])

    def test_files_of_profile(self):
        """All files are read and written beside the folder that the program was started in."""
        start = self.work + b"/start"
        os.mkdir(start)
        words = ["--manifest", "sums", "--skipped", "../skipped.csv", "--report", "page.html", "--quiet"]
        self.assertEqual(profile("../tree", "--output", "out.csv", *words, cwd=start)[0], 0)
        self.assertEqual(sorted(os.listdir(start)), [b"out.csv", b"page.html", b"sums"])
        self.assertEqual(self.contents(start + b"/out.csv"), self.due[1])
        self.assertEqual(len(self.contents(start + b"/sums").splitlines()), len([row for row in self.rows if row["TYPE"] == "File"]))
        self.assertEqual(read_skipped(self.work + b"/skipped.csv"), [])
        self.assertEqual(self.seen(), self.all)

    def test_list_of_verify(self):
        start = self.work + b"/start"
        os.mkdir(start)
        with open(start + b"/list.csv", "wb") as file:
            file.write(self.due[1])
        for words in ([], ["--quick"]):
            self.assertEqual(verify("../tree", "--against", "list.csv", "--quiet", *words, cwd=start)[0], 0)
        self.file(b"/deep/a.txt", b"other bytes")
        for words in ([], ["--quick"]):
            status, out, _ = verify("../tree", "--against", "list.csv", "--quiet", *words, cwd=start)
            self.assertEqual((status, out.count(b"\n"), b"/deep/a.txt" in out), (5, 2, True))

    def test_files_of_submit(self):
        with Serve.lasting() as service:
            status, _ = submit("tree", service.port, 7, "--export", "out.csv", "--skipped", "skipped.csv", "--report", "page.html", cwd=self.work)
        self.assertEqual(status, 0)
        self.assertEqual(sorted(os.listdir(self.work)), [b"out.csv", b"page.html", b"skipped.csv", b"tree"])
        self.assertEqual(set(records(self.contents(self.work + b"/out.csv"))), {row["FILE_PATH"] for row in self.rows})
        self.assertEqual(self.seen(), self.all)


class Start(WorkingFolder):
    """The folder that the program is started in can't be opened or entered, or is no more."""

    def started_in(self, mode, *words):
        """Runs a copy of the program, by a user who is not root, in a folder of this mode."""
        start = self.work + b"/start"
        os.mkdir(start)
        copy = self.work + b"/program"
        with open(PROGRAM, "rb") as file, open(copy, "wb") as into:
            into.write(file.read())
        for path in (self.work, copy):
            os.chmod(path, 0o755)
        how = {"preexec_fn": lambda: os.chmod(start, mode)}
        if os.geteuid() == 0:
            os.chmod(start, mode)
            how = {"user": 65534, "group": 65534, "extra_groups": []}
        try:
            run = subprocess.run([copy, *words], capture_output=True, timeout=120, check=False, cwd=start, **how)
        finally:
            os.chmod(start, 0o700)
            os.rmdir(start)
        return run.returncode, run.stdout, run.stderr

    def test_no_permission(self):
        for mode in (0o000, 0o111, 0o222, 0o444, 0o555, 0o666):
            with self.subTest(mode=oct(mode)):
                self.assertEqual(self.started_in(mode, "profile", self.top, "--quiet")[:2], self.due[:2])

    def test_removed(self):
        start = self.work + b"/start"
        os.mkdir(start)
        run = subprocess.run([PROGRAM, "profile", self.top, "--quiet"], capture_output=True, timeout=120, check=False, cwd=start, preexec_fn=lambda: os.rmdir(start))
        self.assertEqual((run.returncode, run.stdout), self.due[:2])


class Failing(WorkingFolder):
    """Each change of the working folder fails in turn."""

    def setUp(self):
        super().setUp()
        self.out = self.work + b"/out.csv"
        self.listed = self.work + b"/list.csv"
        with open(self.listed, "wb") as file:
            file.write(self.due[1])
        counted = self.work + b"/chdirs"
        self.assertEqual(profile(self.top, "--quiet", env=self.preloading(CHDIRS_FILE=os.fsdecode(counted)))[:2], self.due[:2])
        self.count = os.path.getsize(counted)
        os.unlink(counted)
        # it is tried once, and then it goes to each folder that has entries, and back
        self.assertEqual(self.count, TRIED + 2 * len(FOLDERS))

    def left(self, number):
        """The rows and the skipped entries if the program can't come back from the folder that it went to by the change
        before this one: all files are read later, and each folder is opened once when its parent was listed."""
        folders = [b""] + [row["FILE_PATH"].encode() for row in self.rows if row["TYPE"] == "Folder"]
        last = [path for path in folders if (path or b"/") in FOLDERS][(number - TRIED) // 2 - 1]
        listed = folders[: folders.index(last) + 1]
        here = {row["FILE_PATH"].encode() for row in self.rows if os.path.dirname(row["FILE_PATH"].encode()).rstrip(b"/") in listed}
        rows = {path for path in here if path in folders and os.path.dirname(path).rstrip(b"/") != last}
        return {path.decode() for path in rows}, here - set(listed)

    def skipped_in(self, said):
        return dict(line.rsplit(b": ", 1) for line in lines(said, SKIPPED))

    def check(self, number, status, out, said):
        """Checks the result of a profile of which this change failed."""
        if number == TRIED or number % 2 == 0:
            self.assertEqual((status, out), self.due[:2])
            return
        rows, skipped = self.left(number)
        self.assertEqual(self.skipped_in(said), {path: UNREAD for path in skipped})
        self.assertEqual({row["FILE_PATH"] for row in read(out)}, rows)
        self.assertEqual(status, 5)

    def test_profile(self):
        for number in range(1, self.count + 1):
            with self.subTest(number=number):
                status, out, said = profile(self.top, "--quiet", env=self.preloading(CHDIR_FAILS=number))
                self.check(number, status, out, said)
                # where all behind it fail too, the program goes to no folder any more
                again = profile(self.top, "--quiet", env=self.preloading(CHDIR_FAILS=number, CHDIR_FAILS_ON=1))
                self.assertEqual(again, (status, out, said))
                self.assertEqual(self.seen(), self.all)

    def test_relative_output(self):
        """A file by a relative path is put where it should be, or not at all."""
        start = self.work + b"/start"
        os.mkdir(start)
        for number in range(1, self.count + 1):
            with self.subTest(number=number):
                status, out, said = profile("../tree", "--output", "out.csv", "--quiet", cwd=start, env=self.preloading(CHDIR_FAILS=number))
                self.assertEqual((out, self.seen()), (b"", self.all))
                [found] = os.listdir(start)
                if number == TRIED or number % 2 == 0:
                    self.assertEqual((status, found), (0, b"out.csv"))
                    self.assertEqual(self.contents(start + b"/out.csv"), self.due[1])
                else:
                    self.assertEqual((status, lines(said, b"fault: "), found), (4, [b"Output"], b"out.csv.0.unfinished"))
                os.unlink(start + b"/" + found)

    def test_whole_output(self):
        for number in range(1, self.count + 1):
            status, out, said = profile(self.top, "--output", self.out, "--quiet", env=self.preloading(CHDIR_FAILS=number))
            self.assertEqual(out, b"")
            self.check(number, status, self.contents(self.out), said)
            self.assertEqual((self.seen(), sorted(os.listdir(self.work))), (self.all, [b"list.csv", b"out.csv", b"tree"]))

    def test_page(self):
        """A page that is created after the walk is not created in another place."""
        start = self.work + b"/start"
        os.mkdir(start)
        for number in range(TRIED + 2, self.count + 1, 2):
            status, out, _ = profile(self.top, "--report", "page.html", "--quiet", cwd=start, env=self.preloading(CHDIR_FAILS=number))
            self.assertEqual((status, len(read(out)), os.listdir(start)), (4, len(self.left(number)[0]), []))
            self.assertEqual((self.seen(), sorted(os.listdir(self.work))), (self.all, [b"list.csv", b"start", b"tree"]))

    def test_verify(self):
        items, when = contents(self.top), moments(self.top)
        for number in range(1, self.count + 1):
            for words in ([], ["--quick"]):
                with self.subTest(number=number, words=words):
                    status, out, said = verify(self.top, "--against", self.listed, *words, env=self.preloading(CHDIR_FAILS=number))
                    skipped = set() if number == TRIED or number % 2 == 0 else self.left(number)[1]
                    if words:
                        # files are not read
                        skipped = {path for path in skipped if os.path.isdir(self.top + path)}
                    due = expected(items, items, "md5", True, dict.fromkeys(skipped, UNREAD), (when, when) if words else None)
                    # (of a folder that was there, and that can't be listed later, nothing else is reported)
                    self.assertEqual((rows_in(out), status), (due, 5 if skipped else 0), said)

    def test_submit(self):
        """A submission is refused or skips what it can't read, and writes no file in another place."""
        start = self.work + b"/start"
        os.mkdir(start)
        with Serve.lasting() as service:
            for number in range(TRIED + 2, 2 * self.count, 2):
                words = ["--export", "out.csv", "--skipped", "skipped.csv", "--report", "page.html"]
                status, _ = submit("../tree", service.port, number, *words, cwd=start, env=self.preloading(CHDIR_FAILS=number))
                self.assertNotEqual(status, 0)
                self.assertEqual((os.listdir(start), self.seen()), ([], self.all))
                self.assertEqual(sorted(os.listdir(self.work)), [b"list.csv", b"start", b"tree"])

    def test_link_in_the_middle(self):
        """A folder is exchanged for a link to another one before the program goes there, or while it is there: it goes to
        the folder that it opened."""
        target, link = self.work + b"/target", self.work + b"/link"
        os.mkdir(target)
        for name in (b"a.txt", b"out.csv"):
            with open(target + b"/" + name, "wb") as file:
                file.write(b"of another folder")
        sizes = {row["FILE_PATH"]: row["SIZE"] for row in self.rows}
        for folder, numbers in ((b"/deep", (4, 5)), (b"/other", (6, 7)), (b"/deep/in", (8, 9)), (b"/deep/in/a", (10, 11))):
            for number in numbers:
                with self.subTest(folder=folder, number=number):
                    os.symlink(target, link)
                    paths = {"EXCHANGED_BY": os.fsdecode(link), "EXCHANGED_TO": os.fsdecode(self.top + folder)}
                    status, out, _ = profile(self.top, "--quiet", env=self.preloading(EXCHANGED_CHDIR=number, **paths))
                    self.assertTrue(os.path.islink(self.top + folder))
                    os.unlink(self.top + folder)
                    os.rename(link, self.top + folder)
                    # what lies in the folder that was listed last is opened through it too, and otherwise by its path
                    found = {row["FILE_PATH"]: row["SIZE"] for row in read(out)}
                    self.assertEqual(found.items() - sizes.items(), set())
                    self.assertEqual((found == sizes, status), (True, 0) if folder == FOLDERS[3] else (False, 5))

    def test_start_exchanged(self):
        """The folder that the program was started in is moved away while it is in another one: it goes back to the folder, not
        to its path."""
        start, other = self.work + b"/start", self.work + b"/away"
        os.mkdir(start)
        for number in range(TRIED + 1, self.count + 1):
            os.mkdir(other)
            paths = {"EXCHANGED_BY": os.fsdecode(start), "EXCHANGED_TO": os.fsdecode(other)}
            status, _, _ = profile(self.top, "--output", "out.csv", "--quiet", cwd=start, env=self.preloading(EXCHANGED_CHDIR=number, **paths))
            self.assertEqual((status, os.listdir(start), os.listdir(other)), (0, [], [b"out.csv"]))
            self.assertEqual(self.contents(other + b"/out.csv"), self.due[1])
            os.unlink(other + b"/out.csv")
            os.rmdir(other)


if __name__ == "__main__":
    unittest.main()
