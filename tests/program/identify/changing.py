"""Files that change, grow or vanish while `identify` reads them: of such a file nothing is printed but that it changed or can't be
read, and what is printed of the others is as ever. And where the program is meanwhile: it stays in the folder that it reads, and each
relative path means what it meant before.

A preloaded library changes the file at a known call: ../folders/states.c, ../folders/changes.c and ../folders/chdirs.c.
"""

import os
import time
import unittest

from asking import identify, json_lines
from lib.trees import CHANGED, KIND, UNREAD, InChangingFolder, InFolder, exchanged

LINK = b"it is a symbolic link, which is not followed"
MISSING = b"there is no such file, or it can't be looked at"
# a file of one read, and one of two, of which the second one begins behind the first
SHORT, LONG = b"GIF87a" + b"." * 100, b"GIF87a" + b"." * 200_000
# when a file changes, and how; a short one has no read but that of its end
HOW = ("write", "rename", "touch")


def paths_of(out):
    return [os.fsencode(line["path"]) for line in json_lines(out)]


def preloading(library, **how):
    return os.environ | {"LD_PRELOAD": os.environ[library]} | {name: os.fsdecode(value) for name, value in how.items()}


class Changing(InFolder):
    def setUp(self):
        super().setUp()
        self.big, self.small = self.top + b"/big.gif", self.top + b"/small.gif"
        self.opens, self.list = self.work + b"/opens", self.work + b"/list"
        with open(self.list, "wb") as file:
            file.write(self.big + b"\n" + self.small + b"\n")
        self.ways = {"named": [self.big, self.small], "folder": ["-r", self.top], "listed": ["--files-from", self.list]}

    def make(self, content):
        """A file, what takes its place, and one beside it. They lie a tick of any file system's clock back."""
        self.file(b"/big.gif", content)
        self.file(b"/../other", b"x" * len(content))
        self.file(b"/small.gif", b"GIF89a")
        time.sleep(0.05)
        if os.path.exists(self.opens):
            os.unlink(self.opens)

    def check(self, words, env, reason):
        """Checks that the file is reported for this reason, and that the one beside it is identified."""
        out, err, status = identify("--json", *words, env=env, timeout=60)
        self.assertEqual((paths_of(out), err, status), ([self.small], b"droid_desk: " + self.big + b": " + reason + b"\n", 5))
        self.assertEqual([form["puid"] for form in json_lines(out)[0]["formats"]], ["fmt/4"])

    def check_each(self, content, when, how, **more):
        for way, words in self.ways.items():
            with self.subTest(size=len(content), when=when, how=how, way=way):
                self.make(content)
                places = {"STATE_OF": self.big, "STATE_BY": self.work + b"/other", "OPENS_TO": self.opens}
                self.check(words, preloading("PRELOAD_STATES", STATE_WHEN=when, STATE_DO=how, **places, **more), CHANGED)
                with open(self.opens, encoding="utf-8") as file:
                    self.assertEqual(file.read().split().count("big.gif"), 1)

    def test_changes(self):
        for content, moments in ((SHORT, ("open", "end")), (LONG, ("open", "read", "end"))):
            for when in moments:
                for how in HOW:
                    self.check_each(content, when, how)

    def test_grows(self):
        for content in (b"", SHORT, LONG):
            for when in ("open", "end"):
                self.check_each(content, when, "none", STATE_GROWS=self.big)

    def test_unchanged(self):
        for way, words in self.ways.items():
            with self.subTest(way=way):
                self.make(LONG)
                out, err, status = identify("--json", *words, env=preloading("PRELOAD_STATES", STATE_OF=self.big, STATE_WHEN="never"))
                self.assertEqual((paths_of(out), err, status), ([self.big, self.small], b"", 0))

    def test_removed(self):
        """The file is moved away before the program looks at it for the first time, for the second time, or before it opens it."""
        for way, words in self.ways.items():
            for look, reason in ((1, KIND if way == "folder" else MISSING), (2, UNREAD), (0, UNREAD)):
                with self.subTest(way=way, look=look):
                    self.make(SHORT)
                    places = {"EXCHANGED_BY": self.big, "EXCHANGED_TO": self.work + b"/away"}
                    self.check(words, preloading("PRELOAD_CHANGES", EXCHANGED="big.gif", EXCHANGED_LOOK=str(look), **places), reason)
                    self.assertFalse(os.path.exists(self.big))


class Exchanged(InChangingFolder):
    def test_exchanged(self):
        """Another file, a pipe or a link takes the file's place: it is not taken for the one that was listed, and no pipe is opened."""
        folder = self.top + b"/in/"
        for (kind, look), reason in exchanged(LINK).items():
            with self.subTest(kind=kind, look=look):
                self.make(kind)
                out, err, status = identify("--json", "-r", self.top, env=preloading("PRELOAD_CHANGES", **self.exchanging(look)), timeout=60)
                due = [b"a.txt", b"c.txt"] if reason else [b"a.txt", b"b.txt", b"c.txt"]
                self.assertEqual(paths_of(out), [folder + name for name in due])
                self.assertEqual(err, b"droid_desk: " + folder + b"b.txt: " + reason + b"\n" if reason else b"")
                self.assertEqual(status, 5 if reason not in (None, LINK) else 0)

    def test_link_in_the_middle(self):
        """A folder is exchanged for a link to another one while its files are read: they are those of the folder that was listed."""
        self.make("file")
        self.folder(b"/../target")
        for name in (b"/a.txt", b"/b.txt", b"/c.txt"):
            self.file(b"/../target" + name, b"GIF87a")
        link, there = self.work + b"/link", self.top + b"/in"
        due = identify("--json", "-r", self.top)
        for look in (1, 2, 0):
            with self.subTest(look=look):
                os.symlink(self.work + b"/target", link)
                places = {"EXCHANGED_BY": link, "EXCHANGED_TO": there, "EXCHANGED_BOTH": "1"}
                env = preloading("PRELOAD_CHANGES", EXCHANGED="b.txt", EXCHANGED_LOOK=str(look), **places)
                self.assertEqual(identify("--json", "-r", self.top, env=env), due)
                self.assertTrue(os.path.islink(there))
                os.unlink(there)
                os.rename(link, there)


# the PUID of each of these files, by its path below the folder that the program is started in
PUIDS = {
    b"a.gif": "fmt/4",
    b"tree/a.gif": "fmt/3",
    b"tree/in/a.gif": "fmt/4",
    b"tree/in/b.gif": "fmt/3",
    b"tree/in/deep/a.gif": "fmt/3",
    b"tree/out/a.gif": "fmt/4",
    b"tree/out/b.gif": "fmt/4",
}
BYTES = {"fmt/3": b"GIF87a", "fmt/4": b"GIF89a"}


class Staying(InFolder):
    def setUp(self):
        super().setUp()
        for folder in (b"/in/deep", b"/out", b"/empty"):
            self.folder(folder)
        for path, puid in PUIDS.items():
            self.file(b"/../" + path, BYTES[puid])
        self.walked = [path for path in sorted(PUIDS, key=lambda path: (path.count(b"/"), path)) if path.startswith(b"tree/")]

    def check(self, out):
        """Checks that each file is named as what it is."""
        for line in json_lines(out):
            path = os.fsencode(os.path.relpath(os.fsencode(line["path"]), self.work) if os.path.isabs(line["path"]) else line["path"])
            self.assertEqual([form["puid"] for form in line["formats"]], [PUIDS[path]], path)

    def test_relative_paths(self):
        """Files, a folder and a list by relative paths, before and behind a folder."""
        with open(self.work + b"/list", "wb") as file:
            file.write(b"a.gif\ntree/in/a.gif\n")
        words = ["a.gif", "-r", "tree", "a.gif", "tree/in/b.gif", "tree/out", "tree/a.gif", "--files-from", "list"]
        out, err, status = identify("--json", *words, cwd=self.work)
        due = [b"a.gif", *self.walked, b"a.gif", b"tree/in/b.gif", b"tree/out/a.gif", b"tree/out/b.gif", b"tree/a.gif", b"a.gif", b"tree/in/a.gif"]
        self.assertEqual((paths_of(out), err, status), (due, b"", 0))
        self.check(out)

    def test_link_behind_a_folder(self):
        os.symlink(b"tree/out", self.work + b"/link")
        out, err, status = identify("--json", "-r", "tree", "link", cwd=self.work)
        self.assertEqual((paths_of(out), err, status), ([*self.walked, b"link/a.gif", b"link/b.gif"], b"", 0))

    def test_failing_changes_of_the_folder(self):
        """Each change of the working folder fails in turn, or all from it on: no file is taken for another one, and each is printed
        or reported."""
        counted = self.work + b"/chdirs"
        words = ["--json", "-r", "tree", "a.gif"]
        due = identify(*words, cwd=self.work, env=preloading("PRELOAD_CHDIRS", CHDIRS_FILE=counted))
        self.assertEqual((paths_of(due[0]), *due[1:]), ([*self.walked, b"a.gif"], b"", 0))
        count = os.path.getsize(counted)
        self.assertGreater(count, 4)
        for number in range(1, count + 1):
            for more in ({}, {"CHDIR_FAILS_ON": "1"}):
                with self.subTest(number=number, more=more):
                    out, err, status = identify(*words, cwd=self.work, env=preloading("PRELOAD_CHDIRS", CHDIR_FAILS=str(number), **more))
                    self.check(out)
                    reported = [line.split(b": ")[1] for line in err.splitlines()]
                    self.assertEqual(status, 5 if reported else 0)
                    # of a folder that can't be listed nothing else is reported
                    left = set(PUIDS) - set(paths_of(out)) - set(reported)
                    self.assertEqual([path for path in left if not any(path.startswith(top + b"/") for top in reported)], [])


if __name__ == "__main__":
    unittest.main()
