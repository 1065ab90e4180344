"""Folders that change while `profile` or `submit` reads them: a listing has a name twice, or something else is put in a
file's place."""
import os
import unittest

from lib.program import Serve
from lib.submissions import records, submit
from lib.trees import CHANGED, KIND, SKIPPED, TWICE, InChangingFolder, exchanged, lines, profile, status_of, walk

# `submit` lists each folder once before that, to count.
DUE_OF_SUBMIT = {("file", 1): None, ("pipe", 1): KIND} | {
    (kind, look + 1 if look else 0): reason for (kind, look), reason in exchanged().items()
}
DUE = {"profile": exchanged(), "submit": DUE_OF_SUBMIT}


class Exchanged(InChangingFolder):
    def setUp(self):
        super().setUp()
        self.export = self.work + b"/export.csv"

    def ended(self, command, **how):
        """Runs `profile` or `submit` while the folder changes: the status, the skipped entries, and the CSV."""
        env = os.environ | {"LD_PRELOAD": os.environ["PRELOAD_CHANGES"]} | how
        if command == "profile":
            status, text, err = profile(self.top, "--quiet", env=env)
        else:
            with Serve.lasting() as service:
                status, err = submit(self.top, service.port, 7, "--export", self.export, env=env)
            with open(self.export, "rb") as file:
                text = file.read()
        return status, lines(err, SKIPPED), text

    def check(self, command, ended, reason):
        """Checks that the file was skipped for this reason, and nothing else; or nothing at all."""
        status, skipped, text = ended
        due = 5 if reason and command == "submit" else status_of({self.PATH: reason} if reason else {})
        self.assertEqual((status, skipped), (due, [self.PATH + b": " + reason] if reason else []))
        due = {row["FILE_PATH"] for row in walk(self.top)[0]} - ({self.PATH.decode()} if reason and reason != TWICE else set())
        self.assertEqual(set(records(text)), due)

    def test_listed_twice(self):
        """The second one is skipped."""
        for command in ("profile", "submit"):
            self.make("file")
            self.check(command, self.ended(command, LISTED_TWICE="b.txt"), TWICE)

    def test_exchanged(self):
        for command in ("profile", "submit"):
            for (kind, look), reason in DUE[command].items():
                with self.subTest(command=command, kind=kind, look=look):
                    self.make(kind)
                    self.check(command, self.ended(command, **self.exchanging(look)), reason)
                    self.assertFalse(os.path.lexists(self.other))

    def test_link_in_the_middle(self):
        """A folder is exchanged for a link to another one while it is listed. What lies in it is looked at and read through
        the folder that was opened, so the profile is that of the first one."""
        self.make("file")
        self.folder(b"/../target")
        for name in (b"/a.txt", b"/b.txt", b"/c.txt"):
            self.file(b"/../target" + name, b"of another folder")
        link, there = self.work + b"/link", self.top + b"/in"
        os.symlink(self.work + b"/target", link)
        due = profile(self.top, "--quiet")
        paths = {"EXCHANGED_BY": os.fsdecode(link), "EXCHANGED_TO": os.fsdecode(there), "EXCHANGED_BOTH": "1"}
        for look in range(1, 3):
            with self.subTest(look=look):
                status, skipped, text = self.ended("profile", EXCHANGED="b.txt", EXCHANGED_LOOK=str(look), **paths)
                self.assertTrue(os.path.islink(there))
                self.assertEqual((status, skipped, text), (due[0], [], due[1]))
                os.unlink(there)
                os.rename(link, there)
                os.symlink(self.work + b"/target", link)


if __name__ == "__main__":
    unittest.main()
