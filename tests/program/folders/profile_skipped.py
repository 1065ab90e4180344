"""Entries that can't be profiled are reported with their path and the cause, and the rest is profiled."""
import os
import re
import socket
import subprocess
import unittest

from lib.rows import COLUMNS
from lib.trees import ALL_SKIPPED, CHANGED, KIND, LINK, LINKS, NAME, SKIPPED, UNREAD, InFolder, lines, profile, read, read_skipped, status_of, walk

REASON = re.compile(rb"(.*?): ((?:it |neither |its |same name: |the profile |with DIR, ).*)")


class Skipped(InFolder):
    def reported(self, err):
        """Returns the path of each skipped entry with the reason."""
        found = [REASON.fullmatch(line).groups() for line in lines(err, SKIPPED)]
        self.assertEqual(len(dict(found)), len(found))
        return dict(found)

    def check(self):
        """Profiles the folder, and checks that the rows are those of Python's walk, and that what is skipped is reported
        with the same reasons on standard error, in the file of --skipped and in the summary: its standard error."""
        rows, skipped = walk(self.top)
        file = self.work + b"/skipped.csv"
        status, out, err = profile(self.top, "--skipped", file)
        self.assertEqual(status, status_of(skipped))
        self.same(out, rows)
        self.assertEqual(dict(read_skipped(file)), skipped)
        self.assertEqual(len(read_skipped(file)), len(skipped))
        shown = {path.replace(b"\xe9", b"\\xe9").replace(b"\xff\xfe", b"\\xff\\xfe"): reason for path, reason in skipped.items()}
        self.assertEqual(self.reported(err), shown)
        links = list(skipped.values()).count(LINK)
        self.assertEqual(lines(err, ALL_SKIPPED), [b"%d" % len(skipped)])
        self.assertEqual(lines(err, LINKS), [b"%d" % links] if links else [])
        return err

    def test_kinds_and_names(self):
        self.folder(b"/in")
        self.file(b"/in/kept.txt", b"kept")
        self.file(b"/after.txt", b"after")
        os.symlink(b"in/kept.txt", self.top + b"/link_to_file")
        os.symlink(b"in", self.top + b"/link_to_folder")
        os.symlink(b"nowhere", self.top + b"/in/link_to_nothing")
        os.symlink(b".", self.top + b"/in/link_to_itself")
        os.mkfifo(self.top + b"/pipe")
        with socket.socket(socket.AF_UNIX) as it:
            it.bind(self.top + b"/socket")
        self.file(b"/caf\xe9.txt", b"no text")
        self.folder(b"/in/\xff\xfe")
        self.file(b"/in/\xff\xfe/below.txt", b"not reached")
        self.assertEqual(status_of(walk(self.top)[1]), 5)
        self.check()

    def test_each_reason(self):
        """Two files have a byte more and a byte less than their folder says; a file and a folder can't be opened."""
        for path, content in ((b"/grows", b"abcd"), (b"/shrinks", b"abcde"), (b"/gone", b"go"), (b"/\xff", b"")):
            self.file(path, content)
        os.symlink(b"grows", self.top + b"/link")
        os.mkfifo(self.top + b"/pipe")
        self.folder(b"/sealed")
        self.folder(b"/open")
        self.file(b"/open/kept", b"k")
        file = self.work + b"/skipped.csv"
        env = os.environ | {"LD_PRELOAD": os.environ["PRELOAD_CHANGES"], "SHORTENED": "grows", "LENGTHENED": "shrinks", "UNOPENED": "gone/sealed"}
        status, out, _ = profile(self.top, "--skipped", file, env=env)
        self.assertEqual((status, [row["FILE_PATH"] for row in read(out)]), (5, ["/open", "/open/kept"]))
        reasons = (b"/gone", UNREAD), (b"/grows", CHANGED), (b"/link", LINK), (b"/pipe", KIND), (b"/sealed", UNREAD), (b"/shrinks", CHANGED), (b"/\xff", NAME)
        self.assertEqual(read_skipped(file), list(reasons))

    def test_no_row(self):
        """An entry that is skipped has no row, nor a number."""
        self.file(b"/sealed", b"abc")
        self.file(b"/a", b"a", 0)
        env = os.environ | {"LD_PRELOAD": os.environ["PRELOAD_CHANGES"], "UNOPENED": "sealed"}
        status, out, err = profile(self.top, "--hash", "none", env=env)
        row = b'"1","","file:/a","/a","a","","Done","1","File","","1970-01-01T00:00:00","false","","0","","","",""\n'
        self.assertEqual((status, out), (5, COLUMNS.replace(b"MD5_HASH", b"HASH") + row))
        self.assertEqual(self.reported(err), {b"/sealed": UNREAD})

    def test_links_alone(self):
        """Symbolic links are no part of a profile: the status stays 0, as without them."""
        self.folder(b"/in")
        self.file(b"/in/kept.txt", b"kept")
        self.check()
        for link, target in ((b"/link", b"nowhere"), (b"/in/link_to_file", b"kept.txt"), (b"/in/link_to_folder", b"..")):
            os.symlink(target, self.top + link)
            self.assertEqual(status_of(walk(self.top)[1]), 0)
            self.check()
        os.mkfifo(self.top + b"/pipe")
        self.assertEqual(status_of(walk(self.top)[1]), 5)
        self.check()

    def test_nothing_skipped(self):
        self.file(b"/kept.txt", b"kept")
        self.check()
        with open(self.work + b"/skipped.csv", "rb") as file:
            self.assertEqual(file.read(), b'"path","reason"\n')

    def test_odd_paths(self):
        """The file of --skipped has each path byte for byte, and each field between double quotes."""
        for name in (b'a "link", with a comma', b"two\nlines", b"-dash", b" ", b"back\\slash", b"caf\xe9"):
            os.symlink(b"nowhere", self.top + b"/" + name)
        file = self.work + b"/skipped.csv"
        status = profile(self.top, "--skipped", file, "--quiet")[0]
        self.assertEqual((status, dict(read_skipped(file))), (5, walk(self.top)[1]))
        with open(file, "rb") as there:
            text = there.read()
        self.assertIn(b'\n"/a ""link"", with a comma","' + LINK + b'"\n', text)
        self.assertIn(b'\n"/caf\xe9","its name is no UTF-8"\n', text)

    def test_control_characters_are_escaped(self):
        os.symlink(b"nowhere", self.top + b"/two\nlines\x1b[2J")
        status, _, err = profile(self.top)
        self.assertEqual(status, 0)
        self.assertEqual(self.reported(err), {b"/two\\nlines\\x1b[2J": LINK})

    def test_path_too_long(self):
        # longer than the system allows in one call, so it is made folder by folder
        here = os.open(self.top, os.O_RDONLY)
        depth = 0
        for depth in range(17):
            os.mkdir(b"d" * 250, dir_fd=here)
            there = os.open(b"d" * 250, os.O_RDONLY, dir_fd=here)
            os.close(here)
            here = there
        os.close(here)
        status, out, err = profile(self.top)
        self.assertEqual(status, 5)
        self.assertTrue(14 <= len(read(out)) <= 16)
        [reason] = self.reported(err).values()
        self.assertEqual(reason, b"with DIR, its path has more than 4,095 bytes")

    def test_unreadable_for_all(self):
        # files that nobody may read
        top = b"/proc/sys/vm"
        sealed = set()
        for name in os.listdir(top):
            try:
                with open(top + b"/" + name, "rb"):
                    pass
            except OSError:
                sealed.add(b"/" + name)
        if not sealed:
            self.skipTest("all can be read")
        status, out, err = profile(top)
        reported = self.reported(err)
        self.assertEqual(status, 5)
        self.assertEqual({path for path in sealed if b"opened" in reported.get(path, b"")}, sealed)
        self.assertEqual({row["FILE_PATH"].encode() for row in read(out)} & sealed, set())

    def test_no_permission(self):
        """A folder that can't be listed has no row. All can be read by root, so it is another user who reads."""
        self.folder(b"/a")
        self.folder(b"/sealed/below")
        self.folder(b"/unsearched")
        for path in (b"/a/kept.txt", b"/kept.txt", b"/secret.txt", b"/sealed/inside.txt", b"/unsearched/inside.txt"):
            self.file(path, path)
        for path, mode in ((b"/a", 0o755), (b"/secret.txt", 0), (b"/sealed", 0o111), (b"/unsearched", 0o444)):
            os.chmod(self.top + path, mode)
            self.addCleanup(os.chmod, self.top + path, 0o700)
        status, out, err = self.as_nobody("profile")
        self.assertEqual(status, 5)
        self.assertEqual([row["FILE_PATH"] for row in read(out)], ["/a", "/kept.txt", "/unsearched", "/a/kept.txt"])
        self.assertEqual(self.reported(err), {b"/sealed": UNREAD, b"/secret.txt": UNREAD, b"/unsearched/inside.txt": KIND})

    def test_file_that_grows(self):
        # a file to which another process writes all the time is skipped, or has the bytes of one moment
        self.file(b"/grows.bin", b"x" * 30_000_000)
        writer = subprocess.Popen(["sh", "-c", 'while :; do echo more >>"$0"; done', self.top + b"/grows.bin"])
        self.addCleanup(writer.wait)
        self.addCleanup(writer.kill)
        status, out, err = profile(self.top)
        if status == 0:
            self.assertEqual(len(read(out)), 1)
            return
        self.assertEqual((status, read(out)), (5, []))
        self.assertEqual(self.reported(err), {b"/grows.bin": CHANGED})

    def test_files_of_the_kernel(self):
        # files whose size is given as 0, and that have bytes
        status, out, err = profile("/proc/sys/kernel")
        self.assertEqual(status, 5)
        self.assertTrue(any(b"changed" in line for line in lines(err, SKIPPED)))
        self.assertEqual([row for row in read(out) if row["TYPE"] == "File" and row["SIZE"] != "0"], [])


if __name__ == "__main__":
    unittest.main()
