"""The list of --manifest: `md5sum -c` and `sha256sum -c` check it in the folder, and it has exactly the files of the CSV."""
import hashlib
import os
import shutil
import subprocess
import unittest

from lib.trees import NAME, SKIPPED, InFolder, lines, profile, read, status_of, walk

# names that the tools have to escape, or that look like options or like parts of a line
ODD = [b"-", b"*", b" ", b"~", b"\\", b"ends in \\", b"back\\slash", b"two\nlines", b"\n", b"MD5 (a) = b", b"carriage\rreturn", b"-dash", b"--help", b" leading and trailing ", b"*star", b"#hash", b"tab\there", b'"quoted"', "déjà vu".encode(), b"\\n", b"\x01\x7f", b"d41d8cd98f00b204e9800998ecf8427e  a", b"%41%0A", b"x" * 255]


class Manifest(InFolder):
    def setUp(self):
        super().setUp()
        self.list = self.work + b"/list"
        for folder in (b"", b"/in", b"/in/-folder", b"/in/two\nlines\\of a folder"):
            self.folder(folder)
            for number, name in enumerate(ODD):
                self.file(folder + b"/" + name, b"%d" % number * (number * 10_000))
        self.file(b"/not text \xff", b"skipped")
        os.mkfifo(self.top + b"/pipe")
        os.symlink(b"-dash", self.top + b"/link")

    def checked(self, hash):
        """Checks the list by the tool of the hash: the files that it finds to be right."""
        env = {**os.environ, "LC_ALL": "C"}
        run = subprocess.run([hash + "sum", "--strict", "-c", self.list], cwd=self.top, capture_output=True, env=env, timeout=60, check=False)
        self.assertEqual((run.returncode, run.stderr), (0, b""))
        return run.stdout

    def listed(self):
        """Reads the list: the checksum and the path of each line, without escapes (a line that has one begins with a
        backslash)."""
        with open(self.list, "rb") as file:
            text = file.read()
        self.assertTrue(text == b"" or text.endswith(b"\n"))
        rows = []
        for line in text.split(b"\n")[:-1]:
            is_escaped = line.startswith(b"\\")
            digest, path = line[is_escaped:].split(b"  ", 1)
            if is_escaped:
                path = path.replace(b"\\\\", b"\0").replace(b"\\n", b"\n").replace(b"\\r", b"\r").replace(b"\0", b"\\")
            rows.append((digest.decode(), path))
        return rows

    def test_checked(self):
        rows, skipped = walk(self.top)
        files = [row["FILE_PATH"].encode() for row in rows if row["TYPE"] == "File"]
        for hash in ("md5", "sha256"):
            status, out, err = profile(self.top, "--hash", hash, "--manifest", self.list)
            self.assertEqual(status, status_of(skipped))
            self.assertEqual([row["FILE_PATH"] for row in read(out)], [row["FILE_PATH"] for row in rows])
            digests = [hashlib.new(hash, self.bytes_at(path)).hexdigest() for path in files]
            self.assertEqual([(digest, os.path.normpath(b"/" + path)) for digest, path in self.listed()], list(zip(digests, files)))
            self.assertEqual(self.checked(hash).count(b": OK\n"), len(files))

    def bytes_at(self, path):
        with open(self.top + path, "rb") as file:
            return file.read()

    def test_changed(self):
        """A changed file, and one that is gone, are found."""
        profile(self.top, "--manifest", self.list)
        self.file(b"/in/-folder/-dash", b"other bytes")
        os.remove(self.top + b"/-dash")
        run = subprocess.run(["md5sum", "-c", self.list], cwd=self.top, capture_output=True, env={**os.environ, "LC_ALL": "C"}, timeout=60, check=False)
        self.assertEqual(run.returncode, 1)
        self.assertEqual((run.stdout.count(b": FAILED\n"), run.stdout.count(b": FAILED open or read\n")), (1, 1))

    def test_not_text(self):
        """A file whose name is not UTF-8 is in neither text."""
        status, _, err = profile(self.top, "--manifest", self.list)
        self.assertEqual(status, 5)
        self.assertIn(b"/not text \\xff: " + NAME, lines(err, SKIPPED))
        self.assertEqual([path for _, path in self.listed() if b"\xff" in path], [])

    def test_no_file(self):
        shutil.rmtree(self.top)
        self.folder(b"/in")
        self.assertEqual(profile(self.top, "--manifest", self.list)[0], 0)
        self.assertEqual(self.listed(), [])

    def test_replaced(self):
        """An older list is replaced; the CSV is that without a list."""
        with open(self.list, "wb") as file:
            file.write(b"before")
        expected = profile(self.top)[1]
        status, out, _ = profile(self.top, "--manifest", self.list)
        self.assertEqual((status, out), (5, expected))
        self.assertNotIn(b"before", self.bytes_of_list())
        self.assertEqual(sorted(os.listdir(self.work)), [b"list", b"tree"])

    def bytes_of_list(self):
        with open(self.list, "rb") as file:
            return file.read()

    def test_no_such_path(self):
        for option in ("--manifest", "--skipped"):
            for path in (self.work + b"/none/list", self.top, b"/dev/null", b""):
                status, out, err = profile(self.top, option, path, "--output", self.work + b"/out.csv")
                self.assertEqual((status, out, lines(err, b"fault: ")), (4, b"", [b"Output"]), path)
        self.assertEqual(os.listdir(self.work), [b"tree"])


if __name__ == "__main__":
    unittest.main()
