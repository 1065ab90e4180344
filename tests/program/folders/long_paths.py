"""Paths at the limit of the system. An entry is skipped as too long where the folder as it was named, FILE_PATH and a zero
byte have more than 4,096 bytes together, whatever lies beside it, and in every command; all others are read."""
import hashlib
import os
import subprocess
import unittest

from lib.program import PROGRAM, Serve
from lib.submissions import records, submit
from lib.trees import SKIPPED, InFolder, lines, profile, read

TOO_LONG = b"with DIR, its path has more than 4,095 bytes"
MOST = 4_096
LEVEL = b"y" * 253


class LongPaths(InFolder):
    def make(self, most):
        """Folders one in the other, and in the last one files whose paths below the top are at the limit, and beside it a
        folder with a file. `most` is the longest FILE_PATH that is read. Returns the content of each file."""
        here = os.open(self.top, os.O_RDONLY)
        path = b""
        while len(path) + len(b"/" + LEVEL) + 40 < most:
            os.mkdir(LEVEL, dir_fd=here)
            here, old = os.open(LEVEL, os.O_RDONLY, dir_fd=here), here
            os.close(old)
            path += b"/" + LEVEL
        left = most - len(path) - 1
        # a name of 254 bytes is short enough for the system
        self.assertTrue(39 <= left <= 293, left)
        if left > 250:
            os.mkdir(b"z" * 39, dir_fd=here)
            here, old = os.open(b"z" * 39, os.O_RDONLY, dir_fd=here), here
            os.close(old)
            path += b"/" + b"z" * 39
            left -= 40
        names = [b"short", b"a" * (left - 1), b"b" * left, b"c" * (left + 1)]
        contents = {}
        for name in names:
            file = os.open(name, os.O_CREAT | os.O_WRONLY, 0o600, dir_fd=here)
            os.write(file, name[:1])
            os.close(file)
            contents[path + b"/" + name] = name[:1]
        os.mkdir(b"f" * left, dir_fd=here)
        file = os.open(b"f" * left + b"/inside", os.O_CREAT | os.O_WRONLY, 0o600, dir_fd=here)
        os.close(file)
        contents[path + b"/" + b"f" * left + b"/inside"] = b""
        os.close(here)
        return contents

    def due(self, contents, most):
        """The files that are read, with their hashes, and the paths that are skipped."""
        return (
            {path.decode(): hashlib.md5(content).hexdigest() for path, content in contents.items() if len(path) <= most},
            sorted(path for path in contents if len(path) > most),
        )

    def check(self, due, status, skipped, rows):
        hashes, too_long = due
        self.assertEqual((status, sorted(skipped)), (5, [path + b": " + TOO_LONG for path in too_long]))
        self.assertEqual(rows, hashes)

    def test_profile(self):
        for folder, cwd in ((self.top, None), (self.top + b"//", None), (b".", self.top), (b"tree", self.work)):
            with self.subTest(folder=folder):
                subprocess.run(["rm", "-rf", self.top], check=True)
                os.mkdir(self.top)
                most = MOST - 1 - len(folder.rstrip(b"/"))
                contents = self.make(most)
                status, out, err = profile(folder, "--quiet", cwd=cwd)
                rows = {row["FILE_PATH"]: row["MD5_HASH"] for row in read(out) if row["TYPE"] == "File"}
                self.check(self.due(contents, most), status, lines(err, SKIPPED), rows)

    def test_verify(self):
        most = MOST - 1 - len(b".")
        contents = self.make(most)
        hashes, too_long = self.due(contents, most)
        listed = self.work + b"/list"
        with open(listed, "w", encoding="utf-8") as file:
            file.writelines(f"{digest}  {path[1:]}\n" for path, digest in hashes.items())
        for quick in ([], ["--quick"]):
            run = subprocess.run([PROGRAM, "verify", ".", "--against", listed, "--quiet", *quick], capture_output=True, timeout=120, cwd=self.top, check=False)
            self.assertEqual(run.returncode, 5)
            found = run.stdout.decode().splitlines()[1:]
            self.assertEqual([row.split('","')[:2] for row in found], [['"unreadable', path.decode()] for path in too_long])
            self.assertTrue(all(TOO_LONG.decode() in row for row in found), found)

    def test_submit(self):
        most = MOST - 1 - len(b".")
        contents = self.make(most)
        export = self.work + b"/export.csv"
        with Serve.lasting() as service:
            status, err = submit(b".", service.port, 7, "--export", export, cwd=self.top)
        with open(export, "rb") as file:
            rows = {path: row["MD5_HASH"] for path, row in records(file.read()).items() if row["TYPE"] == "File"}
        self.check(self.due(contents, most), status, lines(err, SKIPPED), rows)


if __name__ == "__main__":
    unittest.main()
