"""Each call by which a command writes a file fails in turn: the status is never 0, the file is as it was before, or, where it
was put in its place before, complete; and nothing unfinished is left."""
import os
import re
import subprocess
import unittest

from lib.program import PROGRAM, Serve
from lib.submissions import words_of
from lib.trees import InFolder, profile

# what a folder's sync that fails can't undo: its new files are in their places
CALLS = {"create", "write", "sync", "mode", "rename", "folder"}
# a PRONOM signature file
SIGNATURES = b"""<?xml version="1.0"?>
<FFSignatureFile xmlns="http://www.nationalarchives.gov.uk/pronom/SignatureFile" Version="1">
<InternalSignatureCollection/>
<FileFormatCollection><FileFormat ID="1" Name="A" PUID="fmt/1"><Extension>a</Extension></FileFormat></FileFormatCollection>
</FFSignatureFile>
"""


def front_of(content):
    """The first line, without the moment at which a page was made."""
    return re.sub(rb"\d{4}-\d\d-\d\dT\d\d:\d\d:\d\d \(UTC\)", b"", content.split(b"\n", 1)[0])


class OutputCalls(InFolder):
    def setUp(self):
        super().setUp()
        for number in range(3):
            self.file(b"/%d.txt" % number, b"%d" % number)
        os.symlink(b"nowhere", self.top + b"/link")
        self.outputs = self.work + b"/outputs"
        os.mkdir(self.outputs)
        self.failed = self.work + b"/failed"

    def written(self):
        found = {}
        for name in sorted(os.listdir(self.outputs)):
            with open(self.outputs + b"/" + name, "rb") as file:
                found[name] = file.read()
        return found

    def run_with(self, command, number):
        if os.path.exists(self.failed):
            os.unlink(self.failed)
        how = {"LD_PRELOAD": os.environ["PRELOAD_OUTPUTS"], "OUTPUTS": os.fsdecode(self.outputs), "CALL_FAILS": str(number), "CALLS_FILE": os.fsdecode(self.failed)}
        run = subprocess.run(command, capture_output=True, timeout=120, env=os.environ | how, check=False)
        try:
            with open(self.failed, encoding="utf-8") as file:
                return run.returncode, run.stderr, file.read()
        except FileNotFoundError:
            return run.returncode, run.stderr, None

    def check(self, command, names, status=0):
        """`command` writes these files; with all calls as they are it ends with this status."""
        command = [os.fsencode(word) for word in command]
        done, err, _ = self.run_with(command, 0)
        self.assertEqual(done, status, err)
        whole = self.written()
        self.assertEqual(sorted(whole), sorted(names))
        before = dict.fromkeys(names, b"as it was")
        seen, number = set(), 0
        while True:
            for name, content in before.items():
                with open(self.outputs + b"/" + name, "wb") as file:
                    file.write(content)
            number += 1
            done, err, call = self.run_with(command, number)
            if call is None:
                break
            seen.add(call)
            after = self.written()
            with self.subTest(command=command[1], number=number, call=call):
                self.assertEqual(done, 4, err)
                self.assertEqual(sorted(after), sorted(names))
                for name in names:
                    self.assertIn(front_of(after[name]), (b"as it was", front_of(whole[name])), name)
                if call != "folder":
                    self.assertIn(b"as it was", after.values())
        self.assertEqual((done, seen), (status, CALLS), err)

    def test_profile(self):
        options = {b"csv": "--output", b"sums": "--manifest", b"skipped": "--skipped", b"page": "--report"}
        words = [word for name, option in options.items() for word in (option, self.outputs + b"/" + name)]
        self.check([PROGRAM, "profile", self.top, "--quiet", *words], list(options))

    def test_report(self):
        there = self.work + b"/there.csv"
        self.assertEqual(profile(self.top, "--output", there)[0], 0)
        self.check([PROGRAM, "report", there, "--output", self.outputs + b"/page"], [b"page"])

    def test_registry(self):
        there = self.work + b"/signatures.xml"
        with open(there, "wb") as file:
            file.write(SIGNATURES)
        self.check([PROGRAM, "registry", there, "--output", self.outputs + b"/made"], [b"made", b"made.txt"])

    def test_submit(self):
        options = {b"csv": "--export", b"skipped": "--skipped", b"page": "--report"}
        words = [word for name, option in options.items() for word in (option, self.outputs + b"/" + name)]
        os.unlink(self.top + b"/link")
        with Serve.lasting() as service:
            self.check(words_of(self.top, service.port, 7, *words), list(options))


if __name__ == "__main__":
    unittest.main()
