#!/usr/bin/env python3
"""Tests the released program and its commands (tools/release.py) in a copy of the repository without the kit:
release.py. `make run` and `make install` as a newcomer uses them, releases that are damaged, machines on which the
program does not run, and a release that is not the proved program."""
import hashlib
import os
import resource
import shutil
import subprocess
import sys
import tempfile
import time
import unittest

TOP = os.path.dirname(os.path.dirname(os.path.dirname(os.path.abspath(__file__))))
# what a copy has; of the crates it has the program's, and links to the rest
COPIED_FILES = ["Makefile", "crates.txt", "HANDLES"]
COPIED_FOLDERS = ["tools", "examples", "registries", "release", os.path.join("crates", "droid_desk")]
LEFT_OUT = shutil.ignore_patterns("out", "__pycache__")
# the commands that it may run, so that no `rt` is in reach
COMMANDS = ("make", "sh", "python3", "git")
SECONDS = 10


def read(path):
    with open(path, "rb") as file:
        return file.read()


def write(path, content):
    os.makedirs(os.path.dirname(path), exist_ok=True)
    with open(path, "wb") as file:
        file.write(content)


class Copy(unittest.TestCase):
    """Each test has a copy of the repository of its own."""

    def setUp(self):
        self.room = tempfile.mkdtemp()
        self.addCleanup(shutil.rmtree, self.room)
        self.top, self.commands = os.path.join(self.room, "movkrin"), os.path.join(self.room, "bin")
        os.mkdir(self.top)
        for name in COPIED_FILES:
            shutil.copy(os.path.join(TOP, name), self.top)
        for name in COPIED_FOLDERS:
            shutil.copytree(os.path.join(TOP, name), self.at(name), ignore=LEFT_OUT)
        for crate in set(os.listdir(os.path.join(TOP, "crates"))) - {"droid_desk"}:
            os.symlink(os.path.join(TOP, "crates", crate), self.at("crates", crate))
        os.mkdir(self.commands)
        for name in COMMANDS:
            os.symlink(sys.executable if name == "python3" else shutil.which(name), os.path.join(self.commands, name))

    def at(self, *names):
        return os.path.join(self.top, *names)

    def begin(self, *words, **more):
        return subprocess.Popen(
            words, cwd=self.top, stdout=subprocess.PIPE, stderr=subprocess.PIPE, env={"PATH": self.commands, "PYTHONDONTWRITEBYTECODE": "1"}, **more
        )

    def ended(self, process):
        """Waits for a command: its status, its output, and the lines of its errors without those of make."""
        out, err = process.communicate(timeout=60)
        return process.returncode, out, [line for line in err.decode().split("\n") if line and not line.startswith("make: ")]

    def call(self, *words, **more):
        return self.ended(self.begin(*words, **more))

    def release(self, *words, before=""):
        """Calls tools/release.py after this line of Python, which may change the module `release`."""
        code = f"import sys; sys.path.insert(0, 'tools'); import os, platform, release\n{before}\nsys.argv = ['release.py', *{words!r}]\nrelease.main()"
        return self.call("python3", "-c", code)

    def with_program(self, program):
        """Puts another program into release/, with its checksum."""
        said = read(self.at("release", "droid_desk.txt")).decode()
        old = hashlib.sha256(read(self.at("release", "droid_desk"))).hexdigest()
        write(self.at("release", "droid_desk"), program)
        write(self.at("release", "droid_desk.txt"), said.replace(old, hashlib.sha256(program).hexdigest()).encode())

    def assert_refused(self, result, *texts):
        """It ended with a status other than 0, one sentence that has these texts, and no file."""
        status, _, err = result
        self.assertNotEqual(status, 0)
        self.assertEqual(len(err), 1, err)
        for text in texts:
            self.assertIn(text, err[0])
        self.assertFalse(os.path.isdir(self.at("out", "release")) and os.listdir(self.at("out", "release")))


class Run(Copy):
    def wanted(self):
        return read(self.at("crates", "droid_desk", "stdout")) + b"\n" + read(self.at("examples", "deposit.replies"))

    def test_first_run(self):
        begun = time.monotonic()
        status, out, err = self.call("make", "run")
        self.assertLess(time.monotonic() - begun, SECONDS)
        self.assertEqual((status, out), (0, self.wanted()), err)
        self.assertRegex(err[0], r"^droid_desk [\d.]+, proved and built at commit [0-9a-f]{12}$")
        # (again, with the program in its place)
        self.assertEqual(self.call("make", "run")[:2], (0, self.wanted()))
        self.assertEqual(os.listdir(self.at("out", "release")), ["droid_desk"])

    def test_several_at_once(self):
        for process in [self.begin("make", "run") for _ in range(6)]:
            self.assertEqual(self.ended(process)[:2], (0, self.wanted()))
        self.assertEqual(os.listdir(self.at("out", "release")), ["droid_desk"])

    def test_a_damaged_program_in_its_place(self):
        self.call("make", "run")
        write(self.at("out", "release", "droid_desk"), b"#!/bin/sh\n")
        self.assertEqual(self.call("make", "run")[:2], (0, self.wanted()))

    def test_other_sources(self):
        self.assertNotIn("differ", "".join(self.release("path")[2]))
        path = self.at("crates", "droid_desk", "src", "main.rt")
        write(path, read(path) + b"// changed\n")
        status, out, err = self.call("make", "run")
        self.assertEqual((status, out, len(err)), (0, self.wanted(), 2))
        self.assertIn("sources here differ", err[1])

    def test_no_python(self):
        os.remove(os.path.join(self.commands, "python3"))
        self.assert_refused(self.call("make", "run"), "python3 is missing")

    def test_other_calls_without_the_kit(self):
        for call in ("prove", "build", "release", "quick", "try", "wrong"):
            self.assert_refused(self.call("make", call), "rt is missing")
        self.assert_refused(self.call("make", "compare"), "run make prove first")


class Damaged(Copy):
    def test_a_byte_of_the_program(self):
        program = bytearray(read(self.at("release", "droid_desk")))
        program[len(program) // 2] ^= 1
        write(self.at("release", "droid_desk"), program)
        self.assert_refused(self.call("make", "run"), "release/droid_desk is damaged", "git checkout release")
        self.assert_refused(self.call("make", "install", f"PREFIX={self.room}/to"), "release/droid_desk is damaged")
        self.assertFalse(os.path.exists(f"{self.room}/to"))

    def test_an_end_that_is_missing(self):
        program = read(self.at("release", "droid_desk"))
        for length in (0, 1, len(program) - 1):
            write(self.at("release", "droid_desk"), program[:length])
            self.assert_refused(self.call("make", "run"), f"has {length} of {len(program)} bytes")

    def test_another_checksum(self):
        said = read(self.at("release", "droid_desk.txt"))
        write(self.at("release", "droid_desk.txt"), said.replace(b"sha256: ", b"sha256: 0"))
        self.assert_refused(self.call("make", "run"), "another SHA-256")

    def test_a_damaged_text(self):
        said = read(self.at("release", "droid_desk.txt"))
        for text in (b"", said[: len(said) // 2], said.replace(b"commit", b"comit"), b"\xff" + said):
            write(self.at("release", "droid_desk.txt"), text)
            self.assert_refused(self.call("make", "run"), "release/droid_desk.txt")

    def test_missing_files(self):
        for name in ("droid_desk", "droid_desk.txt"):
            shutil.copytree(os.path.join(TOP, "release"), self.at("release"), dirs_exist_ok=True)
            os.remove(self.at("release", name))
            self.assert_refused(self.call("make", "run"), f"release/{name} is missing")

    def test_a_full_disk(self):
        """A file of more than a megabyte can't be written, as on a disk that is full."""

        def limit():
            resource.setrlimit(resource.RLIMIT_FSIZE, (1 << 20, 1 << 20))

        self.assert_refused(self.call("make", "run", preexec_fn=limit), "out/release/droid_desk cannot be written")


class Machines(Copy):
    def test_another_processor(self):
        for system, machine in (("Linux", "aarch64"), ("Darwin", "x86_64")):
            before = f"platform.system, platform.machine = lambda: {system!r}, lambda: {machine!r}"
            self.assert_refused(self.release("run", before=before), "Linux on x86-64 alone", f"{system} on {machine}")

    def test_no_vectors(self):
        write(self.at("cpuinfo"), b"flags\t\t: fpu sse sse2 ssse3 sse4_1\n")
        self.assert_refused(self.release("run", before="release.PROCESSOR = 'cpuinfo'"), "SSE4.2")
        self.with_program(b"#!/bin/sh\nkill -ILL $$\n")
        self.assert_refused(self.release("run", before="release.PROCESSOR = 'no such file'"), "SSE4.2")

    def test_musl(self):
        """There the program's loader is missing, as this script's."""
        self.with_program(b"#!/no/such/loader\n")
        self.assert_refused(self.call("make", "run"), "glibc 2.34", "musl")

    def test_an_older_library(self):
        self.with_program(b"#!/bin/sh\necho \"$0: /lib/libc.so.6: version \\`GLIBC_2.34' not found\" >&2\nexit 1\n")
        self.assert_refused(self.call("make", "run"), "glibc 2.34", "this machine has")

    def test_a_program_that_fails(self):
        self.with_program(b"#!/bin/sh\nexit 7\n")
        self.assert_refused(self.call("make", "run"), "does not run here", "status 7")


class Install(Copy):
    def test_released(self):
        status, out, err = self.call("make", "install", f"PREFIX={self.room}/to")
        self.assertEqual(status, 0, err)
        self.assertEqual(read(f"{self.room}/to/bin/droid_desk"), read(self.at("release", "droid_desk")))
        self.assertEqual(read(f"{self.room}/to/share/doc/droid_desk/LICENSES.txt"), read(self.at("release", "LICENSES.txt")))
        registries = {read(self.at("registries", name)) for name in os.listdir(self.at("registries"))}
        self.assertEqual(out.count(b"installed: "), 4 + len(registries))

    def test_a_place_where_nothing_can_be_written(self):
        write(f"{self.room}/to", b"")
        for words in ([], ["PROGRAM=out/release/droid_desk"]):
            status, _, err = self.call("make", "install", f"PREFIX={self.room}/to", *words)
            self.assertEqual((status != 0, len(err)), (True, 1), err)
            self.assertIn(f"{self.room}/to", err[0])

    def test_a_missing_program(self):
        self.assert_refused(self.call("make", "install", f"PREFIX={self.room}/to", "PROGRAM=no/such"), "no/such")


class Proved(Copy):
    """The commands after a gate, of which these notes are left. The kit is invented."""

    KIT = {f"{file} {name}": "0" for file, names in (("WHAT", "archive commit compiler"), ("WHAT-crates", "archive toolchain crates")) for name in names.split()}
    BEFORE = f"release.kit_lines = lambda: {KIT!r}; release.licences = lambda crates: 'none'"

    def setUp(self):
        super().setUp()
        self.program = read(self.at("release", "droid_desk"))
        write(self.at("crates", "droid_desk", "out", "droid_desk"), self.program)
        os.chmod(self.at("crates", "droid_desk", "out", "droid_desk"), 0o755)
        git = ("git", "-c", "user.name=a", "-c", "user.email=a@b.c")
        write(self.at(".gitignore"), b"out/\n__pycache__/\n")
        for words in (["init", "-q"], ["add", "-A"], ["commit", "-q", "-m", "all"]):
            subprocess.run([*git, *words], cwd=self.top, check=True)
        self.assertEqual(self.release("note", before=self.BEFORE)[0], 0)

    def test_equal(self):
        self.assertEqual(self.release("make", before=self.BEFORE)[0], 0)
        status, out, err = self.release("compare")
        self.assertEqual(status, 0, err)
        self.assertIn(b"byte by byte", out)
        self.assertEqual(self.call("make", "run")[0], 0)

    def test_another_release(self):
        self.assertEqual(self.release("make", before=self.BEFORE)[0], 0)
        self.with_program(self.program + b"\0")
        status, _, err = self.release("compare")
        self.assertEqual((status, len(err)), (1, 1))
        self.assertIn("is not the program that was just proved", err[0])

    def test_another_kit(self):
        for ends in (True, False):
            before = f"release.compare_behaviour = lambda: {ends} or sys.exit(1)"
            status, out, _ = self.release("compare", before=before)
            self.assertEqual(status, int(not ends))
            self.assertIn(b"another kit", out)

    def test_a_program_that_the_gate_did_not_prove(self):
        write(self.at("crates", "droid_desk", "out", "droid_desk"), self.program + b"\0")
        for call in ("make", "compare"):
            status, _, err = self.release(call, before=self.BEFORE)
            self.assertEqual(status, 1)
            self.assertIn("is not the program that make prove proved", err[0])

    def test_other_sources(self):
        path = self.at("crates", "droid_desk", "src", "main.rt")
        write(path, read(path) + b"// changed\n")
        for _ in range(2):
            status, _, err = self.release("make", before=self.BEFORE)
            self.assertEqual(status, 1)
            self.assertIn("the sources differ", err[0])
            # (a gate over sources that are not committed is no better)
            self.assertEqual(self.release("note", before=self.BEFORE)[0], 0)


if __name__ == "__main__":
    unittest.main(argv=sys.argv[:1], verbosity=0)
