#!/usr/bin/env python3
"""Installs the program below a temporary folder (tools/install.py), and checks its files: install.py PROGRAM
groff formats the manual page without a warning, and the completions complete commands and the options of each."""
import hashlib
import os
import re
import shutil
import subprocess
import sys
import tempfile
import unittest

TOP = os.path.dirname(os.path.dirname(os.path.dirname(os.path.abspath(__file__))))
PROGRAM = os.path.abspath(sys.argv.pop(1))
INSTALL = os.path.join(TOP, "tools", "install.py")
BINARY, COMPLETIONS = "bin/droid_desk", "share/bash-completion/completions/droid_desk"
LICENCES, PAGE = "share/doc/droid_desk/LICENSES.txt", "share/man/man1/droid_desk.1"
REGISTRIES = os.path.join(TOP, "registries")


def run(*words, **more):
    """Runs a command, which has to end with status 0: its output."""
    return subprocess.run(words, check=True, capture_output=True, text=True, timeout=60, **more).stdout


def rows_of(text, heading):
    """Returns the lines below a heading of a help text, up to the next empty line."""
    return text.split(f"\n{heading}\n", 1)[1].split("\n\n", 1)[0].split("\n")


COMMANDS = [line.split()[0] for line in rows_of(run(PROGRAM, "--help"), "Commands:")]


class Install(unittest.TestCase):
    @classmethod
    def setUpClass(cls):
        cls.folder = tempfile.mkdtemp()
        cls.addClassCleanup(shutil.rmtree, cls.folder)
        run(sys.executable, "-B", INSTALL, PROGRAM, cls.folder)

    def path(self, file):
        return os.path.join(self.folder, file)

    def there(self):
        return sorted(os.path.relpath(os.path.join(at, name), self.folder) for at, _, names in os.walk(self.folder) for name in names)

    def completed(self, *words):
        """Completes the last of these words after `droid_desk`."""
        script = f'source {self.path(COMPLETIONS)}; COMP_WORDS=(droid_desk "$@"); COMP_CWORD=$#; _droid_desk; printf "%s\\n" "${{COMPREPLY[@]}}"'
        return run("bash", "-c", script, "bash", *words).split()

    def test_files(self):
        registries = set()
        for name in os.listdir(REGISTRIES):
            with open(os.path.join(REGISTRIES, name), "rb") as file:
                registries.add(f"share/droid_desk/registries/{hashlib.md5(file.read()).hexdigest()}.csv")
        self.assertTrue(registries)
        self.assertEqual(self.there(), sorted([BINARY, COMPLETIONS, LICENCES, PAGE, *registries]))
        self.assertEqual(run(self.path(BINARY), "--help"), run(PROGRAM, "--help"))
        for path in registries:
            with open(self.path(path), "rb") as file:
                self.assertEqual(os.path.basename(path), hashlib.md5(file.read()).hexdigest() + ".csv")

    def test_manual_page(self):
        with open(self.path(PAGE), encoding="utf-8") as file:
            page = file.read()
        for command in COMMANDS:
            self.assertIn(command, page)
        for option in set(re.findall(r"--[a-z][a-z-]+", run(PROGRAM, "profile", "--help"))):
            self.assertIn(option.replace("-", "\\-"), page)
        if shutil.which("groff"):
            done = subprocess.run(["groff", "-man", "-ww", "-Tutf8", self.path(PAGE)], capture_output=True, timeout=60)
            self.assertEqual((done.returncode, done.stderr), (0, b""))
            self.assertGreater(len(done.stdout), 5_000)

    def test_commands_are_completed(self):
        self.assertEqual(self.completed("pro"), ["profile"])
        for command in COMMANDS:
            self.assertIn(command, self.completed(""))

    def test_options_are_completed(self):
        for command in [it for it in COMMANDS if it != "help"]:
            rows = rows_of(run(PROGRAM, command, "--help"), "Options:")
            options = [re.search(r"--[a-z-]+", row)[0] for row in rows if re.match(r" +(-\w, )?--", row)]
            self.assertGreater(len(options), 1, command)
            self.assertEqual(sorted(self.completed(command, "--")), sorted(options), command)
        self.assertEqual(self.completed("profile", "--has"), ["--hash"])
        self.assertEqual(self.completed("profile", "--hash", "s"), ["sha256"])

    def test_paths_are_completed(self):
        for command in [it for it in COMMANDS if it != "help"]:
            for option in re.findall(r"(--[a-z-]+) <(?:FILE|PAGE|OUT)>", run(PROGRAM, command, "--help")):
                self.assertEqual(self.completed(command, option, INSTALL[:-1]), [INSTALL], (command, option))

    def test_removed(self):
        """Only what was installed is removed."""
        with tempfile.TemporaryDirectory() as folder:
            run(sys.executable, "-B", INSTALL, PROGRAM, folder)
            other = os.path.join(folder, "bin", "other")
            with open(other, "w", encoding="ascii"):
                pass
            run(sys.executable, "-B", INSTALL, "--remove", folder)
            left = [os.path.join(at, name) for at, _, names in os.walk(folder) for name in names]
            self.assertEqual(left, [other])


if __name__ == "__main__":
    unittest.main(verbosity=0)
