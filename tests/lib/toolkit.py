"""A small repository and a kit that are invented, for tests of tools/: libraries `low`, `mid` and `top`, and the program
`main`, each over the one before. A function of theirs returns a number, and is proved if its clause says the same one."""
import os
import shutil
import subprocess
import sys
import tempfile
import unittest

TOP = os.path.dirname(os.path.dirname(os.path.dirname(os.path.abspath(__file__))))
LINES = "low:\nmid: low\ntop: low mid\nmain: low mid top\n"
SOURCE = """\
//! Numbers.

/// Returns a number.
pub fn first() -> u8
    ensures { result ≡ 1 }
{
    // one is odd
    1
}

/// Returns a number.
pub fn second() -> u8
    ensures { result ≡ 2 }
{
    2
}
"""
# what it is called with goes into `calls`; where a file `slow` stands beside it, a call takes so many seconds
RATTLE = r'''#!/usr/bin/env python3
import hashlib, os, re, sys, time
HERE, words = os.path.dirname(os.path.abspath(__file__)), sys.argv[1:]
FUNCTION = re.compile(r"fn (\w+)\(\) -> u8\n    ensures { result ≡ (\d+) }\n{\n((?:    .*\n)*)}")

def read(path):
    return open(path).read()

def given(flag):
    return [words[at + 1] for at, word in enumerate(words) if word == flag]

def sum_of(rlib):
    return hashlib.sha256(read(os.path.join(rlib, "code")).encode()).hexdigest()

if words[0] == "fmt":
    for number, path in enumerate(words[2:], 1):
        print("file", number)
        for line, text in enumerate(open(path), 1):
            if text.split("//")[0].strip():
                print(line, 0, 1, "word", text.split()[0])
    sys.exit()
crate, only = given("--crate-name")[0], given("--only")
named = [it.split("::", 1)[-1] for it in only] + [it.split(":")[0] + "=" for it in given("--lib")]
print("rattle", words[0], crate, *named, file=open(os.path.join(HERE, "calls"), "a"))
if os.path.exists(os.path.join(HERE, "slow")):
    time.sleep(float(read(os.path.join(HERE, "slow"))))
libraries = dict(it.split("=") for it in given("--extern") if not it.startswith(("std=", "core=")))
for name, rlib in libraries.items():
    for line in read(os.path.join(rlib, "format")).splitlines():
        low, sum = line.split()
        if low in libraries and sum != sum_of(libraries[low]):
            sys.exit(f"{name} was built over another {low}")
functions, text = [], ""
for file in sorted(os.listdir("src")):
    text += read(os.path.join("src", file))
    module = crate + "::" + ("" if file in ("lib.rt", "main.rt") else file[:-3] + "::")
    for name, wanted, body in FUNCTION.findall(read(os.path.join("src", file))):
        functions.append((module + name, wanted, re.findall(r"^    (?:return )?(\d+);?$", body, re.M)[0]))
fits = lambda path, word: path == word or path.startswith(word + "::")
lacking = [it for it in only if it and not any(fits(path, it) for path, _, _ in functions)]
if lacking:
    print(f"rattle: error: `{crate}` has no function `{lacking[0]}`: help: write the name")
    sys.exit(2)
asked = [it for it in functions if not only or any(fits(it[0], word) for word in only)]
proved = [it for it in asked if it[1] == it[2]]
for path, wanted, made in asked:
    print(f"fn {path}:", "proved" if wanted == made else "no proof: `search` did not prove `returns`")
print(f"only={len(asked)} proved={len(proved)}" if only else "logic=proved" if proved == asked else "logic=not-proved")
if proved != asked:
    sys.exit(1)
for at in given("-o"):
    os.makedirs(at)
    open(os.path.join(at, "code"), "w").write(text)
    open(os.path.join(at, "format"), "w").write("".join(f"{it} {sum_of(rlib)}\n" for it, rlib in libraries.items()))
'''
LINK = """\
#!/usr/bin/env python3
import sys
open(sys.argv[sys.argv.index("-o") + 1], "w").write("another program")
"""
# `rt ci` proves all and leaves no stamps; `rt lib` leaves one
RT = r'''#!/usr/bin/env python3
import os, shutil, signal, subprocess, sys
HERE, words = os.path.dirname(os.path.abspath(__file__)), sys.argv[1:]
top = os.getcwd()
while not os.path.isfile(os.path.join(top, "crates.txt")):
    top = os.path.dirname(top)
lines = dict(it.strip().split(":") for it in open(os.path.join(top, "crates.txt")))
rlib = lambda crate: os.path.join(top, "crates", crate, "out", "rlib", crate + ".rlib")
print("rt", words[0], os.path.basename(os.getcwd()), file=open(os.path.join(HERE, "calls"), "a"))

def prove(crate, verb, *more):
    root = "src/main.rt" if crate == "main" else "src/lib.rt"
    flags = [word for low in lines[crate].split() for word in ("--extern", f"{low}={rlib(low)}")]
    place = os.path.join(top, "crates", crate)
    with subprocess.Popen([os.path.join(HERE, "rattle"), verb, "--crate-name", crate, root, *flags, *more], cwd=place) as call:
        signal.signal(signal.SIGTERM, lambda *_: call.kill() or sys.exit(1))
        if call.wait():
            sys.exit(1)

def build(crate):
    shutil.rmtree(os.path.dirname(rlib(crate)), ignore_errors=True)
    prove(crate, "build", "-o", rlib(crate))

crate = os.path.basename(os.getcwd())
if words[0] == "ci":
    for crate in lines:
        if crate != "main":
            build(crate)
        else:
            os.makedirs("crates/main/out", exist_ok=True)
            open("crates/main/out/main", "w").write("a program")
elif words[0] in ("lib", "check"):
    for low in [*lines[crate].split(), *[crate] * (words[0] == "lib")]:
        stamp = os.path.join(os.path.dirname(rlib(low)), "stamp")
        if not os.path.isfile(stamp):
            build(low)
            open(stamp, "w").write("built")
    if words[0] == "check":
        prove(crate, "check", *words[1:])
'''


def read(path):
    with open(path) as file:
        return file.read()


def write(path, text):
    """Writes a file in the place of what was there, which may have other names."""
    os.makedirs(os.path.dirname(path), exist_ok=True)
    if os.path.exists(path):
        os.remove(path)
    with open(path, "w") as file:
        file.write(text)


class Repository(unittest.TestCase):
    """Each test has a repository and a kit of its own."""

    def setUp(self):
        self.room = tempfile.mkdtemp()
        self.addCleanup(shutil.rmtree, self.room)
        self.top, self.kit = os.path.join(self.room, "repository"), os.path.join(self.room, "kit", "bin")
        for name, text in (("rt", RT), ("rattle", RATTLE), ("rattle-link", LINK)):
            write(os.path.join(self.kit, name), text)
            os.chmod(os.path.join(self.kit, name), 0o755)
        write(os.path.join(self.room, "kit", "WHAT"), "archive 1\n")
        shutil.copytree(os.path.join(TOP, "tools"), self.at("tools"), ignore=shutil.ignore_patterns("__pycache__"))
        # (the map's rules are those of this repository's crates)
        write(self.at("tools", "map.py"), "def problems():\n    return []\n")
        for name, text in (("crates.txt", LINES), ("HANDLES", ""), (".gitignore", "out/\n")):
            write(self.at(name), text)
        for crate in ("low", "mid", "top"):
            write(self.source(crate), SOURCE)
        write(self.at("crates", "main", "src", "main.rt"), "fn main() {}\n")
        self.git("init", "-q")
        self.git("add", ".")
        self.git("config", "user.name", "a")
        self.git("config", "user.email", "a@b")
        self.git("commit", "-qm", "all")

    def at(self, *names):
        return os.path.join(self.top, *names)

    def source(self, crate):
        return self.at("crates", crate, "src", "lib.rt")

    def library(self, crate, file=""):
        return self.at("crates", crate, "out", "rlib", f"{crate}.rlib", file)

    def git(self, *words):
        subprocess.run(["git", *words], cwd=self.top, check=True)

    def change(self, crate, old, new):
        text = read(self.source(crate))
        self.assertEqual(text.count(old), 1)
        write(self.source(crate), text.replace(old, new))

    def environment(self):
        return {"PATH": os.environ["PATH"], "RT": os.path.join(self.kit, "rt")}

    def begin(self, tool, *words):
        words = [sys.executable, "-B", self.at("tools", tool), *words]
        return subprocess.Popen(words, cwd=self.top, env=self.environment(), stdout=subprocess.PIPE, stderr=subprocess.PIPE, text=True)

    def call(self, tool, *words):
        """Runs a tool; returns its status, and what it printed: first on standard error, then on standard output."""
        with self.begin(tool, *words) as run:
            out, errors = run.communicate(timeout=600)
        return run.returncode, errors + out

    def prove(self):
        """Does what `make prove` does with the libraries."""
        self.assertEqual(self.call("proved.py", "begin")[0], 0)
        subprocess.run([os.path.join(self.kit, "rt"), "ci"], cwd=self.top, check=True, stdout=subprocess.DEVNULL)
        status, said = self.call("proved.py", "note")
        self.calls()
        return status, said

    def calls(self):
        """Returns the calls of the kit since the last time, without those of its lexer."""
        path = os.path.join(self.kit, "calls")
        found = read(path).splitlines() if os.path.exists(path) else []
        write(path, "")
        return found
