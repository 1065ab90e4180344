"""The lines of crates.txt, and copies of the tree for work on several crates at once.

`rt` locks a crate's folder and the folders of the crates below it against every other `rt`. So a tool that works
on several crates at once gives each a copy of its own, with that crate and the crates below it. The files of a
copy are hard links, except those of the crate itself.
"""
import contextlib
import functools
import os
import shutil
import subprocess
import sys
import tempfile

TOP = os.path.dirname(os.path.dirname(os.path.abspath(__file__)))
SOURCES = ["src", "specs", "proofs"]
# the folders of wrong bodies: those that the gate tries, and the rest
EDITS = ["must-fail", "wrong-bodies"]


def listed_in(text):
    """Reads a text like crates.txt: each crate with all libraries that its line names, in their order."""
    found = {}
    for line in text.split("\n"):
        name, colon, rest = line.split("#")[0].partition(":")
        if colon:
            found[name.split()[0]] = rest.split()
    return found


@functools.lru_cache(None)
def listed():
    """Reads crates.txt."""
    return listed_in(read(os.path.join(TOP, "crates.txt")))


@functools.lru_cache(None)
def named():
    """Returns each crate with the crates of the repository that its line names, in the order of crates.txt."""
    return {name: [low for low in lows if low in listed()] for name, lows in listed().items()}


@functools.lru_cache(None)
def below(crate):
    """Returns the crates below a crate, lowest first."""
    found = []
    for low in named()[crate]:
        found += [it for it in [*below(low), low] if it not in found]
    return found


def lowest_first(crates):
    return sorted(crates, key=lambda crate: (len(below(crate)), crate))


def with_below(crates):
    """Returns these crates and all below them, lowest first."""
    return lowest_first({*crates, *(low for crate in crates for low in below(crate))})


@functools.lru_cache(None)
def paths(crate):
    """Counts the paths from a crate down. At every call `rt` reads the sources of a crate once for each path to it."""
    return 1 + sum(paths(low) for low in named()[crate])


def folder(crate, tree=TOP):
    return os.path.join(tree, "crates", crate)


def files_of(crate):
    """Returns the paths of its sources."""
    found = []
    for part in SOURCES:
        for at, _, names in os.walk(os.path.join(folder(crate), part)):
            found += [os.path.join(at, name) for name in names]
    return sorted(found)


def is_program(crate):
    return os.path.isfile(os.path.join(folder(crate), "src", "main.rt"))


def has_tests(crate):
    return any("#[test]" in read(path) for path in files_of(crate) if path.endswith(".rt"))


def edits_of(crate, parts=EDITS):
    """Returns the paths of its wrong bodies."""
    found = []
    for part in parts:
        at = os.path.join(folder(crate), part)
        names = sorted(os.listdir(at)) if os.path.isdir(at) else []
        found += [os.path.join(at, name) for name in names if name.endswith(".edit")]
    return found


def git(*words):
    """Runs git at the top, and returns its output. If it fails, it has printed the cause, and this ends the program."""
    run = subprocess.run(["git", *words], cwd=TOP, stdout=subprocess.PIPE, text=True)
    return run.stdout if run.returncode == 0 else sys.exit(1)


def changed(base, parts=None):
    """Returns the crates that differ from a commit: by their line, by a file (in one of these folders, if given),
    or by a file that git doesn't track yet."""
    before = listed_in(git("show", f"{base}:crates.txt"))
    found = {crate for crate in listed() if listed()[crate] != before.get(crate)}
    files = git("diff", "--name-only", "--no-renames", "-z", base, "--", "crates")
    files += git("ls-files", "--others", "--exclude-standard", "-z", "--", "crates")
    for path in files.split("\0"):
        words = path.split("/")
        if len(words) > 2 and words[1] in listed() and (not parts or words[2] in parts):
            found.add(words[1])
    return found


def touched(base, parts=None):
    """Returns the crates that changed, and those above a crate whose sources changed, lowest first."""
    own, low = changed(base, parts), changed(base, SOURCES)
    return [crate for crate in lowest_first(listed()) if crate in own or low.intersection(below(crate))]


def read(path):
    with open(path) as file:
        return file.read()


def write(path, text):
    os.makedirs(os.path.dirname(path), exist_ok=True)
    with open(path, "w") as file:
        file.write(text)


@contextlib.contextmanager
def room(name):
    """Makes a folder below out/ for copies, and removes it at the end of the `with`. (`rt ci` stops at a
    crates.txt there.)"""
    os.makedirs(os.path.join(TOP, "out"), exist_ok=True)
    at = tempfile.mkdtemp(prefix=f"{name}-", dir=os.path.join(TOP, "out"))
    try:
        yield at
    finally:
        shutil.rmtree(at, ignore_errors=True)


def copy_sources(crate, to):
    """Copies a crate's sources into a folder."""
    for part in SOURCES:
        if os.path.isdir(os.path.join(folder(crate), part)):
            shutil.copytree(os.path.join(folder(crate), part), os.path.join(to, part))


def lay_out(tree, crate, linked=os.link):
    """Makes a tree for a crate: its sources, and the sources and libraries of the crates below it. The files that
    `rt` kept of the crate there stay."""
    lines = read(os.path.join(TOP, "crates.txt")).split("\n")
    there = [*below(crate), crate]
    os.makedirs(tree, exist_ok=True)
    if not os.path.isdir(os.path.join(tree, ".git")):
        subprocess.run(["git", "init", "-q", tree], check=True)
    write(os.path.join(tree, "crates.txt"), "\n".join(line for line in lines if line.split(":")[0] in there) + "\n")
    shutil.copy2(os.path.join(TOP, "HANDLES"), tree)
    for name in there:
        for part in SOURCES + [os.path.join("out", "rlib")] * (name != crate):
            here, copy = os.path.join(folder(name), part), os.path.join(folder(name, tree), part)
            shutil.rmtree(copy, ignore_errors=True)
            if os.path.isdir(here):
                shutil.copytree(here, copy, copy_function=shutil.copy2 if name == crate else linked)
