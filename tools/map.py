#!/usr/bin/env python3
"""Holds crates.txt, the map, to the crates' own files: map.py. `make quick` begins with it.

- A crate's line names the libraries that its own files name, and no other.
- A crate re-exports names of another one only where SURFACES has it: a name is imported from the crate that defines it.
- Each crate has a page, with an example that is tested (pages.py).
- Lines of src/ and specs/ have at most MOST_COLUMNS columns.
- The program stands on few libraries, few paths lead down from it, and the gate tries few wrong bodies.
"""
import glob
import os
import re
import sys

import crates
import pages
from crates import below, edits_of, listed, paths, read
from standing import kit_folder

PROGRAM = "droid_desk"
# the crates of which a crate re-exports names, since the specification gives them its calls
SURFACES = {"droid_core": ["droid_store"], "droid_pronom": ["droid_pattern"], "droid_wire": ["droid_client"]}
# what tests share
SHARED = "droid_testing"
# the kit's libraries that are named as std or a module of it: only a line tells that one of them is meant
AS_IN_STD = {"std", "core", "io", "os", "libc", "bytes"}
# `rt` sums up the sources of a crate once for each path to it, at every call
MOST_PATHS = 600
MOST_LIBRARIES = 40
# each costs the gate a check of its crate
MOST_EDITS = 39
MOST_COLUMNS = 120
# `rt fmt` keeps an attribute on one line, and a text of a definition has no break
UNBROKEN = re.compile(r'^\s*#\[|codes "')
# rows of the common registry, as embed.py writes them
WRITTEN = os.path.join("droid_pronom", "src", "common.rt")


def libraries():
    """All that a file can name: the repository's crates, and the kit's libraries."""
    rlibs = glob.glob(os.path.join(kit_folder(), "rlibs", "*.rlib"))
    of_kit = {os.path.basename(it)[: -len(".rlib")] for it in rlibs}
    return of_kit.union(listed(), *listed().values())


def words_of(path):
    """The first words of the paths in a file, and the modules that it has."""
    if not path.endswith(".rt"):
        return re.findall(r"\bRattle\.(\w+)", re.sub(r"--.*", "", read(path))), []
    text = re.sub(r"//.*", "", read(path))
    words = re.findall(r"\bRattle\.(\w+)", text) + re.findall(r"(?<![\w:.])(?:::)?(\w+)::", text)
    return words + re.findall(r"\buse\s+(\w+)\s*(?:;|as\b)", text), re.findall(r"\bmod\s+(\w+)", text)


def named_by_files(crate, known):
    """The libraries that the crate's own files name."""
    found, modules = set(), {crate}
    for path in crates.files_of(crate):
        words, own = words_of(path)
        found.update(words)
        modules.update(own)
    return (found & known) - modules - (AS_IN_STD - {*listed()[crate]})


def wrong_line(crate, known):
    lists, names = {*listed()[crate]}, named_by_files(crate, known)
    for low in sorted(lists - names):
        yield f"{crate}: its line lists {low}, which its files don't name"
    for low in sorted(names - lists):
        yield f"{crate}: its files name {low}, which its line doesn't list"


def is_of_tests(crate):
    return crate == SHARED or crate.endswith("_tests")


def passed_on(crate):
    """The libraries of which the crate re-exports names, code or definitions."""
    for path in crates.files_of(crate):
        if path.endswith(os.path.join("src", "lib.rt")):
            yield from re.findall(r"^pub use (droid_\w+)", read(path), re.M)
        elif path.endswith("Lib.antt"):
            yield from re.findall(r"^pub use Rattle\.(\w+)", read(path), re.M)


def wrong_surface(crate):
    for low in sorted(set(passed_on(crate)) - set(SURFACES.get(crate, []))):
        yield f"{crate}: it re-exports names of {low}, which are imported from where they are defined"


def long_lines(crate):
    of_proofs = os.path.join(crates.folder(crate), "proofs")
    for path in crates.files_of(crate):
        if not path.startswith(of_proofs) and not path.endswith(WRITTEN):
            for number, line in enumerate(read(path).split("\n"), 1):
                if len(line) > MOST_COLUMNS and not UNBROKEN.search(line):
                    yield f"{os.path.relpath(path, crates.TOP)}:{number}: {len(line)} columns: at most {MOST_COLUMNS} are wanted"


def counts():
    """What is counted, how much there is of it, and how much there may be."""
    edits = sum(len(edits_of(crate, ["must-fail"])) for crate in listed())
    yield f"paths from {PROGRAM} down", paths(PROGRAM), MOST_PATHS
    yield f"libraries below {PROGRAM}", len(below(PROGRAM)), MOST_LIBRARIES
    yield "wrong bodies in must-fail/", edits, MOST_EDITS


def problems():
    known = libraries()
    found = [it for crate in listed() for it in [*wrong_line(crate, known), *wrong_surface(crate), *long_lines(crate)]]
    found += pages.problems()
    return found + [f"{number} {what}: at most {most} are wanted" for what, number, most in counts() if number > most]


def main():
    found = problems()
    for problem in found:
        print(problem)
    print("; ".join(f"{number} {what}" for what, number, _ in counts()) + f"; {len(found)} problems")
    return 1 if found else 0


if __name__ == "__main__":
    sys.exit(main())
