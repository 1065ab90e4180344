#!/usr/bin/env python3
"""Checks the page of each crate, its README.md: pages.py. map.py does so, too.

- Each crate that is not of tests has a page, of at most MOST_WORDS words beside its examples.
- Each example in Rattle stands word for word in a test, or in a file of laws, which is proved. An example of commands begins
  with the line by which tests/program/run.sh finds the pages whose commands it runs.
- Each path that a page names is there.
"""
import glob
import os
import re
import sys

from crates import folder, listed, read

MOST_WORDS = 150
# the first line of commands
PROGRAM_LINE = "    P=out/release/droid_desk"


def has_page(crate):
    return crate != "droid_testing" and not crate.endswith("_tests")


def stripped(text):
    return "\n".join(line.strip() for line in text.strip().split("\n"))


def sources_of_examples(crate):
    """The texts in which an example may stand: tests, and the crate's laws."""
    tests = [folder(it) for it in listed() if it.endswith("_tests")]
    paths = [path for it in tests for path in glob.glob(os.path.join(it, "src", "**", "*.rt"), recursive=True)]
    return [stripped(read(path)) for path in [*paths, *glob.glob(os.path.join(folder(crate), "src", "*laws.rt"))]]


def words_in(prose):
    """The words of a page, a link's target not counted."""
    text = re.sub(r"\]\([^)]*\)", "]", prose)
    return [word for word in text.split() if re.search(r"\w", word)]


def wrong_paths(crate, prose):
    place = folder(crate)
    for path in re.findall(r"\]\(([^)#]+)", prose):
        if "://" not in path and not os.path.exists(os.path.join(place, path)):
            yield f"{crate}: its page links to {path}, which is not there"
    for path in re.findall(r"`((?:src|specs)/[\w/.]*)`", prose):
        if not os.path.exists(os.path.join(place, path)):
            yield f"{crate}: its page names {path}, which is not there"


def problems_of(crate):
    path = os.path.join(folder(crate), "README.md")
    if not os.path.exists(path):
        return [f"{crate}: it has no page, README.md"]
    page = read(path)
    examples = re.findall(r"```rust\n(.*?)```", page, re.S)
    lines = re.sub(r"```.*?```", "", page, flags=re.S).split("\n")
    prose = "\n".join(line for line in lines if not line.startswith("    "))
    found = list(wrong_paths(crate, prose))
    if len(words_in(prose)) > MOST_WORDS:
        found.append(f"{crate}: its page has {len(words_in(prose))} words: at most {MOST_WORDS} are wanted")
    if not examples and PROGRAM_LINE not in lines:
        found.append(f"{crate}: its page has no example")
    if examples and any(stripped(example) not in "\n".join(sources_of_examples(crate)) for example in examples):
        found.append(f"{crate}: an example of its page stands in no test")
    return found


def problems():
    return [problem for crate in listed() if has_page(crate) for problem in problems_of(crate)]


def main():
    found = problems()
    for problem in found:
        print(problem)
    print(f"{sum(map(has_page, listed()))} pages; {len(found)} problems")
    return 1 if found else 0


if __name__ == "__main__":
    sys.exit(main())
