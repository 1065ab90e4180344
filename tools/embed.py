#!/usr/bin/env python3
"""Writes registries/common.csv, the registry of everyday formats, into the program's sources: embed.py. With
--check it only checks that the sources have it."""
import os
import sys

TOP = os.path.dirname(os.path.dirname(os.path.abspath(__file__)))
SOURCE = os.path.join(TOP, "registries", "common.csv")
WRITTEN = os.path.join(TOP, "crates", "droid_pronom", "src", "common.rt")
FRONT = """//! The registry of everyday formats, which the program has in itself: registries/common.csv, written here by
//! tools/embed.py.

/// Returns the bytes of the registry, a file of RECORDS records. Allocates nothing. It has no contract: the tests run
/// `tools/embed.py --check`, which compares the bytes with the file.
pub fn common_registry() -> &'static [u8] {
    COMMON.as_bytes()
}

const COMMON: &str = "\\
"""


def text():
    with open(SOURCE, encoding="ascii") as file:
        lines = file.read()
    escaped = lines.replace("\\", "\\\\").replace('"', '\\"')
    return FRONT.replace("RECORDS", f"{lines.count(chr(10)):,}") + escaped + '";\n'


def main():
    if sys.argv[1:] == ["--check"]:
        with open(WRITTEN, encoding="ascii") as file:
            if file.read() != text():
                sys.exit("crates/droid_pronom/src/common.rt is not registries/common.csv: run tools/embed.py")
        return
    with open(WRITTEN, "w", encoding="ascii") as file:
        file.write(text())


main()
