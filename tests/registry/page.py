"""docs/COMMON_REGISTRY.md has each format as the registry has it, and names its specification; README.md says how many
there are."""

import os
import re
import unittest

from common import FORMATS
from lib.program import TOP

with open(os.path.join(TOP, "docs", "COMMON_REGISTRY.md"), encoding="utf-8") as file:
    PAGE = file.read().splitlines()
with open(os.path.join(TOP, "README.md"), encoding="utf-8") as file:
    README = file.read()

SEQUENCE = re.compile(r"(BOF|EOF) ([0-9]+)(?:-([0-9]+))? `([^`]+)`")


def rows(first, *columns):
    """Yields the cells of the tables that begin with these headings."""
    heading = [first, *columns]
    reading = False
    for line in PAGE:
        cells = [cell.strip().replace("\\|", "|") for cell in re.split(r"(?<!\\)\|", line)[1:-1]]
        if cells == heading:
            reading = True
        elif not cells:
            reading = False
        elif reading and not set("".join(cells)) <= {"-"}:
            yield cells


def signatures(cell):
    """Reads signatures. `or` stands between signatures, `and` between the byte sequences of one."""
    for signature in cell.split("<br>or "):
        parts = signature.split(" and ")
        read = [SEQUENCE.fullmatch(part) for part in parts]
        assert all(read), cell
        yield [(anchor, least, most or least, pattern) for anchor, least, most, pattern in (part.groups() for part in read)]


FIRST = ("Identifier", "Format", "Media type", "Extensions")


class Page(unittest.TestCase):
    def test_formats_and_signatures(self):
        there = {}
        for identifier, title, media_type, extensions, *found, source in [
            *rows(*FIRST, "Signatures", "Specification"),
            *rows(*FIRST, "Specification"),
        ]:
            listed = extensions.split(", ") if extensions else []
            self.assertTrue(source, identifier)
            self.assertNotIn(identifier, there)
            written = [signature for cell in found for signature in signatures(cell)]
            there[identifier] = (title, media_type.strip("`"), listed, written)
        had = {f"`{form.puid}`": (form.title, form.media_type, form.extensions, form.signatures) for form in FORMATS.values()}
        self.assertEqual(list(there), list(had))
        for identifier in had:
            self.assertEqual(there[identifier], had[identifier], identifier)

    def test_numbers(self):
        pronom = sum(not puid.startswith("movkrin/") for puid in FORMATS)
        self.assertIn(f"{len(FORMATS)} [everyday formats](docs/COMMON_REGISTRY.md), {pronom} with PRONOM's identifier", README)

    def test_priorities(self):
        there = {over.strip("`"): below.replace("`", "").split(", ") for over, below in rows("Identifier", "Stands over")}
        self.assertEqual(there, {form.puid: form.below for form in FORMATS.values() if form.below})


if __name__ == "__main__":
    unittest.main()
