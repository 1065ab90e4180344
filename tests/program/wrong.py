#!/usr/bin/env python3
"""Tests which wrong bodies `make wrong` (tools/wrong.py) tries, and how, over a small repository and a kit that are
invented: wrong.py."""
import os
import shutil
import sys
import unittest

sys.path.insert(0, os.path.dirname(os.path.dirname(os.path.abspath(__file__))))
from lib.toolkit import Repository, read, write

FILE = "file: src/lib.rt\n"
EDITS = {
    "other_first": FILE + "old:     // one is odd\nnew:     return 4;\n",
    "other_second": FILE + "old:     2\nnew:     8\n",
}
NOT_ONCE = "NOT TRIED: an old text doesn't occur in its file exactly once"
BOTH = ["rattle check top first second"]


class Wrong(Repository):
    """Each test has a repository whose crate `top` has two wrong bodies, over libraries that `make prove` left."""

    def setUp(self):
        super().setUp()
        self.add(EDITS)
        self.prove()

    def add(self, edits, part="wrong-bodies"):
        for name, text in edits.items():
            write(self.at("crates", "top", part, f"{name}.edit"), text)

    def wrong(self, *words):
        status, said = self.call("wrong.py", *words)
        return status, said.split("\n")[-2], said, [it for it in self.calls() if "fmt" not in it]

    def assert_tried(self, calls, refused=2, earlier=0, bad=()):
        """Calls it: these do not apply, so many were refused earlier, and it calls the kit so."""
        status, last, said, its = self.wrong()
        by_earlier = f" ({earlier} of them by an earlier run)" * bool(earlier)
        self.assertEqual(last, f"{refused + len(bad)} wrong bodies: {refused} refused{by_earlier}, 0 refused for a name alone, 0 not refused, {len(bad)} bad", said)
        for name in bad:
            self.assertIn(f"crates/top/wrong-bodies/{name}.edit: {NOT_ONCE}", said)
        self.assertEqual((status, its), (int(bool(bad)), calls), said)
        self.assertFalse(os.path.exists(self.at("out", "wrong", "top")))


class Refusals(Wrong):
    def setUp(self):
        super().setUp()
        self.assert_tried(BOTH)

    def test_nothing_changed(self):
        self.assert_tried([], earlier=2)

    def test_a_comment_that_no_edit_names(self):
        self.change("top", "//! Numbers", "//! Small numbers")
        self.assert_tried([], earlier=2)

    def test_a_comment_that_an_edit_replaces(self):
        text = read(self.source("top"))
        for new in ("one is one", "one is odd\n    // one is odd"):
            write(self.source("top"), text.replace("one is odd", new))
            self.assert_tried([], refused=1, earlier=1, bad=["other_first"])
        # (what was noted before counts again)
        write(self.source("top"), text)
        self.assert_tried([], earlier=2)

    def test_the_code(self):
        self.change("top", "≡ 2 }\n{\n    2", "≡ 3 }\n{\n    3")
        self.assert_tried(["rattle build top", "rattle check top first"], refused=1, bad=["other_second"])

    def test_the_code_below(self):
        self.change("low", "≡ 2 }\n{\n    2", "≡ 3 }\n{\n    3")
        built = [f"{how} {crate}" for crate in ("low", "mid", "top") for how in ("rt lib", "rattle build")]
        self.assert_tried([*built, *BOTH])


class Trials(Wrong):
    def test_one_that_is_not_refused(self):
        """A check of its function alone doesn't settle that: one of the whole crate does."""
        self.add({"same": FILE + "old:     2\nnew:     // two\n"})
        self.change("top", "    2\n}", "    2\n    3\n}")
        self.prove()
        self.add({"same": FILE + "old:     3\nnew:     4\n"})
        status, last, said, calls = self.wrong()
        self.assertEqual((status, last), (1, "3 wrong bodies: 2 refused, 0 refused for a name alone, 1 not refused, 0 bad"), said)
        self.assertIn("crates/top/wrong-bodies/same.edit: NOT REFUSED", said)
        self.assertEqual(calls, [*BOTH, "rattle check top second", "rattle check top"])

    def test_a_change_outside_of_functions(self):
        self.add({"outside": FILE + "old:     ensures { result ≡ 1 }\nnew:     ensures { result ≡ 5 }\n"}, "must-fail")
        self.assert_tried([*BOTH, "rattle check top"], refused=3)

    def test_what_former_trials_kept(self):
        kept = self.at("crates", "top", "out", "incremental")
        for name in ("first.oantt", "index"):
            write(os.path.join(kept, name), "kept")
        self.assert_tried(BOTH)
        self.assertEqual([read(os.path.join(kept, name)) for name in ("first.oantt", "index")], ["kept"] * 2)

    def test_after_an_interrupt(self):
        write(self.at("out", "wrong", "top", "index"), "kept")
        write(self.at("out", "wrong", "top.new", "index"), "half")
        self.assert_tried(BOTH)


if __name__ == "__main__":
    unittest.main(argv=sys.argv[:1], verbosity=0)
