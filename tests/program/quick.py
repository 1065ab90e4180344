#!/usr/bin/env python3
"""Tests `make quick` and the notes of `make prove` (tools/quick.py, tools/proved.py), over a small repository and a kit
that are invented: quick.py. What changed is proved over the libraries that `make prove` left, and nothing else; a library,
a note or a source that is not as the run left it is never taken."""
import os
import shutil
import signal
import sys
import time
import unittest

sys.path.insert(0, os.path.join(os.path.dirname(os.path.dirname(os.path.abspath(__file__)))))
from lib.toolkit import SOURCE, TOP, Repository, read, write

PROVED = "are proved, in"


FUNCTIONS = """\
//! A file.

/// A law.
pub fn law()
    ensures { a ≡
        b }
{}

impl Shape for Square {
    /// An area.
    #[inline]
    fn area(&self) -> u8 {
        // one
        1
    }

    fn name(&self) -> &str;

    fn none() {}
}

/// A sum.
fn sum(
    a: u8,
) -> u8
    requires { a ≤ 8 }
{
    a
}
"""


class Functions(unittest.TestCase):
    def test_lines(self):
        sys.path.insert(0, os.path.join(TOP, "tools"))
        from functions import functions_in

        lines = FUNCTIONS.split("\n")
        found = [(*of, lines[its.start].strip(), lines[its.stop - 1].strip()) for of, its in functions_in(FUNCTIONS)]
        square = "impl Shape for Square"
        self.assertEqual(found, [
            ("", "law", "/// A law.", "{}"), (square, "area", "/// An area.", "}"), (square, "name", "fn name(&self) -> &str;", "fn name(&self) -> &str;"),
            (square, "none", "fn none() {}", "fn none() {}"), ("", "sum", "/// A sum.", "}"),
        ])


class Quick(Repository):
    def setUp(self):
        super().setUp()
        self.prove()

    def quick(self, *words):
        status, said = self.call("quick.py", *words)
        self.said = said
        return status, said, [it for it in self.calls() if "fmt" not in it]

    def assert_built_anew(self, crate, calls):
        self.assertTrue(any(it in (f"rattle build {crate}", f"rt lib {crate}") for it in calls), (calls, self.said))

    def test_a_function_and_then_the_crate(self):
        self.change("top", "    1\n}", "    // (one)\n    1\n}")
        self.change("top", "result ≡ 2 }\n{\n    2", "result ≡ 3 }\n{\n    3")
        status, said, calls = self.quick()
        self.assertEqual(status, 0, said)
        self.assertEqual(calls, ["rattle check top first second", "rattle check top"])
        self.assertRegex(said, r"s: proved, in \d+ s: the 2 functions of top .*: first, second\. THE CRATE IS NOT YET PROVED")
        self.assertRegex(said, r"s: top is proved, in \d+ s")

    def test_one_function_of_two(self):
        self.change("top", "    2\n}", "    3\n}")
        status, said, calls = self.quick()
        self.assertEqual((status, calls), (1, ["rattle check top second"]), said)
        self.assertIn("not all proved: the 1 function of top with a changed text, proof or definition:", said)
        self.assertNotIn("is proved", said)

    def test_nothing(self):
        self.assertEqual(self.quick()[::2], (0, []))

    def test_a_comment(self):
        for crate in ("low", "top"):
            self.change(crate, "one is odd", "one is not even")
        status, said, calls = self.quick()
        self.assertEqual((status, calls), (0, []), said)
        for crate in ("low", "top"):
            self.assertIn(f"{crate} is proved: since `make prove` or a build only comments changed in it and below it", said)

    def test_a_comment_below(self):
        self.change("low", "one is odd", "one is not even")
        self.change("top", "    2\n}", "    // two\n    2\n}")
        self.change("top", "≡ 1 }\n{\n    // one is odd\n    1", "≡ 4 }\n{\n    4")
        status, said, calls = self.quick()
        self.assertEqual((status, calls), (0, ["rattle check top first second", "rattle check top"]), said)

    def test_a_source_below(self):
        """The first answer is over sources; then the libraries are built, and then the crate is proved."""
        self.change("mid", "≡ 2 }\n{\n    2", "≡ 3 }\n{\n    3")
        self.change("top", "≡ 2 }\n{\n    2", "≡ 3 }\n{\n    3")
        status, said, calls = self.quick()
        self.assertEqual((status, calls[:2]), (0, ["rattle check mid second", "rattle check top second mid="]), said)
        self.assertRegex(said, r"s: proved, over the sources of mid, in \d+ s: the 1 function of top .*: second\. THE CRATE IS NOT YET PROVED")
        self.assert_built_anew("mid", calls)
        self.assertEqual(calls[-1], "rattle check top")
        self.assertEqual(self.quick()[2], ["rattle check top second", "rattle check top"])

    def test_libraries_of_rt(self):
        """It calls `rt` over libraries that `rt` built, but for a first answer over sources."""
        self.call("proved.py", "begin")
        self.assertEqual(self.call("build.py", "mid")[0], 0)
        self.calls()
        self.change("top", "≡ 2 }\n{\n    2", "≡ 3 }\n{\n    3")
        both = ["rt check top", "rattle check top second", "rt check top", "rattle check top"]
        self.assertEqual(self.quick()[2], both)
        self.change("mid", "≡ 2 }\n{\n    2", "≡ 3 }\n{\n    3")
        status, said, calls = self.quick()
        self.assertEqual((status, calls[:3]), (0, ["rt check mid", "rattle check mid second", "rattle check top second mid="]), said)
        self.assertEqual(calls[-2:], ["rt check top", "rattle check top"])

    def test_a_proof_below_that_fails(self):
        self.change("mid", "≡ 2 }\n{\n    2", "≡ 3 }\n{\n    2")
        self.change("top", "≡ 2 }\n{\n    2", "≡ 3 }\n{\n    3")
        status, said, calls = self.quick()
        self.assertEqual(status, 1, said)
        self.assertIn("mid could not be proved or built:", said)
        self.assertNotIn("rattle check top", calls)

    def test_files_of_proofs_and_specs(self):
        """The functions that read such a file are those that it belongs to or that name it, also by another such file."""
        for path, text in (("proofs/Steps.antt", ""), ("proofs/second/Answers.antt", "use Rattle.top.proofs.Steps.{a}\n"), ("specs/Sums.antt", ""), ("specs/Whole.antt", "use Rattle.top.specs.Sums.{a}\n")):
            write(self.at("crates", "top", *path.split("/")), text)
        write(self.at("crates", "top", "src", "other.rt"), "ghost use Rattle.top.specs.Whole.{a};\n\n" + SOURCE.replace("second", "third"))
        self.git("add", ".")
        self.git("commit", "-qm", "more")
        self.prove()
        for path, names in (("proofs/Steps.antt", "second"), ("proofs/second/Answers.antt", "second"), ("specs/Sums.antt", "other::first other::third"), ("proofs/New.antt", "")):
            write(self.at("crates", "top", *path.split("/")), "b")
            self.assertEqual(self.quick()[2][0].split()[3:], names.split())
            self.git("checkout", "-q", ".")

    def test_a_name_that_a_check_does_not_know(self):
        """All of the function's module is checked then."""
        write(self.at("crates", "top", "src", "other.rt"), SOURCE + "\nimpl Number {\n    fn far(&self) -> u8 {\n        1\n    }\n}\n")
        status, said, calls = self.quick()
        self.assertEqual((status, calls[:2]), (0, ["rattle check top far other::first other::second", "rattle check top other other::first other::second"]), said)
        self.assertIn("the 3 functions of top with a changed text, proof or definition: ", said)

    def test_a_byte_of_a_library(self):
        for file in ("code", "format"):
            path = self.library("low", file)
            text = read(path)
            write(path, text + " ")
            self.change("top", "≡ 2 }\n{\n    2", "≡ 3 }\n{\n    3")
            _, said, calls = self.quick()
            self.assert_built_anew("low", calls)
            self.assertIn("proving", said)
            shutil.copy(os.path.join(self.top, "crates", "low", "src", "lib.rt"), self.source("top"))
            self.prove()

    def test_a_library_that_is_gone_or_has_more_files(self):
        self.change("top", "≡ 2 }\n{\n    2", "≡ 3 }\n{\n    3")
        write(self.library("mid", "more"), "")
        self.assert_built_anew("mid", self.quick()[2])
        shutil.rmtree(self.library("low"))
        self.assert_built_anew("low", self.quick()[2])

    def test_another_kit(self):
        for name in ("WHAT", "WHAT-crates"):
            self.prove()
            write(os.path.join(self.room, "kit", name), "archive 2\n")
            self.change("top", "    2\n}", f"    // by {name}\n    2\n}}")
            self.assert_built_anew("low", self.quick()[2])

    def test_a_damaged_note(self):
        self.change("top", "≡ 2 }\n{\n    2", "≡ 3 }\n{\n    3")
        note = self.at("out", "stands", "low")
        for text in ("", read(note)[:-9], read(note).replace("a", "b"), "\xff"):
            write(note, text)
            self.assert_built_anew("low", self.quick()[2])

    def test_a_note_of_another_library(self):
        self.change("top", "≡ 2 }\n{\n    2", "≡ 3 }\n{\n    3")
        write(self.at("out", "stands", "mid"), read(self.at("out", "stands", "low")))
        self.assert_built_anew("mid", self.quick()[2])


class Notes(Repository):
    """Which runs of `make prove` are noted."""

    def noted(self):
        at = self.at("out", "stands")
        return sorted(os.listdir(at)) if os.path.isdir(at) else []

    def test_all_are_noted(self):
        self.prove()
        self.assertEqual(self.noted(), ["low", "main", "mid", "top"])
        self.assertEqual((self.call("build.py", "main"), self.calls()), ((0, ""), []))
        self.change("low", "one is odd", "one is not even")
        self.assertEqual((self.call("build.py", "main"), self.calls()), ((0, ""), []))

    def test_a_program_of_changed_sources(self):
        """It is built over the libraries that did not change, and those that are built again."""
        self.prove()
        self.change("top", "≡ 2 }\n{\n    2", "≡ 3 }\n{\n    3")
        status, said = self.call("build.py", "main")
        self.assertEqual((status, self.calls()), (0, ["rattle build top", "rattle build main"]), said)
        self.assertEqual(read(self.at("crates", "main", "out", "main")), "another program")
        self.assertEqual(sorted(os.listdir(self.at("crates", "main", "out"))), ["main"])
        self.change("top", "one is odd", "one is not even")
        self.assertEqual((self.call("build.py", "main"), self.calls()), ((0, ""), []))

    def test_a_run_that_failed_or_was_interrupted(self):
        self.prove()
        self.call("proved.py", "begin")
        self.assertEqual(self.noted(), [])
        self.assertFalse(os.path.exists(self.library("low")))

    def test_a_note_without_a_run(self):
        self.prove()
        for crate in self.noted():
            os.remove(self.at("out", "stands", crate))
        self.assertIn("nothing is noted", self.call("proved.py", "note")[1])
        self.assertEqual(self.noted(), [])

    def test_a_source_that_changed_meanwhile(self):
        self.call("proved.py", "begin")
        text = read(self.source("low"))
        write(self.source("low"), text + "\n")
        write(self.source("low"), text)
        self.assertIn("nothing is noted", self.call("proved.py", "note")[1])
        self.assertEqual(self.noted(), [])

    def test_a_library_of_an_earlier_run(self):
        """`rt ci` gives a crate back the library that stood there before, where it took that over from a run that was killed."""
        self.prove()
        shutil.copytree(self.at("crates", "low", "out", "rlib"), self.at("old"))
        self.call("proved.py", "begin")
        os.makedirs(self.at("crates", "low", "out"), exist_ok=True)
        shutil.move(self.at("old"), self.at("crates", "low", "out", "rlib"))
        os.utime(self.library("low"), (0, 0))
        self.call("proved.py", "note")
        self.assertEqual(self.noted(), [])

    def test_a_library_of_another_command(self):
        self.prove()
        self.call("proved.py", "begin")
        write(self.library("low", "format"), "")
        write(self.at("crates", "low", "out", "rlib", "stamp"), "built")
        self.call("proved.py", "note")
        self.assertEqual(self.noted(), [])


class Interrupts(Repository):
    """An interrupt ends what runs, and leaves no half of a library; the next call does the rest."""

    def wait_for_rattle(self):
        for _ in range(3000):
            if any("rattle" in it for it in self.calls()):
                return
            time.sleep(0.1)
        self.fail("it has not called rattle")

    def interrupt(self, *words):
        """Interrupts a tool when `rattle` runs, which would take a minute."""
        write(os.path.join(self.kit, "slow"), "60")
        with self.begin(*words) as run:
            self.wait_for_rattle()
            run.send_signal(signal.SIGTERM)
            begun = time.time()
            run.communicate(timeout=600)
        self.assertLess(time.time() - begun, 40)
        self.assertNotEqual(run.returncode, 0)
        os.remove(os.path.join(self.kit, "slow"))

    def test_a_change_of_the_lowest(self):
        self.prove()
        self.change("low", "≡ 2 }\n{\n    2", "≡ 3 }\n{\n    3")
        for words in (["quick.py"], ["build.py", "mid"]):
            self.interrupt(*words)
        self.assertEqual(self.call("build.py", "mid")[0], 0)
        self.assertEqual(self.call("quick.py")[0], 0)

    def test_a_change_above(self):
        self.prove()
        files = read(self.library("mid", "code"))
        self.change("mid", "≡ 2 }\n{\n    2", "≡ 3 }\n{\n    3")
        self.interrupt("build.py", "mid")
        self.assertEqual(os.listdir(self.at("crates", "mid", "out")), ["rlib"])
        self.assertEqual(read(self.library("mid", "code")), files)
        self.assertEqual(self.call("build.py", "mid")[0], 0)
        self.assertEqual(self.calls()[-1], "rattle build mid")
        self.assertEqual((self.call("build.py", "mid"), self.calls()), ((0, ""), []))

    def test_a_change_meanwhile(self):
        """What a library was made of is not known then, so that it is built again."""
        self.prove()
        self.change("mid", "≡ 2 }\n{\n    2", "≡ 3 }\n{\n    3")
        write(os.path.join(self.kit, "slow"), "5")
        with self.begin("build.py", "mid") as run:
            self.wait_for_rattle()
            self.change("mid", "≡ 3 }\n{\n    3", "≡ 4 }\n{\n    4")
            run.communicate(timeout=600)
        self.assertEqual(self.call("build.py", "mid")[0], 0)
        self.assertEqual(self.calls()[-1], "rattle build mid")


if __name__ == "__main__":
    unittest.main(verbosity=0)
