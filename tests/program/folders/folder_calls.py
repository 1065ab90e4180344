"""Each call of the file system fails in turn, as on a broken disk: what it was for is skipped and reported, or the command
ends with a fault, and all else is as it was."""
import os
import unittest

from lib.trees import SKIPPED, InFolder, lines, profile, read, status_of, walk
from verify_lists import contents, expected, rows_in, verify

# the calls for the folder itself and for the list, before the walk
FEW = 8


class Calls(InFolder):
    def setUp(self):
        super().setUp()
        for path in (b"/b.txt", b"/in/a.bin", b"/in/deep/c", b"/in/e", b"/out/d.txt"):
            self.folder(os.path.dirname(path))
            # (a file of two reads, and an empty one)
            self.file(path, {b"/in/a.bin": b"x" * 70_000, b"/in/e": b""}.get(path, path))
        self.listed = self.work + b"/list.csv"
        self.assertEqual(profile(self.top, "--output", self.listed, "--quiet")[0], 0)

    def each_in_turn(self, command, for_a_file=4):
        """Runs a command with each of its calls failing, and yields its result. A file takes at least `for_a_file` calls."""
        counted = self.work + b"/calls"
        how = os.environ | {"LD_PRELOAD": os.environ["PRELOAD_CALLS"], "CALLS_FROM": os.fsdecode(self.top)}
        command(how | {"CALLS_FILE": os.fsdecode(counted)})
        count = os.path.getsize(counted)
        # a look, an opening and a listing for each folder, and two looks, an opening and a read for each file that is read
        self.assertGreaterEqual(count, 4 * 3 + 5 * for_a_file)
        return [command(how | {"CALL_FAILS": str(number)}) for number in range(1, count + 1)]

    def skipped_in(self, said):
        """The one entry that was skipped, with its reason, or none."""
        found = dict(line.rsplit(b": ", 1) for line in lines(said, SKIPPED))
        self.assertLessEqual(len(found), 1, said)
        return found

    def test_profile(self):
        rows, seen, faults = walk(self.top)[0], set(), 0
        for status, out, said in self.each_in_turn(lambda env: profile(self.top, env=env)):
            if status == 4:
                self.assertEqual((out, lines(said, b"fault: ")), (b"", [b"Folder"]))
                faults += 1
                continue
            skipped = self.skipped_in(said)
            seen |= set(skipped)
            self.assertEqual(status, status_of(skipped), said)
            due = [row for row in rows if not is_below(row["FILE_PATH"].encode(), skipped)]
            # other numbers are given then
            found = read(out)
            strip = lambda row: {name: value for name, value in row.items() if name not in ("ID", "PARENT_ID")}
            self.assertEqual([{name: row[name] for name in strip(rows[0])} for row in found], list(map(strip, due)))
            numbers = {row["FILE_PATH"]: row["ID"] for row in found} | {"": ""}
            self.assertEqual([numbers[os.path.dirname(row["FILE_PATH"]).rstrip("/")] for row in found], [row["PARENT_ID"] for row in found])
        self.assertLess(faults, FEW)
        self.assertEqual(seen, {row["FILE_PATH"].encode() for row in rows})

    def test_verify(self):
        items, seen, faults = contents(self.top), set(), 0
        for status, out, said in self.each_in_turn(lambda env: verify(self.top, "--against", self.listed, env=env)):
            if status in (3, 4):
                self.assertEqual((out, lines(said, b"fault: ")), (b"", [b"Open" if status == 3 else b"Folder"]))
                faults += 1
                continue
            skipped = {row[1]: row[-1] for row in rows_in(out)}
            self.assertLessEqual(len(skipped), 1, said)
            seen |= set(skipped)
            self.assertEqual((rows_in(out), status), (expected(items, items, "md5", True, skipped), status_of(skipped)), said)
        self.assertLess(faults, FEW)
        self.assertEqual(seen, set(items))

    def test_verify_from_a_call_on(self):
        """From one call on all fail, as on a disk that is torn out: what could not be listed or read is unreadable, and
        nothing else is reported of it and of what lies below it."""
        for words, for_a_file in (([], 4), (["--quick"], 1)):
            kinds, folders = set(), set()
            from_each = self.each_in_turn(lambda env: verify(self.top, "--against", self.listed, *words, env=env | {"CALLS_FAIL": "1"}), for_a_file)
            for status, out, said in from_each:
                if status in (3, 4):
                    self.assertEqual(out, b"", said)
                    continue
                paths = [row[1] for row in rows_in(out)]
                self.assertEqual(status, 5 if paths else 0, said)
                self.assertEqual([path for path in paths if path and is_below(os.path.dirname(path), paths)], [], said)
                kinds |= {row[0] for row in rows_in(out)}
                folders |= {path for path in paths if os.path.isdir(self.top + path)}
            self.assertEqual((kinds, folders), ({b"unreadable"}, {b"", b"/in", b"/in/deep", b"/out"}))


def is_below(path, skipped):
    return any(path == it or path.startswith(it + b"/") for it in skipped)


if __name__ == "__main__":
    unittest.main()
