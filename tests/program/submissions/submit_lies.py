"""A service that lies: about a file's hash, about what it has, or in the export. `submit` reports each lie that what it
sent and read can show. The expected lines are those of the lie."""
import struct
import unittest

from lib.frames import CAUSES, EXPORT, FINISH, MADE, NODE, PART, PIECE, TAKEN, numbers
from lib.lying import Lying, at, exporting, finished_at_once, first_of, other_hash, refusing, replying
from lib.rows import COLUMNS
from lib.submissions import WithSmallTree, fault, submit
from lib.trees import walk

OTHER_HASH = b": its hash in the profile is another\n"
STRANGER = "port %d: what came is not a reply to the request: is droid_desk serve listening there?"
MISTAKE = "port %d: {}: this is a mistake in droid_desk or in the service"
NO_FIT = MISTAKE.format("a reply came that does not fit its request")
NO_PROFILE = MISTAKE.format("the CSV that came is not that of a profile: record {} is wrong in {}")
DISTURBED = "port %d: other clients sent requests between the parts of the CSV, a hundred times: run the same command again later"
TOO_LONG = "port %d: the profile's CSV has {} bytes, more than the 1073741824 that submit reads: submit its subfolders one by one"
# the row of a file that nobody sent
MORE = (
    b'"9","","file:/more.txt","/more.txt","more.txt","","Done","1","File","txt","1970-01-01T00:00:00","false",'
    b'"0cc175b9c0f1b6a831c399e269772661","0","","","",""\n'
)


class Lies(WithSmallTree):
    def submitted(self, lie, *words):
        """Submits to a service that tells this lie: the status, standard error, and the service."""
        with Lying(lie) as service:
            status, err = submit(self.top, service.port, 7, "--export", self.export, *words)
        return status, err, service

    def reports(self, lie, *lines):
        """Checks that exactly these lines are printed, and that the export was written."""
        status, err, _ = self.submitted(lie)
        self.assertEqual((status, err.splitlines()), (5, list(lines)))
        self.exported()

    def ends(self, lie, name, sentence):
        """Checks that the command ends with this fault, and that no file was written."""
        status, err, service = self.submitted(lie)
        self.assertEqual((status, err), (4, fault(name, sentence % service.port)))
        self.assertEqual(self.beside(), [])
        with self.assertRaises(FileNotFoundError):
            self.exported()

    def test_the_truth(self):
        self.assertEqual(self.submitted(None)[:2], (0, b""))
        self.same(self.exported(), walk(self.top)[0])


class OfFiles(Lies):
    def test_other_hash_when_a_file_is_finished(self):
        skipped = b"".join(b"skipped: " + path + OTHER_HASH for path in (b"/a.bin", b"/z.bin", b"/sub/b.txt"))
        for hash, due in (("md5", (5, skipped + b"skipped in all: 3\n")), ("sha256", (5, skipped + b"skipped in all: 3\n")), ("none", (0, b""))):
            self.assertEqual(self.submitted(other_hash, "--hash", hash)[:2], due, hash)

    def test_other_hash_of_an_empty_file(self):
        """Its hash is known though no piece is read. Its Finish is request 9: a profile, a.bin's six and its AddFile come
        before."""
        self.file(b"/empty.txt", b"")
        self.reports(at(9, other_hash), b"skipped: /empty.txt" + OTHER_HASH.rstrip(), b"skipped in all: 1")

    def test_finished_though_no_piece_came(self):
        """Then the file is not sent; the export, which is right, shows that it is not there."""
        paths = (b"/a.bin", b"/z.bin", b"/sub/b.txt")
        self.reports(finished_at_once, *(b"not in the profile: " + path for path in paths))

    def test_pieces_said_to_be_held(self):
        """The service says that it has the first two pieces of three. They are read for the hash, and not sent."""
        status, err, service = self.submitted(first_of(FINISH, refusing(CAUSES["Incomplete"], *numbers(2))))
        self.assertEqual([frame.body[:12] for frame in service.frames if frame.kind == PIECE], [numbers(1, 1, 2)])
        self.assertEqual((status, err.split(b"\n")[0]), (4, b"fault: Incomplete"))

    def test_replies_of_another_kind(self):
        """To a profile, a folder, a file and each Finish; to a piece and the export, which are sent in a row."""
        for place in (1, 2, 3, 7, 8):
            self.ends(at(place, replying(TAKEN, numbers(1))), "Reply", NO_FIT)
        for place in (4, self.REQUESTS):
            self.ends(at(place, replying(NODE, numbers(1))), "Stranger", STRANGER)

    def test_no_replies(self):
        """A frame of another number, of no kind, or with half a body is no reply."""
        strange = (
            lambda service, request: replying(MADE, numbers(1))(service, request._replace(number=request.number + 1)),
            lambda service, request: replying(MADE, numbers(1))(service, request._replace(client=8)),
            replying(77),
            replying(MADE, b"\0"),
        )
        for lie in strange:
            for place in (1, 2, 5, self.REQUESTS):
                self.ends(at(place, lie), "Stranger", STRANGER)


class OfTheExport(Lies):
    """The rows have the columns ID, PARENT_ID, URI, FILE_PATH, .., SIZE, TYPE, EXT, LAST_MODIFIED, .., MD5_HASH, .."""

    def shows(self, change, *lines):
        self.reports(exporting(change), *lines)

    def test_row_more(self):
        self.shows(lambda text: text + MORE, b"not in the folder: /more.txt")

    def test_row_less(self):
        def change(text):
            return b"".join(line for line in text.splitlines(keepends=True) if b'"/z.bin"' not in line)

        self.shows(change, b"not in the profile: /z.bin")

    def test_no_rows(self):
        paths = (b"/a.bin", b"/sub", b"/z.bin", b"/sub/b.txt")
        self.shows(lambda text: COLUMNS, *(b"not in the profile: " + path for path in paths))

    def test_other_hash(self):
        """Of a file that was read in this run."""
        digest = next(row["MD5_HASH"] for row in walk(self.top)[0] if row["NAME"] == "b.txt").encode()
        self.shows(lambda text: text.replace(digest, b"0" * 32), b"differs: /sub/b.txt: the profile has another MD5_HASH (record 5)")

    def test_of_another_folder(self):
        """It has none of the paths that were sent, and two others. The lines of what was sent come first, in its order."""
        other = self.work + b"/other"
        self.top, top = other, self.top
        self.folder(b"")
        self.file(b"/b.txt", b"some text")
        self.file(b"/c.txt", b"other")
        with Lying() as service:
            self.assertEqual(submit(self.top, service.port, 7, "--export", self.export), (0, b""))
        text, self.top = self.exported(), top
        gone = (b"/a.bin", b"/sub", b"/z.bin", b"/sub/b.txt")
        more = (b"/b.txt", b"/c.txt")
        lines = [b"not in the profile: " + path for path in gone] + [b"not in the folder: " + path for path in more]
        self.shows(lambda _: text, *lines)

    def test_no_profile(self):
        swapped, joined = (COLUMNS.replace(b'"ID","PARENT_ID"', other) for other in (b'"PARENT_ID","ID"', b'"ID,PARENT_ID"'))
        for text, record, column in (
            (b"", 1, "ID"),
            (b"\n", 1, "ID"),
            (b"ID\n", 1, "ID"),
            (COLUMNS[1:], 1, "ID"),
            (COLUMNS + b"1,2\n", 2, "ID"),
            (swapped, 1, "ID"),
            (joined, 1, "FORMAT_NAME"),
            (b"\xff" * 99, 1, "ID"),
        ):
            self.ends(exporting(lambda _, text=text: text), "Reply", NO_PROFILE.format(record, column))

    def test_path_twice(self):
        def change(text):
            last = text.splitlines(keepends=True)[-1]
            return text + last.replace(b'"4"', b'"5"', 1)

        self.ends(exporting(change), "Reply", NO_PROFILE.format(6, "FILE_PATH"))

    def test_parts_of_many_exports(self):
        """The number of accepted commands grows from part to part, or the length does."""
        total = (1 << 20) + 1

        def growing(service, request):
            start, most = struct.unpack_from(">QI", request.body, 4)
            head = struct.pack(">QQ", len(service.frames), total)
            return replying(PART, head + b"I" * min(most, total - start))(service, request)

        def longer(service, request):
            start, most = struct.unpack_from(">QI", request.body, 4)
            due = total if start == 0 else total + 1
            return replying(PART, struct.pack(">QQ", 7, due) + b"I" * min(most, due - start))(service, request)

        for lie in (growing, longer):
            self.ends(first_of(EXPORT, lie, 1_000), "Disturbed", DISTURBED)

    def test_too_long(self):
        """The first part announces more than 2^30 bytes: no other one is asked for. It is, where that is the length."""

        def announcing(total):
            part = struct.pack(">QQ", 0, total) + b"I" * (1 << 20)
            return first_of(EXPORT, replying(PART, part))

        for total in ((1 << 30) + 1, 1 << 60, (1 << 64) - 1):
            self.ends(announcing(total), "TooLong", TOO_LONG.format(total))
        for total, due in (((1 << 30) + 1, 1), (1 << 30, 2)):
            exports = self.submitted(announcing(total))[2].frames[self.REQUESTS - 1 :]
            self.assertEqual([frame.kind for frame in exports[:due]], [EXPORT] * due)
            self.assertEqual(len(exports) > 1, due > 1)

    def test_parts_of_another_length(self):
        """A part without bytes before the end is no reply, nor one of fewer or more than were asked for."""
        for total, count in ((1 << 60, 0), (1 << 60, 1), (1 << 60, (1 << 20) - 1), (9, 8), (9, 10), (0, 1)):
            part = struct.pack(">QQ", 0, total) + b"I" * count
            self.ends(first_of(EXPORT, replying(PART, part), 1_000), "Stranger", STRANGER)


if __name__ == "__main__":
    unittest.main()
