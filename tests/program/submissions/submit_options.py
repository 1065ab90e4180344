"""Each option of `submit` reaches the requests that go out, and what the service finds by them."""
import csv

from lib.frames import ADD_FILE, CREATE_PROFILE, MD5, NO_HASH, PIECE, SHA256, cut, file_body, profile_body
from lib.program import Serve
from lib.submissions import Proxy, submit
from lib.trees import InFolder

# By the sample registry `abc` at the beginning and `xyz` at the end together are dev/2, which has the extension `abc`.
FILES = {b"/late.bin": b"xyz" + bytes(97), b"/plain.abc": b"nothing", b"/two.bin": b"abc" + bytes(200) + b"xyz"}


class Options(InFolder):
    def setUp(self):
        super().setUp()
        self.export = self.work + b"/export.csv"
        for path, content in FILES.items():
            self.file(path, content)

    def sent(self, *words, client=7, piece=512):
        """Submits the folder, and returns the frames that went out and the rows of the export."""
        with Serve.lasting() as service, Proxy(service.port, iter([None])) as proxy:
            status, err = submit(self.top, proxy.port, client, "--export", self.export, *words, piece=piece)
            frames = list(cut(proxy.sent))
        self.assertEqual((status, err), (0, b""))
        with open(self.export, encoding="utf-8", newline="") as file:
            return frames, list(csv.DictReader(file))

    def test_defaults(self):
        frames, _ = self.sent()
        self.assertEqual(frames[0].kind, CREATE_PROFILE)
        self.assertEqual(frames[0].body, profile_body(65_536, 2, MD5, 0))

    def test_client(self):
        frames, _ = self.sent(client=4_294_967_295)
        self.assertEqual({frame.client for frame in frames}, {4_294_967_295})

    def test_limit(self):
        """`abc` and `xyz` stand within 100 bytes of the ends, but not within 2."""
        frames, rows = self.sent("--limit", "100")
        self.assertEqual(frames[0].body, profile_body(100, 2, MD5, 0))
        self.assertEqual(self.puids(rows)["/two.bin"], "dev/2")
        frames, rows = self.sent("--limit", "2")
        self.assertEqual(frames[0].body, profile_body(2, 2, MD5, 0))
        self.assertEqual(self.puids(rows)["/two.bin"], "")

    def test_match_all(self):
        """By its extension alone a file is dev/2 only then, since dev/2 has signatures."""
        frames, rows = self.sent()
        self.assertEqual(self.puids(rows)["/plain.abc"], "")
        frames, rows = self.sent("--match-all")
        self.assertEqual(frames[0].body, profile_body(65_536, 2, MD5, 1))
        self.assertEqual(self.puids(rows)["/plain.abc"], "dev/2")

    def test_hash(self):
        for word, number, column in (("md5", MD5, "MD5_HASH"), ("sha256", SHA256, "SHA256_HASH"), ("none", NO_HASH, "HASH")):
            frames, rows = self.sent("--hash", word)
            self.assertEqual(frames[0].body, profile_body(65_536, 2, number, 0))
            self.assertIn(column, rows[0])

    def test_piece_size(self):
        frames, _ = self.sent(piece=64)
        added = [frame.body for frame in frames if frame.kind == ADD_FILE]
        files = [file_body(path[1:], len(FILES[path]), 64, modified=1_600_000_000) for path in sorted(FILES)]
        self.assertEqual(added, files)
        lengths = [len(frame.body) - 12 for frame in frames if frame.kind == PIECE]
        self.assertEqual(lengths, [64, 36, 7, 64, 64, 64, 14])

    def test_wrong(self):
        """The command ends before it looks at the folder."""
        numbers = [["--wait", number] for number in ("-1", "86401", "x", "")] + [["--timeout", number] for number in ("0", "86401")]
        for words in (*numbers, ["--wait"], ["--timeout"], ["--name"], ["--name", ""], ["--skipped"], ["--first", "1"]):
            with self.subTest(words=words):
                status, err = submit(self.top + b"/none", 1, 7, *words)
                self.assertEqual((status, err[:7]), (2, b"error: "))

    def test_last_values_are_taken(self):
        """The command looks at the folder then."""
        for words in (["--wait", "0"], ["--wait", "86400"], ["--timeout", "1"], ["--timeout", "86400"], ["--name", "a deposit"]):
            with self.subTest(words=words):
                status, err = submit(self.top + b"/none", 1, 7, *words)
                self.assertEqual((status, err.split(b"\n")[0]), (4, b"fault: Folder"))

    @staticmethod
    def puids(rows):
        return {row["FILE_PATH"]: row["PUID"] for row in rows}
