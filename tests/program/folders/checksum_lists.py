"""Lists of checksums, line by line: how `verify` reads them, and how `profile --manifest` writes them. What is read is expected as
`md5sum -c` 9.1 of GNU coreutils says, but for lines that are refused here, and as RFC 8493 says of bags."""
import hashlib
import os
import re
import subprocess
import unittest

from lib.trees import InFolder, profile
from verify_lists import InLists, rows_in, verify

# the MD5 and the SHA-256 of `hello` and a line feed
M = b"b1946ac92492d2347c6235b4d2611184"
S = b"5891b5b522d5df086d0ff0b110fbd9d21bb4fc7163af34d08286a2e846f6be03"


# a byte order mark
MARK = b"\xef\xbb\xbf"
NO_FILES = b"it names no file: name the CSV of a profile, or a list of checksums"


def malformed(line):
    return b"line %d is malformed: name the CSV of a profile, or a list of checksums" % line


def no_file(line):
    return b"line %d names no file below the folder: name the CSV of a profile, or a list of checksums" % line


def other_kind(line):
    return b"line %d has a digest of another kind than the lines before it: name the CSV of a profile, or a list of checksums" % line


# lists, and what is read: the path and the digest of each file, or why the list can't be read
CHECKSUMS = [
    # no file is named: nothing, empty lines and comments
    (b"", NO_FILES),
    (b"\n\r\n\r", NO_FILES),
    (b"# a comment\n#\n", NO_FILES),
    (MARK, NO_FILES),
    # what `md5sum` writes
    (M + b"  a\n", [(b"/a", M)]),
    (S + b"  a\n", [(b"/a", S)]),
    (M + b" *a\n", [(b"/a", M)]),
    (b"\\" + M + b"  a\\\\b\\nc\\rd\n", [(b"/a\\b\nc\rd", M)]),
    (M + b"  ./a/b c\n", [(b"/a/b c", M)]),
    (M + b"  a\n" + M + b"  b\n", [(b"/a", M), (b"/b", M)]),
    # what `md5sum -c` takes beside
    (M + b"  a", [(b"/a", M)]),
    (M.upper() + b"  a\n", [(b"/a", M)]),
    (M + b"  a\r\n", [(b"/a", M)]),
    (M + b"  a\r", [(b"/a", M)]),
    (b"\n# c\n" + M + b"  a\n\n", [(b"/a", M)]),
    (b"\\" + M + b"  a\n", [(b"/a", M)]),
    (M + b"  a\\nb\n", [(b"/a\\nb", M)]),
    (M + b"  *a\n", [(b"/*a", M)]),
    (M + b" **a\n", [(b"/*a", M)]),
    (M + b"   a \n", [(b"/ a ", M)]),
    (M + b"  a\r\r\n", [(b"/a\r", M)]),
    (M + b"  a\n" + M + b"  a\n", b"has a path twice: /a"),
    # a byte order mark in front, and nowhere else
    (MARK + M + b"  a\n", [(b"/a", M)]),
    (MARK + b"\\" + M + b"  a\\\\b\r\n", [(b"/a\\b", M)]),
    (MARK + b"# c\n" + M + b"  a\n", [(b"/a", M)]),
    (MARK + MARK + M + b"  a\n", malformed(1)),
    (M + b"  a\n" + MARK + M + b"  b\n", malformed(2)),
    # what `md5sum --tag` and `sha256sum --tag` write, alone or beside other lines
    (b"MD5 (a) = " + M + b"\n", [(b"/a", M)]),
    (b"SHA256 (a) = " + S + b"\n", [(b"/a", S)]),
    (MARK + b"MD5 (a) = " + M + b"\r\n", [(b"/a", M)]),
    (b"MD5 (a) = " + M.upper(), [(b"/a", M)]),
    (b"MD5 (./a/b c) = " + M + b"\nMD5 ( d ) = " + M + b"\n" + M + b"  e\n", [(b"/a/b c", M), (b"/ d ", M), (b"/e", M)]),
    (b"MD5 (par) = x) = " + M + b"\n", [(b"/par) = x", M)]),
    (b"MD5 (a) = " + M + b") = " + M + b"\n", [(b"/a) = " + M, M)]),
    (b"\\MD5 (back\\\\slash) = " + M + b"\n", [(b"/back\\slash", M)]),
    (b"\\SHA256 (new\\nline\\r) = " + S + b"\n", [(b"/new\nline\r", S)]),
    (b"MD5 (a\\nb) = " + M + b"\n", [(b"/a\\nb", M)]),
    (b"MD5 (a) = " + S + b"\n", malformed(1)),
    (b"SHA256 (a) = " + M + b"\n", malformed(1)),
    (b"MD5 (a)= " + M + b"\n", malformed(1)),
    (b"MD5(a) = " + M + b"\n", malformed(1)),
    (b"MD5 a = " + M + b"\n", malformed(1)),
    (b"MD5 (a) = " + M[1:] + b"\n", malformed(1)),
    (b"MD5 (a) = " + M + b" \n", malformed(1)),
    (b" MD5 (a) = " + M + b"\n", malformed(1)),
    (b"md5 (a) = " + M + b"\n", malformed(1)),
    (b"SHA1 (a) = " + M + b"\n", malformed(1)),
    (b"\\MD5 (a\\b) = " + M + b"\n", malformed(1)),
    (b"MD5 () = " + M + b"\n", no_file(1)),
    (b"MD5 (/a) = " + M + b"\n", no_file(1)),
    (b"MD5 (a/../b) = " + M + b"\n", no_file(1)),
    (b"MD5 (a) = " + M + b"\nSHA256 (b) = " + S + b"\n", other_kind(2)),
    (M + b"  ...\n", [(b"/...", M)]),
    (M + b"  a/.b/..c\n", [(b"/a/.b/..c", M)]),
    # a line that is malformed
    (M + b" a\n", malformed(1)),
    (M + b"\ta\n", malformed(1)),
    (M + b"\t\ta\n", malformed(1)),
    (b" " + M + b"  a\n", malformed(1)),
    (M + b"\n", malformed(1)),
    (M + b" \n", malformed(1)),
    (M[:-1] + b"  a\n", malformed(1)),
    (M + b"0  a\n", malformed(1)),
    (M[:-1] + b"g  a\n", malformed(1)),
    (M + b"00000000  a\n", malformed(1)),
    (b"\\" + M + b"  a\\b\n", malformed(1)),
    (b"\\" + M + b"  a\\\n", malformed(1)),
    (b"\\ " + M + b"  a\n", malformed(1)),
    (b"  \n", malformed(1)),
    (b" # c\n", malformed(1)),
    (b"a,b\n", malformed(1)),
    (M + b"  a\n\n# c\r\n" + M + b" b\n", malformed(4)),
    # a path that is that of no file below the folder
    (M + b"  /a\n", no_file(1)),
    (M + b"  ../a\n", no_file(1)),
    (M + b"  a/../b\n", no_file(1)),
    (M + b"  a/..\n", no_file(1)),
    (M + b"  a//b\n", no_file(1)),
    (M + b"  a/\n", no_file(1)),
    (M + b"  ./\n", no_file(1)),
    (M + b"  .\n", no_file(1)),
    (M + b"  ..\n", no_file(1)),
    (M + b"  ././a\n", no_file(1)),
    (M + b"  a/./b\n", no_file(1)),
    (M + b"  a\0b\n", no_file(1)),
    (M + b"  \n", no_file(1)),
    (M + b"  a\n" + M + b"  .//b\n", no_file(2)),
    # digests of two kinds
    (M + b"  a\n" + S + b"  b\n", other_kind(2)),
    (S + b"  a\n" + S + b"  b\n\n" + M + b"  b\n", other_kind(4)),
]
# the same of manifests of bags (the first line of each names a file of the bag: another list is not read as a bag's)
BAGS = [
    # what RFC 8493 says
    (M + b" data/a\n", [(b"/a", M)]),
    (S + b"  data/a/b c\n", [(b"/a/b c", S)]),
    (M + b"\t \tdata/a\r\n", [(b"/a", M)]),
    (M.upper() + b"  data/a", [(b"/a", M)]),
    (M + b"  data/a%0Ab%0Dc%25d\n", [(b"/a\nb\rc%d", M)]),
    (M + b"  data/%0a%0d\n", [(b"/\n\r", M)]),
    # what stands for itself
    (M + b"  data/a%41%b%%25%2\n", [(b"/a%41%b%%%2", M)]),
    (M + b"  data/%250A\n", [(b"/%0A", M)]),
    (M + b"  data/a\\nb\n", [(b"/a\\nb", M)]),
    (M + b"  data/a \n", [(b"/a ", M)]),
    (M + b"  data/data/a\n", [(b"/data/a", M)]),
    # what tools write
    (M + b" *data/a\n", [(b"/a", M)]),
    (M + b"  ./data/a\n", [(b"/a", M)]),
    (M + b" *./data/a\n", [(b"/a", M)]),
    # each of a line feed, a carriage return and both ends a line, and counts once
    (M + b"  data/a\r" + M + b"  data/b\r", [(b"/a", M), (b"/b", M)]),
    (M + b"  data/a\r" + M + b"  data/b", [(b"/a", M), (b"/b", M)]),
    (M + b"  data/a\r\n" + M + b"  data/b\r" + M + b"  data/c\n", [(b"/a", M), (b"/b", M), (b"/c", M)]),
    (M + b"  data/a\r\r\n\n\r" + M + b"  data/b\n", [(b"/a", M), (b"/b", M)]),
    (MARK + M + b"  data/a\r" + M + b"  data/b\r", [(b"/a", M), (b"/b", M)]),
    (M + b"  data/a\r# c\r" + M + b"  data/b%0D\r", [(b"/a", M), (b"/b\r", M)]),
    # so a raw one in a path leaves two lines that are none
    (M + b"  data/a\rb\n", malformed(2)),
    (M + b"  data/a\n" + M + b"  data/b\rc\n", malformed(3)),
    (M + b"  data/a\r\n" + M[1:] + b"  data/b\r\n", malformed(2)),
    (M + b"  data/a\r" + M + b"  data/b\r" + M[1:] + b"  data/c\r", malformed(3)),
    # a line that is malformed
    (M + b"  data/a\n" + M[1:] + b"  data/b\n", malformed(2)),
    (M + b"  data/a\n\\" + M + b"  data/b\n", malformed(2)),
    (M + b"  data/a\n" + M + b"data/b\n", malformed(2)),
    (M + b"  data/a\n" + M + b"\n", malformed(2)),
    (M + b"  data/a\n" + M + b"  \n", malformed(2)),
    (M + b"  data/a\n " + M + b"  data/b\n", malformed(2)),
    # a path that is that of no file of the bag
    (M + b"  data/a\n" + M + b"  b\n", no_file(2)),
    (M + b"  data/a\n" + M + b"  data\n", no_file(2)),
    (M + b"  data/a\n" + M + b"  data/\n", no_file(2)),
    (M + b"  data/a\n" + M + b"  data/../b\n", no_file(2)),
    (M + b"  data/a\n" + M + b"  /data/b\n", no_file(2)),
    (M + b"  data/a\n" + M + b"  ../data/b\n", no_file(2)),
    (M + b"  data/a\n" + M + b"  Data/b\n", no_file(2)),
    (M + b"  data/a\n" + M + b" **data/b\n", no_file(2)),
]
# the lines that `md5sum` and `sha256sum` 9.1 of GNU coreutils print for files with odd names, by their paths
MD5SUM = {
    b" lead": b"d77e31acf6ad04699af9ac2e22b611e9   lead\n",
    b"#hash": b"67097fce027950b823e3667af009add2  #hash\n",
    b"%41": b"2721a1e43ecf9da96aa62e2416650ea7  %41\n",
    b"(paren) = x": b"98df5a2ffe5815b1c3f165265232ac5e  (paren) = x\n",
    b"*star": b"2bd91b523813939afea0c15e40ede361  *star\n",
    b"-": b"4abc698804c15d4cbb0aa4c5d6cf4e03  ./-\n",
    b"-n": b"ff7938e8bd4c39b950d49b8c38fcf270  -n\n",
    b"...": b"52482eeb7f00841a80529bfb2509ad90  ...\n",
    b"..a/b..": b"ea1e8ea0aafec12a07a3bd194ec47389  ..a/b..\n",
    b".hidden": b"27e67d82e82a7b4968228f5fba42d716  .hidden\n",
    b"\\": b"\\fe11956fa878be135b486025a6875a39  \\\\\n",
    b"a b": b"253bb3a5b82f9de11bda5bd093afbb41  a b\n",
    b"all\\\n\r": b"\\4610a32402ad2d04ee86fc0690b41c30  all\\\\\\n\\r\n",
    b"back\\slash": b"\\354eb52f5f568a49597d261779d2c1e4  back\\\\slash\n",
    b"carriage\rreturn": b"\\cf5e7fc5584288d82a8d680625a47e6d  carriage\\rreturn\n",
    b"in/a/deep folder/x": b"44d546e6919ff82573e9419656b7f3e4  in/a/deep folder/x\n",
    b"line\nfeed": b"\\bdda90a4555994fdcea839c7c3b7f18b  line\\nfeed\n",
    b"plain.txt": b"1e26183fdc3eed738a026da513ccb919  plain.txt\n",
    b"tab\there": b"bfcacd88772ec5c029aa5d1b99df39d1  tab\there\n",
    b"trail ": b"8798dfb9ef9c8068427877f92d708a70  trail \n",
    b"\xc3\xa4": b"68ace1abc265379e0a66973f7887aa18  \xc3\xa4\n",
    b"\xff\xfe": b"79dd57c3bac975f1d9ae3bf674247b65  \xff\xfe\n",
}
SHA256SUM = {
    b"-": b"55fb6ed052c5bb6f9d90bc70b56ca3b6efc2b14b6202616c531a8b9a2099380d  ./-\n",
    b"all\\\n\r": b"\\9b068b0d8efe1eff79de601fb086773a7c3fb3104053091fcd0fe8952a54fabe  all\\\\\\n\\r\n",
    b"in/a/deep folder/x": b"0e78b58ca2dc58355c7091c47ca4c24db75a50fb85c32673cdf75617af857776  in/a/deep folder/x\n",
    b"plain.txt": b"234444550570258a4fc728dab96db49f7698b9556d778cf49fb3c3a31fa6b7f1  plain.txt\n",
}
LINES = {"md5": MD5SUM, "sha256": SHA256SUM}
DIGEST = re.compile(rb"[0-9a-f]{32,}")
# files with odd names, and what `md5sum` and `sha256sum` 9.1 print of them
ODD = {
    b"/ leading": b"a",
    b"/#hash": b"a",
    b"/%41": b"abc",
    b"/*star": b"abc",
    b"/-": b"",
    b"/--long": b"a",
    b"/back\\slash": b"a",
    b"/carriage\rreturn": b"message digest",
    b"/line\nfeed": b"abc",
    b'/d/a"b,c': b"",
    b"/d/\xc3\xa9.txt": b"abc",
    b"/e\\f/x": b"a",
}
ODD_MD5 = b"""0cc175b9c0f1b6a831c399e269772661   leading
0cc175b9c0f1b6a831c399e269772661  #hash
900150983cd24fb0d6963f7d28e17f72  %41
900150983cd24fb0d6963f7d28e17f72  *star
d41d8cd98f00b204e9800998ecf8427e  ./-
0cc175b9c0f1b6a831c399e269772661  --long
\\0cc175b9c0f1b6a831c399e269772661  back\\\\slash
\\f96b697d7cb7938d525a2f31aaf161d0  carriage\\rreturn
\\900150983cd24fb0d6963f7d28e17f72  line\\nfeed
d41d8cd98f00b204e9800998ecf8427e  d/a"b,c
900150983cd24fb0d6963f7d28e17f72  d/\xc3\xa9.txt
\\0cc175b9c0f1b6a831c399e269772661  e\\\\f/x
"""
ODD_SHA256 = b"""ca978112ca1bbdcafac231b39a23dc4da786eff8147c4e72b9807785afee48bb   leading
ca978112ca1bbdcafac231b39a23dc4da786eff8147c4e72b9807785afee48bb  #hash
ba7816bf8f01cfea414140de5dae2223b00361a396177a9cb410ff61f20015ad  %41
ba7816bf8f01cfea414140de5dae2223b00361a396177a9cb410ff61f20015ad  *star
e3b0c44298fc1c149afbf4c8996fb92427ae41e4649b934ca495991b7852b855  ./-
ca978112ca1bbdcafac231b39a23dc4da786eff8147c4e72b9807785afee48bb  --long
\\ca978112ca1bbdcafac231b39a23dc4da786eff8147c4e72b9807785afee48bb  back\\\\slash
\\f7846f55cf23e14eebeab5b4e1550cad5b509e3348fbc4efa3a1413d393cb650  carriage\\rreturn
\\ba7816bf8f01cfea414140de5dae2223b00361a396177a9cb410ff61f20015ad  line\\nfeed
e3b0c44298fc1c149afbf4c8996fb92427ae41e4649b934ca495991b7852b855  d/a"b,c
ba7816bf8f01cfea414140de5dae2223b00361a396177a9cb410ff61f20015ad  d/\xc3\xa9.txt
\\ca978112ca1bbdcafac231b39a23dc4da786eff8147c4e72b9807785afee48bb  e\\\\f/x
"""


class Read(InLists):
    """All files of a list are missing in an empty folder: the report has their paths and digests."""

    def check(self, top, text, due):
        listed = self.write(b"listed", text)
        status, out, said = verify(top, "--against", listed, "--quiet")
        if isinstance(due, bytes):
            self.assertEqual((status, out, said), (3, b"", b"fault: List\n" + listed + b": " + due + b"\n"), text)
        else:
            rows = [(b"missing", path, b"", digest, b"", b"", b"", b"") for path, digest in sorted(due)]
            self.assertEqual((status, rows_in(out), said), (5 if rows else 0, rows, b""), text)

    def test_lists_of_checksums(self):
        for text, due in CHECKSUMS:
            self.check(self.top, text, due)

    def test_manifests_of_bags(self):
        self.folder(b"/data")
        self.file(b"/bagit.txt", b"BagIt-Version: 1.0\nTag-File-Character-Encoding: UTF-8\n")
        for text, due in BAGS:
            self.check(self.top, text, due)

    def test_lines_of_coreutils(self):
        for lines in LINES.values():
            due = [(b"/" + path, DIGEST.search(line)[0]) for path, line in lines.items()]
            self.check(self.top, b"".join(lines.values()), due)

    def test_tags_of_coreutils(self):
        """What this machine's `md5sum --tag` and `sha256sum --tag` print of files with odd names."""
        for path in MD5SUM:
            self.folder(b"/in/" + os.path.dirname(path))
            self.file(b"/in/" + path, path)
        top = self.top + b"/in"
        for hash in LINES:
            command = f"find . -type f -exec {hash}sum --tag {{}} +"
            text = subprocess.run(command, shell=True, cwd=top, capture_output=True, check=True).stdout
            self.assertEqual(len(text.splitlines()), len(MD5SUM))
            empty = self.work + b"/empty"
            os.makedirs(empty, exist_ok=True)
            self.check(empty, text, [(b"/" + path, hashlib.new(hash, path).hexdigest().encode()) for path in MD5SUM])


class Written(InFolder):
    def list_of(self, hash):
        """Profiles the folder: its list of checksums, and the status."""
        path = self.work + b"/list"
        status, _, _ = profile(self.top, "--hash", hash, "--manifest", path, "--quiet")
        with open(path, "rb") as file:
            return file.read(), status

    def test_lines_of_coreutils(self):
        """Each file has its path as its bytes. A file whose name is no UTF-8 has no line."""
        for path in MD5SUM:
            self.folder(b"/" + os.path.dirname(path))
            self.file(b"/" + path, path)
        for hash, lines in LINES.items():
            digest = lambda path: hashlib.new(hash, path).hexdigest().encode()
            text, status = self.list_of(hash)
            found = set(text.split(b"\n"))
            due = {path: DIGEST.sub(digest(path), line) for path, line in lines.items() if path != b"\xff\xfe"}
            self.assertEqual((status, [path for path, line in due.items() if line.strip(b"\n") not in found]), (5, []), text)
            self.assertEqual(len(found), len(MD5SUM))

    def test_odd_names(self):
        for path, content in ODD.items():
            self.folder(os.path.dirname(path))
            self.file(path, content)
        for hash, due in (("md5", ODD_MD5), ("sha256", ODD_SHA256)):
            self.assertEqual(self.list_of(hash), (due, 0))


if __name__ == "__main__":
    unittest.main()
