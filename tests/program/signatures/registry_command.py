"""The command `registry`: statuses, what standard error says, output files and faults."""
import hashlib
import os
import subprocess
import tempfile
import unittest

from conversions import NO_OUTPUT, NO_SIGNATURE_FILE, PARTLY, convert, run, stored
from lib.program import PROGRAM

# more bytes than a signature file may have
TOO_LONG = 64 * 1024 * 1024 + 1
SMALL = b"""<FFSignatureFile Version="2" DateCreated="2026-01-01"><InternalSignatureCollection><InternalSignature ID="1">
<ByteSequence Reference="BOFoffset"><SubSequence Position="1" SubSeqMinOffset="0" SubSeqMaxOffset="0"><Sequence>616263</Sequence></SubSequence>
</ByteSequence></InternalSignature></InternalSignatureCollection><FileFormatCollection><FileFormat ID="1" PUID="f/1" Name="A">
<InternalSignatureID>1</InternalSignatureID><Extension>abc</Extension></FileFormat></FileFormatCollection></FFSignatureFile>
"""
ROWS = b'"F","f/1","A","","",""\n"E","f/1","abc","","",""\n"S","f/1","BOF","0","0","616263"\n'
DIGEST = hashlib.md5(ROWS).hexdigest()
SAID = (
    "signature file: version 2, of 2026-01-01\ntaken: 1 formats, 1 signatures, 1 extensions, 0 priorities\nleft out: 0\n"
    f"unknown names: 0\nregistry: MD5 {DIGEST}\n"
)
NOTE = f"signature file: version 2, of 2026-01-01; registry: MD5 {DIGEST}\n".encode()


class Command(unittest.TestCase):
    def setUp(self):
        folder = tempfile.TemporaryDirectory()
        self.addCleanup(folder.cleanup)
        self.folder = folder.name
        self.file, self.output = self.path("signatures.xml"), self.path("registry.csv")
        self.write(self.file, SMALL)

    def path(self, name):
        return os.path.join(self.folder, name)

    def write(self, path, text):
        with open(path, "wb") as file:
            file.write(text)

    def files(self):
        """The files beside the signature file, with what is in them."""
        found = {}
        for name in sorted(os.listdir(self.folder)):
            if name != "signatures.xml":
                with open(self.path(name), "rb") as file:
                    found[name] = file.read()
        return found

    def fault(self, status, name, *words, sentence=None, **more):
        """Checks that it ends with this status and fault, and a sentence that begins with the path, and writes nothing."""
        ended, out, said = run(*words, **more)
        lines = said.splitlines()
        self.assertEqual((ended, out, lines[0], len(lines)), (status, b"", f"fault: {name}", 2), said)
        self.assertTrue(lines[1].startswith(f"{sentence or words[0]}: "), said)

    def test_all_is_taken(self):
        self.assertEqual(run(self.file), (0, ROWS, SAID))
        self.assertEqual(run(self.file, "--quiet"), (0, ROWS, SAID))

    def test_same_without_line_ends_of_its_own(self):
        for text in (SMALL.replace(b"\n", b"\r\n"), b"\xef\xbb\xbf" + SMALL, SMALL.replace(b"\n", b"")):
            self.assertEqual(convert(text), (0, ROWS, SAID))

    def test_something_is_left_out(self):
        status, out, said = convert(stored("sample.xml"))
        self.assertEqual(status, PARTLY)
        quiet = convert(stored("sample.xml"), "--quiet")
        self.assertEqual(quiet[:2], (status, out))
        self.assertTrue(said.startswith(quiet[2]))
        self.assertEqual(
            quiet[2],
            "signature file: version 1, of 2026-11-26T00:00:00\ntaken: 12 formats, 8 signatures, 14 extensions, 1 priorities\nleft out: 4\n"
            f"unknown names: 0\nregistry: MD5 {hashlib.md5(out).hexdigest()}\n",
        )

    def test_unknown_names(self):
        text = SMALL.replace(b"<Sequence>", b"<Odd/><Odd/><Sequence>").replace(b"Name=", b"FormatType='x' Name=")
        status, out, said = convert(text)
        self.assertEqual((status, out), (PARTLY, ROWS))
        self.assertEqual(said, SAID.replace("names: 0", "names: 2") + "unknown element: Odd: 2 times\nunknown attribute: FormatType: 1 times\n")

    def test_many_unknown_names(self):
        """64 names are listed."""
        odd = b"".join(b"<a%d/>" % at for at in range(70)) + b"<a69/><a0/>"
        _, _, said = convert(SMALL.replace(b"<Sequence>", odd + b"<Sequence>"))
        lines = [f"unknown element: a{at}: {2 if at == 0 else 1} times\n" for at in range(64)]
        self.assertEqual(said, SAID.replace("names: 0", "names: 64") + "".join(lines) + "further unknown names: 7 times\n")

    def test_output(self):
        self.assertEqual(run(self.file, "--output", self.output), (0, b"", SAID))
        self.assertEqual(self.files(), {"registry.csv": ROWS, "registry.csv.txt": NOTE})

    def test_output_is_replaced_whole_or_not_at_all(self):
        self.write(self.output, b"old")
        self.fault(NO_SIGNATURE_FILE, "Read", self.path("none.xml"), "--output", self.output)
        self.assertEqual(self.files(), {"registry.csv": b"old"})
        self.assertEqual(run(self.file, "--output", self.output)[0], 0)
        self.assertEqual(self.files()["registry.csv"], ROWS)

    def test_output_that_cannot_be_created(self):
        path = self.path("none/registry.csv")
        self.fault(NO_OUTPUT, "Output", self.file, "--output", path, sentence=path)
        self.assertEqual(self.files(), {})

    def test_output_that_cannot_be_written(self):
        with open("/dev/full", "wb") as full:
            done = subprocess.run([PROGRAM, "registry", self.file], stdout=full, stderr=subprocess.PIPE, check=False, timeout=60)
        self.assertEqual((done.returncode, done.stderr.split(b"\n")[0]), (NO_OUTPUT, b"fault: Write"))

    def test_note_that_cannot_be_created(self):
        """The registry is complete, and the sentence says so."""
        os.mkdir(self.output + ".txt")
        ended, out, said = run(self.file, "--output", self.output)
        self.assertEqual((ended, out, said.splitlines()[0]), (NO_OUTPUT, b"", "fault: Output"))
        self.assertTrue(said.splitlines()[1].startswith(f"{self.output}.txt: "), said)
        os.rmdir(self.output + ".txt")
        self.assertEqual(self.files(), {"registry.csv": ROWS})

    def test_note_in_the_place_of_the_signature_file(self):
        """It is refused, and the file stays. The registry is complete."""
        output = self.path("signatures")
        os.rename(self.file, output + ".txt")
        self.assertEqual(run(output + ".txt", "--output", output)[0], NO_OUTPUT)
        self.assertEqual(self.files(), {"signatures": ROWS, "signatures.txt": SMALL})

    def test_file_that_cannot_be_read(self):
        """A file that opens, and whose first read fails."""
        self.fault(NO_SIGNATURE_FILE, "Read", "/proc/self/mem", "--output", self.output)
        self.assertEqual(self.files(), {})

    def test_no_signature_files(self):
        self.fault(NO_SIGNATURE_FILE, "Read", self.path("none.xml"))
        self.fault(NO_SIGNATURE_FILE, "Read", self.folder)
        rows = [
            (b"<a/>", "NotASignatureFile"),
            (SMALL.replace(b'Position="1"', b""), "NotASignatureFile"),
            (SMALL.replace(b'Position="1"', b'Position="-1"'), "NotASignatureFile"),
            (SMALL.replace(b"<Sequence>616263</Sequence>", b""), "NotASignatureFile"),
            (SMALL[:-20], "NotWellFormed at 4"),
        ]
        for text, fault in rows:
            self.write(self.file, text)
            self.fault(NO_SIGNATURE_FILE, fault, self.file, "--output", self.output)
            self.assertEqual(self.files(), {})

    def test_nothing_in_it(self):
        """A signature file without formats becomes a registry without any."""
        said = (
            "signature file: version , of \ntaken: 0 formats, 0 signatures, 0 extensions, 0 priorities\nleft out: 0\nunknown names: 0\n"
            f"registry: MD5 {hashlib.md5().hexdigest()}\n"
        )
        self.assertEqual(convert(b"<FFSignatureFile/>"), (0, b"", said))

    def test_output_in_the_place_of_the_signature_file(self):
        """It is refused, and the file stays."""
        self.fault(NO_OUTPUT, "Output", self.file, "--output", self.file)
        with open(self.file, "rb") as file:
            self.assertEqual((file.read(), self.files()), (SMALL, {}))

    def test_longest_file(self):
        os.truncate(self.file, TOO_LONG)
        self.fault(NO_SIGNATURE_FILE, "TooLong", self.file)
        os.truncate(self.file, TOO_LONG - 1)
        self.fault(NO_SIGNATURE_FILE, "NotWellFormed at 4", self.file)


if __name__ == "__main__":
    unittest.main()
