"""The forms in which a signature file may say things: the texts of sequences, and those outside the grammar; a small file, with
what may be written in several ways; and XML documents that are no signature files. What is expected was written by hand from the
format."""
import unittest
from xml.sax.saxutils import escape

from conversions import NO_SIGNATURE_FILE, PARTLY, convert, left_out, rows_of, unknown
from registry_limits import NO_SUBSEQUENCE, NO_UPPER_OFFSET, NONE_LEFT, REFERENCE, TEXT, byte_sequence, part, signature_file

# texts, and the patterns that they become (registry_limits has a text that ends in a gap, and an empty one)
TEXTS = [
    ("4a4A", ["4A4A"]),
    ("??*61", ["??*61"]),
    ("{3}{2-5}61", ["{3}{2-5}61"]),
    ("{65535-*}61", ["{65535-*}61"]),
    ("[61:7A][!61]", ["[61:7A][!61]"]),
    ("[!61:7A]", ["(" + "|".join(f"{byte:02X}" for byte in range(256) if not 0x61 <= byte <= 0x7A) + ")"]),
    ("[0100:0300]", ["0100", "01[01:FF]", "[02:02][00:FF]", "0300"]),
    ("'a]('", ["615D28"]),
    ("(61|6263)", ["(61|6263)"]),
    ("(61|'|)'[30:39])", ["61", "7C29[30:39]"]),
]
OUTSIDE_THE_GRAMMAR = [
    "6", "6G", "[61:60]", "[!00:FF]", "[6162:61]", "[6162:6161]", "[61", "''", "'a", "'é'", "(61", "()", "(61|)", "(61|(62))", "61)", "{5-2}",
    "{65536}", "{000001}", "{}", "[&01]", "[~01]", "61 62",
]

SMALL = """\ufeff<?xml version='1.0' encoding='UTF-8'?>\r
<FFSignatureFile DateCreated='2026-01-02' Version="7" xmlns='x' Extra='1'><InternalSignatureCollection>\r
<InternalSignature Specificity='Specific' ID=' 18 '><ByteSequence Reference='BOFoffset'>
<SubSequence SubSeqMaxOffset='4' Position='1' SubSeqMinOffset='0'><Sequence> 61&#x36;2<![CDATA[63]]>
</Sequence><DefaultShift>4</DefaultShift><Shift Byte='63'><Deep/></Shift>
<RightFragment Position='1' MinOffset='2' MaxOffset='3'>64</RightFragment>
<LeftFragment Position='1' MinOffset='0'>60</LeftFragment>
<LeftFragment Position='2' MinOffset='1' MaxOffset='1'>5F</LeftFragment></SubSequence></ByteSequence>
<ByteSequence/></InternalSignature></InternalSignatureCollection><!-- two formats --><FileFormatCollection>
<FileFormat ID='1' PUID='f/1' Name='A &lt; B' Version='2' MIMEType='a/b'><InternalSignatureID>18</InternalSignatureID>
<Extension>aaa</Extension><Extension>bbb</Extension><HasPriorityOverFileFormatID>2</HasPriorityOverFileFormatID>
<Note><Inner/></Note><Note/></FileFormat><FileFormat ID='2'/></FileFormatCollection></FFSignatureFile>"""
# what is changed so that its signature is taken, and so that its second format is
UPPER_OFFSET = ("MinOffset='0'>60", "MinOffset='0' MaxOffset='0'>60")
NO_SECOND_SEQUENCE = ("<ByteSequence/>", "")
EMPTY_SEQUENCE = ("<ByteSequence/>", "<ByteSequence Reference='EOFoffset'/>")
SECOND_FORMAT = ("<FileFormat ID='2'/>", "<FileFormat ID='2' PUID='f/2' Name='C'/>")
SMALL_UNKNOWN = {("attribute", "Extra"): 1, ("element", "Note"): 2}
FORMAT, EXTENSIONS = ["F", "f/1", "A < B", "2", "a/b", ""], [["E", "f/1", "aaa", "", "", ""], ["E", "f/1", "bbb", "", "", ""]]

# documents, and why they are no signature files
ROOT = "the outermost element is not FFSignatureFile: is it a signature file?"
NUMBER = "an ID, a Position or an offset is missing or is not a number"
SEQUENCE = "a SubSequence has no Sequence or several"
NO_SIGNATURE_FILES = [
    ("<SignatureFile/>", ROOT),
    ("<a><FFSignatureFile/></a>", ROOT),
    ("<FFSignatureFile><FileFormatCollection><FileFormat/></FileFormatCollection></FFSignatureFile>", NUMBER),
    ("<FFSignatureFile><FileFormatCollection><FileFormat ID='+1'/></FileFormatCollection></FFSignatureFile>", NUMBER),
    ("<FFSignatureFile><FileFormatCollection><FileFormat ID='4294967296'/></FileFormatCollection></FFSignatureFile>", NUMBER),
    (
        "<FFSignatureFile><InternalSignatureCollection><InternalSignature ID='1'><ByteSequence><SubSequence Position='1'/></ByteSequence>"
        "</InternalSignature></InternalSignatureCollection></FFSignatureFile>",
        SEQUENCE,
    ),
    (
        "<FFSignatureFile><InternalSignatureCollection><InternalSignature ID='1'><ByteSequence><SubSequence Position='1'><Sequence>61</Sequence>"
        "<Sequence>62</Sequence></SubSequence></ByteSequence></InternalSignature></InternalSignatureCollection></FFSignatureFile>",
        SEQUENCE,
    ),
]


def small(*changes):
    """Makes a registry of the small file with these changes: the status, the rows, and what was left out."""
    text = SMALL
    for old, new in changes:
        assert text.count(old) == 1, old
        text = text.replace(old, new)
    status, registry, said = convert(text.encode())
    assert said.startswith("signature file: version 7, of 2026-01-02\n"), said
    assert unknown(said) == SMALL_UNKNOWN and "further unknown names" not in said, said
    return status, rows_of(registry), left_out(said)


class Forms(unittest.TestCase):
    def test_texts(self):
        for text, patterns in TEXTS:
            with self.subTest(text):
                status, registry, said = convert(signature_file(byte_sequence(part(escape(text)))))
                self.assertEqual((status, rows_of(registry, "SB")), (0, [["S", "f/1", "BOF", "0", "0", it] for it in patterns]), said)

    def test_texts_outside_the_grammar(self):
        for text in OUTSIDE_THE_GRAMMAR:
            with self.subTest(text):
                said = convert(signature_file(byte_sequence(part(escape(text)))))[2]
                self.assertEqual(left_out(said), [("f/1", "signature", "1", TEXT), ("f/1", "format", "", NONE_LEFT)])

    def test_small_file(self):
        status, rows, lost = small()
        self.assertEqual((status, rows), (PARTLY, [FORMAT, *EXTENSIONS]))
        self.assertEqual(lost[:2], [("format 2", "format", "", "it has no PUID"), ("f/1", "priority over format", "2", "the registry has no format with that ID")])
        self.assertEqual([row[:3] for row in lost[2:]], [("f/1", "signature", "18"), ("f/1", "format", "")])

    def test_small_file_with_a_second_format(self):
        formats = [FORMAT, ["F", "f/2", "C", "", "", ""], *EXTENSIONS, ["P", "f/1", "f/2", "", "", ""]]
        rows = [(UPPER_OFFSET, REFERENCE), (NO_SECOND_SEQUENCE, NO_UPPER_OFFSET)]
        for change, why in rows:
            self.assertEqual(small(SECOND_FORMAT, change), (PARTLY, formats, [("f/1", "signature", "18", why), ("f/1", "format", "", NONE_LEFT)]))
        lost = [("f/1", "signature", "18", NO_SUBSEQUENCE), ("f/1", "format", "", NONE_LEFT)]
        self.assertEqual(small(SECOND_FORMAT, UPPER_OFFSET, EMPTY_SEQUENCE), (PARTLY, formats, lost))
        signature = ["S", "f/1", "BOF", "0", "4", "5F{1}60616263{2-3}64"]
        self.assertEqual(small(SECOND_FORMAT, UPPER_OFFSET, NO_SECOND_SEQUENCE), (PARTLY, [*formats, signature], []))

    def test_no_signature_files(self):
        for text, why in NO_SIGNATURE_FILES:
            with self.subTest(text):
                status, registry, said = convert(text.encode())
                fault, sentence = said.splitlines()
                self.assertEqual((status, registry, fault), (NO_SIGNATURE_FILE, b"", "fault: NotASignatureFile"))
                self.assertTrue(sentence.endswith(f": {why}"), sentence)


if __name__ == "__main__":
    unittest.main()
