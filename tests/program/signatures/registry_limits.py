"""Signature files at each limit of what a registry takes, and one past it; and each reason for which something is left out."""
import unittest

from conversions import PARTLY, convert, left_out, rows_of
from identification import identify

LIMIT = 65_536
# why a registry cannot hold a signature
NO_SEQUENCE = "it has no byte sequence"
REFERENCE = "its offsets count neither from the beginning nor from the end"
NO_SUBSEQUENCE = "a byte sequence has no subsequence"
SEVERAL_FROM_END = "a byte sequence from the end has several subsequences"
SUBSEQUENCE_POSITIONS = "its subsequences are not in the order of their positions"
FURTHER_UPPER_OFFSET = "a subsequence behind the first has an upper offset"
NO_UPPER_OFFSET = "an upper offset is missing"
OFFSET_ORDER = "an upper offset is less than the lower one"
LARGE_OFFSET = "an offset is over 65,535"
FRAGMENT_POSITIONS = "the positions of its fragments leave one out"
LARGE_POSITION = "a fragment has a position over 64"
TEXT = "a text that a registry has no pattern for, as a bit mask"
LONG_TEXT = "a text of more than 65,536 bytes"
LONG_RANGE = "a range of more than 16 bytes"
MANY_ALTERNATIVES = "more than 64 alternatives"
LONG_PATTERN = "a pattern of more than 4,096 bytes"
LONG_PATTERNS = "patterns of more than 16,384 bytes in all"
GAP_AT_END = "a gap at the end of a pattern"
# why the rest is not in the registry
NONE_LEFT = "all its signatures, so that only its extensions find it"
BAD_PUID = "its PUID is not of 1 to 32 ASCII letters, digits, / and -"
BAD_NAME = "it has no name, or one of more than 255 bytes"
LONG_NOTE = "its version or media type has more than 255 bytes"
BAD_EXTENSION = "it is empty, has more than 64 bytes, or has a . or a /"
UNNAMED = ("", "signature", "1", "no format names it")


def signature_file(sequences, formats="<FileFormat ID='1' PUID='f/1' Name='N'><InternalSignatureID>1</InternalSignatureID></FileFormat>"):
    """A file of one signature of these byte sequences, and of formats that have it."""
    return (
        f"<FFSignatureFile><InternalSignatureCollection><InternalSignature ID='1'>{sequences}</InternalSignature>"
        f"</InternalSignatureCollection><FileFormatCollection>{formats}</FileFormatCollection></FFSignatureFile>"
    ).encode()


def from_end(*parts):
    return byte_sequence(*parts, reference="EOFoffset")


def byte_sequence(*parts, reference="BOFoffset"):
    return f"<ByteSequence Reference='{reference}'>{''.join(parts)}</ByteSequence>"


def part(text, *fragments, position=1, least=0, most=0):
    upper = "" if most is None else f" SubSeqMaxOffset='{most}'"
    return f"<SubSequence Position='{position}' SubSeqMinOffset='{least}'{upper}><Sequence>{text}</Sequence>{''.join(fragments)}</SubSequence>"


def fragment(side, text, position=1, least=0, most=0):
    upper = "" if most is None else f" MaxOffset='{most}'"
    return f"<{side}Fragment Position='{position}' MinOffset='{least}'{upper}>{text}</{side}Fragment>"


def chain(side, count):
    return [fragment(side, "61", at) for at in range(1, count + 1)]


def ways(side, count):
    return [fragment(side, f"{at:02X}") for at in range(count)]


def bytes_of(count, byte="61"):
    return byte * count


def long_ways(count):
    """Five alternatives of `count` bytes and any byte, which are patterns of their own."""
    return "(" + "|".join([bytes_of(count) + "??"] * 5) + ")"


def priority(number):
    return f"<HasPriorityOverFileFormatID>{number}</HasPriorityOverFileFormatID>"


def named(number):
    return f"<InternalSignatureID>{number}</InternalSignatureID>"


SECOND = "<FileFormat ID='2' PUID='f/2' Name='N'/>"


# byte sequences, and a file that has them
TAKEN = [
    (byte_sequence(part("61", *chain("Right", 64))), b"a" * 65),
    (byte_sequence(part("61", *chain("Left", 64))), b"a" * 65),
    (byte_sequence(part("61", *ways("Right", 64))), b"a\x3f"),
    (byte_sequence(part("61", *ways("Left", 8), *ways("Right", 8))), b"\7a\7"),
    (byte_sequence(part("61", *ways("Left", 8))) + from_end(part("62", *ways("Right", 8))), b"\7ab\7"),
    (byte_sequence(part(f"[{bytes_of(16, '00')}:{bytes_of(16, 'FF')}]")), bytes(16)),
    (byte_sequence(part("61", least=65_535, most=65_535)), bytes(65_535) + b"a"),
    (byte_sequence(part("61", fragment("Right", "62", least=60_000, most=65_535))), b"a" + bytes(65_534) + b"b"),
    (byte_sequence(part("61"), part("62", position=2, least=65_534, most=None)), b"a" + bytes(65_534) + b"b"),
    (byte_sequence(part("61"), part("62", position=2, most=0)), b"a..b"),
    (byte_sequence(part(bytes_of(2_048))), b"a" * 2_048),
    (byte_sequence(part("{65535}61")), bytes(65_535) + b"a"),
    (byte_sequence(part(bytes_of(2_047) + "(??|??|??|??)")), b"a" * 2_047 + b"."),
    (byte_sequence(part(long_ways(1_637))), b"a" * 1_637 + b"."),
    (byte_sequence(part("61", *[fragment("Right", bytes_of(1_637))] * 5)), b"a" * 1_638),
    (byte_sequence(part(bytes_of(1_024)), part(bytes_of(1_023), position=2)), b"a" * 2_047),
    (byte_sequence(part("61")).replace(" SubSeqMinOffset='0'", ""), b"a"),
    (byte_sequence(part("61", fragment("Right", "62").replace(" MinOffset='0'", ""))), b"ab"),
]
# byte sequences that no registry holds, and why
NOT_TAKEN = [
    (byte_sequence(part("61", *chain("Right", 65))), LARGE_POSITION),
    (byte_sequence(part("61", *ways("Right", 65))), MANY_ALTERNATIVES),
    (byte_sequence(part("61", *ways("Left", 8), *ways("Right", 9))), MANY_ALTERNATIVES),
    (byte_sequence(part("61", *ways("Left", 8))) + from_end(part("62", *ways("Right", 9))), MANY_ALTERNATIVES),
    (byte_sequence(part(f"[{bytes_of(17, '00')}:{bytes_of(17, 'FF')}]")), LONG_RANGE),
    (byte_sequence(part("61", least=65_536, most=65_536)), LARGE_OFFSET),
    (byte_sequence(part("61", least=0, most=65_536)), LARGE_OFFSET),
    (byte_sequence(part("61", fragment("Right", "62", most=65_536))), LARGE_OFFSET),
    (byte_sequence(part("61"), part("62", position=2, least=65_536, most=None)), LARGE_OFFSET),
    (byte_sequence(part("61", least=2, most=1)), OFFSET_ORDER),
    (byte_sequence(part("61", fragment("Left", "62", least=2, most=1))), OFFSET_ORDER),
    (byte_sequence(part("61", most=None)), NO_UPPER_OFFSET),
    (byte_sequence(part("61", fragment("Left", "62", most=None))), NO_UPPER_OFFSET),
    (byte_sequence(part("61"), part("62", position=2, most=1)), FURTHER_UPPER_OFFSET),
    (byte_sequence(part("61"), part("62", position=3)), SUBSEQUENCE_POSITIONS),
    (byte_sequence(part("61", position=2), part("62", position=1)), SUBSEQUENCE_POSITIONS),
    (byte_sequence(part("61", *ways("Right", 1), fragment("Right", "62", 3))), FRAGMENT_POSITIONS),
    (byte_sequence(part("61", fragment("Right", "62", 0))), FRAGMENT_POSITIONS),
    (from_end(part("61"), part("62", position=2)), SEVERAL_FROM_END),
    (byte_sequence(part("61"), reference="Variable"), REFERENCE),
    (byte_sequence(part("61")).replace(" Reference='BOFoffset'", ""), REFERENCE),
    (byte_sequence(), NO_SUBSEQUENCE),
    ("", NO_SEQUENCE),
    (byte_sequence(part("61[&amp;01]")), TEXT),
    (byte_sequence(part("~61")), TEXT),
    (byte_sequence(part("6")), TEXT),
    (byte_sequence(part("{65536}61")), TEXT),
    (byte_sequence(part("~" * 65_536)), TEXT),
    (byte_sequence(part("~" * 65_537)), LONG_TEXT),
    (byte_sequence(part("61", fragment("Left", bytes_of(32_768)))), LONG_PATTERN),
    (byte_sequence(part("61", fragment("Left", bytes_of(32_768) + "*"))), LONG_TEXT),
    (byte_sequence(part(bytes_of(2_049))), LONG_PATTERN),
    (byte_sequence(part("61*" + bytes_of(1_636) + "(??|??|??|??|??)")), LONG_PATTERNS),
    (byte_sequence(part(long_ways(1_638))), LONG_PATTERNS),
    (byte_sequence(part("61", *[fragment("Right", bytes_of(1_639))] * 5)), LONG_PATTERNS),
    (byte_sequence(part(bytes_of(1_024)), part(bytes_of(1_024), position=2)), LONG_PATTERN),
    (byte_sequence(part("61{4}")), GAP_AT_END),
    (byte_sequence(part("61*")), GAP_AT_END),
    (byte_sequence(part("")), GAP_AT_END),
    (byte_sequence(part("61", fragment("Right", "(62|63{2})"))), GAP_AT_END),
    # half of a signature would hit too much
    (byte_sequence(part("61")) + byte_sequence(part("62"), reference="Variable"), REFERENCE),
]


# formats, with what the registry has of them and what is left out
NAMED = "<FileFormat ID='1' PUID='f/1' Name='N'>{}</FileFormat>"
FORMATS = [
    ("<FileFormat ID='1' Name='N'/>", "", [("format 1", "format", "", "it has no PUID")]),
    ("<FileFormat ID='1' PUID='' Name='N'/>", "", [("", "format", "", BAD_PUID)]),
    (f"<FileFormat ID='1' PUID='{'f' * 32}' Name='N'/>", "F", []),
    (f"<FileFormat ID='1' PUID='{'f' * 33}' Name='N'/>", "", [("f" * 33, "format", "", BAD_PUID)]),
    (NAMED.format("") * 2, "F", [("f/1", "format", "", "an earlier format has its PUID")]),
    ("<FileFormat ID='1' PUID='f/1'/>", "", [("f/1", "format", "", BAD_NAME)]),
    (f"<FileFormat ID='1' PUID='f/1' Name='{'n' * 255}' Version='{'v' * 255}' MIMEType='{'m' * 255}'/>", "F", []),
    (f"<FileFormat ID='1' PUID='f/1' Name='{'n' * 256}'/>", "", [("f/1", "format", "", BAD_NAME)]),
    (f"<FileFormat ID='1' PUID='f/1' Name='{'é' * 128}'/>", "", [("f/1", "format", "", BAD_NAME)]),
    (f"<FileFormat ID='1' PUID='f/1' Name='N' Version='{'v' * 256}'/>", "", [("f/1", "format", "", LONG_NOTE)]),
    (f"<FileFormat ID='1' PUID='f/1' Name='N' MIMEType='{'m' * 256}'/>", "", [("f/1", "format", "", LONG_NOTE)]),
    (NAMED.format("<Extension/>"), "F", [("f/1", "extension", "", BAD_EXTENSION)]),
    (NAMED.format("<Extension>a.b</Extension><Extension>c</Extension>"), "FE", [("f/1", "extension", "a.b", BAD_EXTENSION)]),
    (NAMED.format(f"<Extension>{'e' * 64}</Extension>"), "FE", []),
    (NAMED.format(f"<Extension>{'e' * 65}</Extension>"), "F", [("f/1", "extension", "e" * 65, BAD_EXTENSION)]),
    (NAMED.format(priority(1)), "F", [("f/1", "priority over format", "1", "that is the format itself")]),
    (NAMED.format(priority(9)), "F", [("f/1", "priority over format", "9", "the registry has no format with that ID")]),
    (NAMED.format(priority(2)) + SECOND, "FFP", []),
    (NAMED.format(priority(2)) + SECOND + SECOND.replace("f/2", "f/3"), "FFF", [("f/1", "priority over format", "2", "several formats have that ID")]),
    (
        NAMED.format(priority(2)) + "<FileFormat ID='2' Name='N'/>",
        "F",
        [("format 2", "format", "", "it has no PUID"), ("f/1", "priority over format", "2", "the registry has no format with that ID")],
    ),
    (NAMED.format(named(2)), "F", [("f/1", "signature", "2", "the file has no signature with that ID"), ("f/1", "format", "", NONE_LEFT)]),
    (NAMED.format(named(1) + named(2)), "FS", [("f/1", "signature", "2", "the file has no signature with that ID")]),
]


class Limits(unittest.TestCase):
    def test_taken(self):
        for sequences, content in TAKEN:
            with self.subTest(sequences[:200]):
                status, registry, said = convert(signature_file(sequences))
                self.assertEqual((status, left_out(said)), (0, []), said)
                ((_, _, found),) = identify(registry, [(None, "a", content)], LIMIT)
                self.assertEqual(found, ["f/1"])

    def test_not_taken(self):
        for sequences, why in NOT_TAKEN:
            with self.subTest(sequences[:200]):
                status, registry, said = convert(signature_file(sequences))
                self.assertEqual((status, rows_of(registry)), (PARTLY, [["F", "f/1", "N", "", "", ""]]))
                self.assertEqual(left_out(said), [("f/1", "signature", "1", why), ("f/1", "format", "", NONE_LEFT)])

    def test_formats(self):
        for formats, kinds, lost in FORMATS:
            with self.subTest(formats[:200]):
                _, registry, said = convert(signature_file(byte_sequence(part("61")), formats))
                self.assertEqual("".join(row[0] for row in rows_of(registry)), kinds)
                self.assertEqual([row for row in left_out(said) if row != UNNAMED], lost)

    def test_signatures_of_one_id(self):
        text = signature_file("</InternalSignature><InternalSignature ID='1'>" + byte_sequence(part("61")))
        lost = [("f/1", "signature", "1", "several signatures have that ID"), ("f/1", "format", "", NONE_LEFT)]
        self.assertEqual(left_out(convert(text)[2]), lost)

    def test_signature_that_no_format_names(self):
        self.assertEqual(left_out(convert(signature_file("", NAMED.format("")))[2]), [UNNAMED])

    def full(self, formats, kind, most, lost):
        """Checks that a registry has no more rows of a kind than it may, and that the one beyond is left out."""
        status, registry, said = convert(signature_file(byte_sequence(part("61")), formats))
        self.assertEqual((status, len(rows_of(registry, kind))), (PARTLY, most))
        self.assertEqual([row for row in left_out(said) if row != UNNAMED], [(*lost, "the registry is full")])

    def test_full(self):
        many = "".join(f"<FileFormat ID='{at}' PUID='f/{at}' Name='N'/>" for at in range(1, 4_098))
        self.full(many, "F", 4_096, ("f/4097", "format", ""))
        self.full(NAMED.format("<Extension>a</Extension>" * 16_384 + "<Extension>b</Extension>"), "E", 16_384, ("f/1", "extension", "b"))
        self.full(NAMED.format(priority(2) * 16_385) + SECOND, "P", 16_384, ("f/1", "priority over format", "2"))
        self.full(NAMED.format(named(1) * 16_385), "S", 16_384, ("f/1", "signature", "1"))


if __name__ == "__main__":
    unittest.main()
