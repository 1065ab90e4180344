"""Signature files that are large: one of the size and the proportions of PRONOM's, and ones that are made to cost much.

`large_signatures.py NAME BYTES` writes one to standard output; NAME is `usual`, whose size is its own, or one of HOSTILE."""

import subprocess
import sys
from random import Random

FORMATS, SIGNATURES = 2_500, 2_200
# of the hostile files, in a quick test and in a full one
BYTES = 1024 * 1024
FULL = 16 * BYTES
LONG_NAME = b"n" * 65_536
# the most bytes of a text that is read
LONG_TEXT = 65_536


def digits(some):
    return some.hex().upper()


def chance(random, percent):
    return random.randrange(100) < percent


def run_of_bytes(random, least, most):
    """The bytes of a sequence: letters, as formats have them, zeros, and others."""
    kinds = [range(65, 91), range(97, 123), range(48, 58), [0], range(256)]
    return bytes(random.choice(random.choice(kinds)) for _ in range(random.randint(least, most)))


def sequence(random):
    """The text of a sequence: bytes, in which there may be a range or an excluded byte."""
    whole = digits(run_of_bytes(random, 4, 36))
    if chance(random, 6):
        low = random.randrange(48, 56)
        whole += f"[{low:02X}:{low + random.randrange(1, 8):02X}]"
    elif chance(random, 3):
        whole += f"[!{random.randrange(256):02X}]"
    elif chance(random, 2):
        low = random.randrange(200)
        whole += f"[!{low:02X}:{low + random.randrange(1, 5):02X}]"
    elif chance(random, 1):
        whole += f"[{digits(bytes([1, random.randrange(128)]))}:{digits(bytes([random.randrange(2, 9), random.randrange(128)]))}]"
    return whole


def tables(random, text):
    """The search tables of a sequence, a row for each of its bytes."""
    pairs = sorted({text[at : at + 2] for at in range(0, len(text) - 1, 2) if text[at : at + 2].isalnum()})
    rows = [f'          <Shift Byte="{pair}">{random.randrange(1, 21)}</Shift>\n' for pair in pairs]
    return f"          <DefaultShift>{len(pairs) + 1}</DefaultShift>\n" + "".join(rows)


def fragments(random, side):
    """Fragments at one position or two, at some of which there are alternatives."""
    rows = []
    for position in range(1, 3 if chance(random, 20) else 2):
        for _ in range(random.randint(2, 5) if chance(random, 25) else 1):
            least = random.choice([0, 0, 1, 2, 4, 8, 16, random.randrange(300)])
            most = least + random.choice([0, 0, 0, 0, 2, 60, 1_000])
            text = digits(run_of_bytes(random, 1, 8))
            rows.append(f'          <{side} MaxOffset="{most}" MinOffset="{least}" Position="{position}">{text}</{side}>\n')
    return "".join(rows)


def subsequence(random, position, from_end):
    """A subsequence. Most first ones begin at one offset, many of them at 0."""
    least = random.choice([0, 0, 0, 0, 0, 4, 8, random.randrange(600)])
    most = least + (random.choice([2, 64, 1_024, 4_096, 65_535 - least]) if chance(random, 25 if not from_end else 60) else 0)
    upper = f' SubSeqMaxOffset="{most}"' if position == 1 else ""
    text = sequence(random)
    parts = [f"          <Sequence>{text}</Sequence>\n", tables(random, text)]
    parts += [fragments(random, side) for side, percent in (("LeftFragment", 15), ("RightFragment", 25)) if chance(random, percent)]
    return f'        <SubSequence Position="{position}"{upper} SubSeqMinOffset="{least}">\n{"".join(parts)}        </SubSequence>\n'


def byte_sequence(random, reference):
    count = random.choice([2, 2, 3, 4]) if reference == "BOFoffset" and chance(random, 20) else 1
    parts = "".join(subsequence(random, position, reference == "EOFoffset") for position in range(1, count + 1))
    return f'      <ByteSequence Reference="{reference}">\n{parts}      </ByteSequence>\n'


def signature(random, number):
    """A signature: nearly all have a byte sequence from the beginning, some one from the end, a few one from neither."""
    references = ["Variable"] if chance(random, 4) else ["EOFoffset"] if chance(random, 3) else ["BOFoffset"]
    if references == ["BOFoffset"]:
        references += ["EOFoffset"] * chance(random, 14) + ["BOFoffset"] * chance(random, 3) + ["Variable"] * chance(random, 2)
    inner = "".join(byte_sequence(random, reference) for reference in references)
    return f'    <InternalSignature ID="{number}" Specificity="Specific">\n{inner}    </InternalSignature>\n'


def file_format(random, number):
    """A format: most have a signature, nearly all an extension, and a third have priority over others."""
    name = "".join(random.choices("ABCDEFGHIJKLMNOPQRSTUVWXYZ abcdefghijklmnopqrstuvwxyz", k=random.randint(8, 60))).strip() or "N"
    mime = f' MIMEType="application/x-{number}"' if chance(random, 55) else ""
    version = f' Version="{random.randrange(10)}.{random.randrange(10)}"' if chance(random, 60) else ""
    named = [number] if number <= SIGNATURES else random.sample(range(1, SIGNATURES + 1), random.randrange(2))
    below = [number % FORMATS + 1 + at for at in range(random.choice([1, 1, 2, 6]))] if chance(random, 33) and number < FORMATS - 10 else []
    parts = [f"      <InternalSignatureID>{it}</InternalSignatureID>\n" for it in named]
    parts += [f"      <Extension>e{(number + at) % 1_500}</Extension>\n" for at in range(random.choice([0, 1, 1, 1, 1, 2, 3]))]
    parts += [f"      <HasPriorityOverFileFormatID>{1_000 + it}</HasPriorityOverFileFormatID>\n" for it in below]
    return f'    <FileFormat ID="{1_000 + number}"{mime} Name="{name}" PUID="fmt/{number}"{version}>\n{"".join(parts)}    </FileFormat>\n'


def usual():
    """2,500 formats and 2,200 signatures, about 4 MB."""
    random = Random(1)
    signatures = "".join(signature(random, number) for number in range(1, SIGNATURES + 1))
    formats = "".join(file_format(random, number) for number in range(1, FORMATS + 1))
    return (
        '<?xml version="1.0" encoding="UTF-8"?>\n'
        '<FFSignatureFile DateCreated="2026-01-01T00:00:00" Version="120" xmlns="http://www.nationalarchives.gov.uk/pronom/SignatureFile">\n'
        f"  <InternalSignatureCollection>\n{signatures}  </InternalSignatureCollection>\n"
        f"  <FileFormatCollection>\n{formats}  </FileFormatCollection>\n</FFSignatureFile>\n"
    ).encode("ascii")


ROOT, ROOT_END = b"<FFSignatureFile>", b"</FFSignatureFile>"


def filled(front, part, back, size=None):
    """A text of about BYTES bytes, or of at most `size`, with as many of the parts as fit."""
    return front + part * (((size or BYTES) - len(front) - len(back)) // len(part)) + back


def numbered(front, part, back):
    """The same with a number in each part, from 1 on."""
    longest = len(part % 9_999_999)
    return front + b"".join(part % at for at in range(1, (BYTES - len(front) - len(back)) // longest + 1)) + back


def around(part, front, back, more=b""):
    """The arguments of `filled` and `numbered`."""
    return front, part, more + back


def fragments_of(part):
    front, back = around_sequence()
    return filled(front + b"<SubSequence Position='1' SubSeqMaxOffset='0'><Sequence>61</Sequence>", part, b"</SubSequence>" + back)


def nested(name):
    """Elements of this name inside one another, as deep as a document may have them."""
    return (b"<%s>" % name) * 15 + (b"</%s>" % name) * 15


def in_formats(part, signature=b""):
    """A file of one signature, and of formats or what is in one."""
    return (
        ROOT + b"<InternalSignatureCollection><InternalSignature ID='1'>" + signature + b"</InternalSignature></InternalSignatureCollection>"
        b"<FileFormatCollection>" + part, b"</FileFormatCollection>" + ROOT_END
    )


def in_format(part, signature=b""):
    front, back = in_formats(b"<FileFormat ID='1' PUID='f/1' Name='N'>", signature)
    return filled(front, part, b"</FileFormat>" + back)


def in_signatures(inner):
    """The bytes around what is in a collection of signatures, or in one, with a format that has it."""
    front = b"<FileFormatCollection><FileFormat ID='1' PUID='f/1' Name='N'><InternalSignatureID>1</InternalSignatureID></FileFormat>"
    return ROOT + front + b"</FileFormatCollection><InternalSignatureCollection>" + inner, b"</InternalSignatureCollection>" + ROOT_END


def around_sequence():
    front, back = in_signatures(b"<InternalSignature ID='1'><ByteSequence Reference='BOFoffset'>")
    return front, b"</ByteSequence></InternalSignature>" + back


def text(front, part, back):
    """A file whose signature has a sequence of this text."""
    before, behind = around_sequence()
    return filled(before + b"<SubSequence Position='1' SubSeqMaxOffset='0'><Sequence>" + front, part, back + b"</Sequence></SubSequence>" + behind)


def long_texts(front, part, back):
    """A file of signatures, each with a sequence of a text that is as long as one may be."""
    whole = filled(front, part, back, LONG_TEXT)
    before, behind = in_signatures(b"")
    sequence = b"<ByteSequence Reference='BOFoffset'>" + LONG_SUBSEQUENCE % (1, whole) + b"</ByteSequence>"
    return numbered(before, b"<InternalSignature ID='%d'>" + sequence + b"</InternalSignature>", behind)


def long_fragments(part):
    """A file of one sequence with fragments of such texts."""
    return fragments_of(b"<LeftFragment Position='1' MaxOffset='0'>" + filled(b"", part, b"", LONG_TEXT) + b"</LeftFragment>")


def wide_signatures(front, part, count, back=b""):
    """Signatures of `count` patterns of nearly 4,096 bytes each, which a format names."""
    whole = front + b"(" + b"|".join([part] * count) + b")" + back
    inner = b"<ByteSequence Reference='BOFoffset'>" + LONG_SUBSEQUENCE % (1, whole) + b"</ByteSequence>"
    many = BYTES // (len(inner) + 100)
    signatures = b"".join(b"<InternalSignature ID='%d'>%s</InternalSignature>" % (at, inner) for at in range(many))
    named = b"".join(b"<InternalSignatureID>%d</InternalSignatureID>" % at for at in range(many))
    front, back = in_formats(b"<FileFormat ID='1' PUID='f/1' Name='N'>" + named + b"</FileFormat>")
    return front.replace(b"<InternalSignature ID='1'></InternalSignature>", signatures) + back


def declared_entities():
    """Each entity stands for ten of the one before it."""
    entities = b"".join(b'<!ENTITY a%d "%s">' % (at, b"&a%d;" % (at - 1) * 10) for at in range(1, 99))
    return b"<!DOCTYPE a [" + entities + b"]><a>&a98;</a>"


LONG_SUBSEQUENCE = b"<SubSequence Position='%d' SubSeqMaxOffset='0'><Sequence>%b</Sequence></SubSequence>"
SUBSEQUENCE = b"<SubSequence Position='%d' SubSeqMaxOffset='0'><Sequence>61</Sequence></SubSequence>"
FRAGMENT = b"<LeftFragment Position='%s' MaxOffset='0'>61</LeftFragment>"
# five bytes, none of them 00 or 01: a text of 40 bytes, and 3,815 in a pattern
EXCLUDED = b"[!00:01]" * 5
# the first line where a signature file has no version
NOTHING = "signature file: version , of "
# each with the first line that `registry` prints
HOSTILE = {
    "open tags": (lambda: b"<" * BYTES, "fault: NotWellFormed at 1"),
    "a million attributes": (lambda: numbered(b"<FFSignatureFile", b" a%d=''", b"/>"), "fault: TooManyAttributes at 1"),
    "unknown entities": (lambda: filled(ROOT, b"&a;", ROOT_END), "fault: NotWellFormed at 1"),
    "declared entities": (declared_entities, "fault: Doctype at 1"),
    "entities in a value": (lambda: filled(b"<FFSignatureFile Extra='", b"&amp;", b"'/>"), NOTHING),
    "entities in a text": (lambda: filled(ROOT, b"&#65;", ROOT_END), NOTHING),
    "long names": (lambda: filled(ROOT, b"<%s/>" % LONG_NAME, ROOT_END), NOTHING),
    "long names of attributes": (lambda: filled(ROOT, b"<a%s/>" % b"".join(b" %s%d=''" % (LONG_NAME[:16_384], at) for at in range(60)), ROOT_END), NOTHING),
    "depth": (lambda: b"<a>" * (BYTES // 3), "fault: TooDeep at 1"),
    "depth at its limit": (lambda: filled(ROOT, nested(b"a"), ROOT_END), NOTHING),
    "empty elements": (lambda: filled(ROOT, b"<a/>", ROOT_END), NOTHING),
    "different names": (lambda: numbered(ROOT, b"<a%d/>", ROOT_END), NOTHING),
    "different attributes": (lambda: numbered(ROOT + b"<FileFormatCollection>", b"<FileFormat ID='1' a%d=''/>", b"</FileFormatCollection>" + ROOT_END), NOTHING),
    "an open comment": (lambda: b"<!--" + b"- " * (BYTES // 2), "fault: NotWellFormed at 1"),
    "an open section": (lambda: ROOT + b"<![CDATA[" + b"]" * BYTES, "fault: NotWellFormed at 1"),
    "comments": (lambda: filled(ROOT, b"<!---->", ROOT_END), NOTHING),
    "line ends": (lambda: filled(ROOT, b"\r\n", ROOT_END), NOTHING),
    "formats": (lambda: numbered(*around(b"<FileFormat ID='%d' PUID='f/1' Name='N'/>", *in_formats(b""))), NOTHING),
    "extensions": (lambda: in_format(b"<Extension>a</Extension>"), NOTHING),
    "bad extensions": (lambda: in_format(b"<Extension>.</Extension>"), NOTHING),
    "priorities": (lambda: in_format(b"<HasPriorityOverFileFormatID>1</HasPriorityOverFileFormatID>"), NOTHING),
    "one signature named often": (lambda: in_format(b"<InternalSignatureID>1</InternalSignatureID>"), NOTHING),
    "signatures": (lambda: numbered(*around(b"<InternalSignature ID='%d'/>", *in_signatures(b""))), NOTHING),
    "signatures of four patterns": (lambda: wide_signatures(EXCLUDED, b"??", 4), "fault: LongRegistry"),
    "wide signatures": (lambda: wide_signatures(EXCLUDED, b"??", 64), NOTHING),
    "wide signatures with a gap at the end": (lambda: wide_signatures(EXCLUDED, b"??", 4, b"*"), NOTHING),
    "signatures of long alternatives": (lambda: wide_signatures(b"", EXCLUDED, 64), NOTHING),
    "signatures of four long alternatives": (lambda: wide_signatures(b"", EXCLUDED, 4), "fault: LongRegistry"),
    "signatures of five long alternatives": (lambda: wide_signatures(b"", EXCLUDED, 5), NOTHING),
    "signatures of a long byte sequence": (lambda: wide_signatures(b"61" * 2_000, b"??", 64), NOTHING),
    "byte sequences": (lambda: filled(*around(b"<ByteSequence/>", *in_signatures(b"<InternalSignature ID='1'>"), b"</InternalSignature>")), NOTHING),
    "subsequences": (lambda: numbered(*around(SUBSEQUENCE, *around_sequence())), NOTHING),
    "subsequences of four patterns": (lambda: numbered(*around(LONG_SUBSEQUENCE.replace(b"%b", EXCLUDED + b"(??|??|??|??)"), *around_sequence())), NOTHING),
    "fragments of one position": (lambda: fragments_of(FRAGMENT % b"1"), NOTHING),
    "fragments of many positions": (lambda: fragments_of(b"".join(FRAGMENT % b"%d" % at for at in range(1, 65))), NOTHING),
    "a long sequence": (lambda: text(b"", b"61", b""), NOTHING),
    "a long quoted sequence": (lambda: text(b"'", b"a", b"'"), NOTHING),
    "a long range": (lambda: text(b"[", b"61", b":61]"), NOTHING),
    "ranges": (lambda: text(b"", b"[0000:FFFF]", b""), NOTHING),
    "alternatives": (lambda: text(b"(61", b"|61", b")"), NOTHING),
    "alternatives with gaps": (lambda: text(b"(61", b"|61*62", b")"), NOTHING),
    "open parentheses": (lambda: text(b"", b"(", b""), NOTHING),
    "open quotes": (lambda: text(b"", b"(61|'", b""), NOTHING),
    "open braces": (lambda: text(b"{", b"1", b""), NOTHING),
    "gaps": (lambda: text(b"", b"*", b""), NOTHING),
    "long texts of bytes": (lambda: long_texts(b"", b"61", b""), NOTHING),
    "long texts of gaps": (lambda: long_texts(b"", b"*", b""), NOTHING),
    "long texts of alternatives": (lambda: long_texts(b"(61", b"|61", b")"), NOTHING),
    "long texts of alternatives with gaps": (lambda: long_texts(b"(61", b"|61*62", b")"), NOTHING),
    "long texts of gaps in an alternative": (lambda: long_texts(b"(61|", b"*", b")"), NOTHING),
    "long texts of excluded ranges": (lambda: long_texts(b"", b"[!00:01]", b""), NOTHING),
    "long texts of ranges": (lambda: long_texts(b"", b"[0000:FFFF]", b""), NOTHING),
    "long texts of fragments": (lambda: long_fragments(b"*"), NOTHING),
}


def write(name, path, size=FULL):
    """Writes one to a file, in a process of its own, so that its memory is not counted as another's."""
    with open(path, "wb") as file:
        subprocess.run([sys.executable, "-S", "-B", "-m", "lib.large_signatures", name, str(size)], stdout=file, check=True)


if __name__ == "__main__":
    BYTES = int(sys.argv[2])
    sys.stdout.buffer.write(usual() if sys.argv[1] == "usual" else HOSTILE[sys.argv[1]][0]())
