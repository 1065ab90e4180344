"""XML: each construct, cuts and changes of signature files, and random documents, beside Python's expat: what it refuses is
refused, and what it accepts and has no document type declaration is read, with the names that expat reads.

DOCUMENTS is how many random documents there are: 500, or all 5,000. PLACES says at how many places of the sample it is cut and
changed: at each PLACESth, 80, or at all with 1."""
import os
import re
import unittest
from concurrent.futures import ThreadPoolExecutor
from random import Random

from conversions import NO_SIGNATURE_FILE, PARTLY, convert, rows_of, stored
from document import read_document
from random_documents import document
from signature_file import NotASignatureFile, read_signature_file

DOCUMENTS = int(os.environ.get("DOCUMENTS", "500"))
PLACES = int(os.environ.get("PLACES", "80"))
BYTES = b"<&>\"\0\xff"
FAULT = re.compile("fault: (NotWellFormed|Doctype|TooDeep|TooManyAttributes|Encoding) at ([0-9]+)\n")

SMALL = b"""<?xml version="1.0"?>
<FFSignatureFile Version='2'><!-- one --><FileFormatCollection><FileFormat ID="1" PUID="f/1" Name="A &lt; B">
<Extension>6&#x31;<![CDATA[<2]]></Extension><?p i?></FileFormat></FileFormatCollection><a/></FFSignatureFile>
"""


def differs(text):
    """Says how the program reads a document otherwise than the model."""
    status, registry, said = convert(text)
    try:
        model = read_signature_file(text)
    except NotASignatureFile:
        return None if (status, registry, said.split("\n")[0]) == (NO_SIGNATURE_FILE, b"", "fault: NotASignatureFile") else f"{text}: {status} {said}"
    fault = FAULT.match(said)
    if model is None:
        is_refused = fault and 0 < int(fault[2]) <= lines_of(text) and (status, registry) == (NO_SIGNATURE_FILE, b"")
        return None if is_refused else f"{text}: {status} {said}"
    is_read = status in (0, PARTLY) and rows_of(registry, "FEP") == [*model.rows()]
    return None if is_read else f"{text}: {status} {said} {registry}, by the model {[*model.rows()]}"


def lines_of(text):
    """How many lines a text has, whose lines end in a line feed, a carriage return or both."""
    return len(re.findall(b"\r\n|\r|\n", text)) + 1


def changes(text, places):
    """A text cut before each of these places, and with other bytes there."""
    for place in places:
        yield text[:place]
        yield from (text[:place] + bytes([byte]) + text[place + 1 :] for byte in BYTES)


class Documents(unittest.TestCase):
    def check(self, documents):
        """Checks these documents, and returns how many of them are XML."""
        with ThreadPoolExecutor(len(os.sched_getaffinity(0))) as pool:
            differing = [it for it in pool.map(differs, documents) if it]
        self.assertEqual(differing, [], "\n".join(differing[:10]))

    def test_small_file_changed_at_each_place(self):
        self.check(changes(SMALL, range(len(SMALL))))

    def test_sample_changed(self):
        sample = stored("sample.xml")
        self.check(changes(sample, range(0, len(sample), PLACES)))

    def test_random_documents(self):
        random = Random(1)
        self.check(document(random) for _ in range(DOCUMENTS))


def format_of(name=b"'N'", inner=b""):
    """A signature file of one format."""
    return (
        b"<FFSignatureFile><FileFormatCollection><FileFormat ID='1' PUID='f/1' Name=" + name + b">" + inner
        + b"</FileFormat></FileFormatCollection></FFSignatureFile>"
    )


def attributes(count):
    return b"<a" + b"".join(b" a%d=''" % number for number in range(count)) + b"/>"


# what stands for a name
NAMES = [
    (b"'A'", "A"),
    (b'"A"', "A"),
    (b"'A \"B\"'", 'A "B"'),
    (b'"it\'s"', "it's"),
    (b"'&lt;&gt;&amp;&apos;&quot;'", "<>&'\""),
    (b"'&#65;&#x42;&#x63;&#x1F600;'", "ABc\U0001f600"),
    (b"'&amp;lt;'", "&lt;"),
    (b"'a\tb\nc\r\nd\re'", "a b c d e"),
    (b"'&#10;&#9;&#13;a'", "\n\t\ra"),
    (b"'  a  '", "  a  "),
    (b"'a>b'", "a>b"),
    ("'Größe 中 😀'".encode(), "Größe 中 😀"),
]
# what stands for an extension
EXTENSIONS = [
    (b"<Extension>gif</Extension>", ["gif"]),
    (b"<Extension >gif</Extension\n>", ["gif"]),
    (b"<Extension> \tgif\r\n</Extension>", ["gif"]),
    (b"<Extension>g<!-- i -->i<?i f?>f</Extension>", ["gif"]),
    (b"<Extension><![CDATA[gif]]></Extension>", ["gif"]),
    (b"<Extension>g<![CDATA[]]>i<![CDATA[<&]]>f</Extension>", ["gi<&f"]),
    (b"<Extension>&#103;i&#x66;</Extension>", ["gif"]),
    (b"<Extension>a&lt;b&gt;c]]&gt;</Extension>", ["a<b>c]]>"]),
    (b"<Extension>g<Odd>x<Extension>y</Extension></Odd>if</Extension>", ["gif"]),
    (b"<Odd><Extension>gif</Extension></Odd>", []),
    (b"<extension>gif</extension>", []),
    (b"<Extension>g\ri</Extension>", ["g\ni"]),
]
# what may stand before and behind the root
AROUND = [
    (b"\xef\xbb\xbf", b""),
    (b"<?xml version='1.0'?>", b"\n"),
    (b'\xef\xbb\xbf<?xml version = "1.0" encoding = "utf-8" standalone = "yes" ?>\r\n', b"\r\n"),
    (b"<?xml version='1.1' encoding='US-ASCII'?>", b""),
    (b"<?a?><!-- <!DOCTYPE a> -->\n<?b c?>", b"<!----><?d ?>\t"),
]
# elements 16 deep, and 64 attributes
OTHERS = [b"<a>" * 16 + b"</a>" * 16, attributes(64), b"<a:b.c-1 _='' x:y=''/>", "<é/>".encode()]
# documents with a fault
FAULTS = [
    (b"", "NotWellFormed at 1"),
    (b"\n\n", "NotWellFormed at 3"),
    (b"a", "NotWellFormed at 1"),
    (b"<a>\r\n", "NotWellFormed at 2"),
    (b"<a>\n<b>\n</a>", "NotWellFormed at 3"),
    (b"<a>\r<b/>\r</b></a>", "NotWellFormed at 3"),
    (b"<FFSignatureFile>\r\n<a>\r</FFSignatureFile>", "NotWellFormed at 3"),
    (b"</a>", "NotWellFormed at 1"),
    (b"<a/>\n<a/>", "NotWellFormed at 2"),
    (b"<a/>\n\nb", "NotWellFormed at 1"),
    (b"<a/>&#32;", "NotWellFormed at 1"),
    (b"<a/><![CDATA[]]>", "NotWellFormed at 1"),
    (b"<a b/>", "NotWellFormed at 1"),
    (b"<a b=c/>", "NotWellFormed at 1"),
    (b"<a b='1'/", "NotWellFormed at 1"),
    (b"<a\n b='1'\n b='2'/>", "NotWellFormed at 1"),
    (b"<a b='<'/>", "NotWellFormed at 1"),
    (b"<a b='&'/>", "NotWellFormed at 1"),
    (b"<a b='&nbsp;'/>", "NotWellFormed at 1"),
    (b"<a b='1'c='2'/>", "NotWellFormed at 1"),
    (b"<1/>", "NotWellFormed at 1"),
    (b"< a/>", "NotWellFormed at 1"),
    (b"<a></ a>", "NotWellFormed at 1"),
    (b"<a><!-- -- --></a>", "NotWellFormed at 1"),
    (b"<a><!-- ---></a>", "NotWellFormed at 1"),
    (b"<a>\n]]></a>", "NotWellFormed at 1"),
    (b"<a>\n&lt</a>", "NotWellFormed at 2"),
    (b"<a>&#0;</a>", "NotWellFormed at 1"),
    (b"<a>&#X41;</a>", "NotWellFormed at 1"),
    (b"<a>&#xD800;</a>", "NotWellFormed at 1"),
    (b"<a>\0</a>", "NotWellFormed at 1"),
    (b"<a>\x0b</a>", "NotWellFormed at 1"),
    (b"<a>\xff</a>", "NotWellFormed at 1"),
    (b"<a>\xed\xa0\x80</a>", "NotWellFormed at 1"),
    (b"<a>\xef\xbf\xbe</a>", "NotWellFormed at 1"),
    (b"<a><?xml version='1.0'?></a>", "NotWellFormed at 1"),
    (b" <?xml version='1.0'?><a/>", "NotWellFormed at 1"),
    (b"<?xml?><a/>", "NotWellFormed at 1"),
    (b"<?XML a?><a/>", "NotWellFormed at 1"),
    (b"<?xml encoding='UTF-8'?><a/>", "NotWellFormed at 1"),
    (b"<?xml version='1.0' standalone='maybe'?><a/>", "NotWellFormed at 1"),
    (b"<?xml version='1.0' standalone='no' encoding='UTF-8'?><a/>", "NotWellFormed at 1"),
    (b"\xff\xfe<\0a\0/\0>\0", "NotWellFormed at 1"),
    (b"<!DOCTYPE a><a/>", "Doctype at 1"),
    (b"<!DOCTYPE a>\n<FFSignatureFile/>", "Doctype at 1"),
    (b"<!-- -->\n<!DOCTYPE a [<!ENTITY b 'c'>]><a>&b;</a>", "Doctype at 2"),
    (b"<!DOCTYPE a SYSTEM 'file:///etc/passwd'><a/>", "Doctype at 1"),
    (b"<a>\n" * 17, "TooDeep at 17"),
    (attributes(65), "TooManyAttributes at 1"),
    (b"<?xml version='1.0' encoding='ISO-8859-1'?>\n<a/>", "Encoding at 1"),
    ("<?xml version='1.0' encoding='US-ASCII'?><é/>".encode(), "Encoding at 1"),
]
# what only this program refuses: expat reads it
OWN = ("TooDeep", "TooManyAttributes", "Encoding")


class Constructs(unittest.TestCase):
    def rows(self, document, kinds):
        status, registry, said = convert(document)
        self.assertIn(status, (0, PARTLY), said)
        return rows_of(registry, kinds)

    def test_names(self):
        for written, name in NAMES:
            with self.subTest(written):
                self.assertEqual(self.rows(format_of(written), "F"), [["F", "f/1", name, "", "", ""]])

    def test_extensions(self):
        for written, extensions in EXTENSIONS:
            with self.subTest(written):
                self.assertEqual(self.rows(format_of(inner=written), "E"), [["E", "f/1", it, "", "", ""] for it in extensions])

    def test_around_the_root(self):
        for front, back in AROUND:
            with self.subTest((front, back)):
                self.assertEqual(self.rows(front + format_of() + back, "F"), [["F", "f/1", "N", "", "", ""]])

    def test_other_documents(self):
        for text in OTHERS:
            status, _, said = convert(text)
            self.assertEqual((status, said.split("\n")[0]), (NO_SIGNATURE_FILE, "fault: NotASignatureFile"), text)

    def test_faults(self):
        for text, fault in FAULTS:
            with self.subTest(text[:60]):
                status, registry, said = convert(text)
                self.assertEqual((status, registry, said.split("\n")[0]), (NO_SIGNATURE_FILE, b"", f"fault: {fault}"))
                self.assertTrue(fault.startswith(OWN) or text.startswith(b"\xff\xfe") or read_document(text) is None)


if __name__ == "__main__":
    unittest.main()
