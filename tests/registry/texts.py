"""Texts with a signature, by their specifications, and mail as Python's library writes it."""

import mailbox
import os
import tempfile
from email.mime.text import MIMEText

UTF_8 = b"\xef\xbb\xbf"
XML = b'<?xml version="1.0" encoding="UTF-8"?>\n'
XML_1_1 = b"<?xml version='1.1'?>\n"
NOTE = "<?xml version=\"1.0\" encoding='UTF-16'?>\n<note/>\n"
NOTE_1_1 = XML_1_1 + b"<note/>\n"
XHTML = b'xmlns="http://www.w3.org/1999/xhtml"'
POINT = b'<svg xmlns="http://www.w3.org/2000/svg"><path d="M0 0"/></svg>'
FORMULA = b'<math xmlns="http://www.w3.org/1998/Math/MathML"><mi>x</mi></math>'


def page(public, beside=b""):
    """An HTML page with a public identifier."""
    declaration = b'<!DOCTYPE html PUBLIC "' + public + b'"' + beside + b">\n"
    return declaration + b"<html><head><title>Fox</title></head><body><p>Fox</p></body></html>\n"


def document(root, public):
    """An XML document with a document type."""
    return b"<!DOCTYPE " + root + b' PUBLIC "' + public + b'" "http://example.org/fox.dtd">\n<' + root + b"/>"


def xhtml(public, *inside):
    """An XHTML page, with a declaration."""
    declaration = XML + b'<!DOCTYPE html PUBLIC "' + public + b'"\n "http://www.w3.org/TR/fox.dtd">\n' if public else XML
    return declaration + b"<html " + XHTML + b"><head><title>Fox</title></head><body>" + b"".join(inside) + b"</body></html>\n"


def stylesheet(inside):
    """A stylesheet that makes this."""
    head = b'<xsl:stylesheet version="1.0" xmlns:xsl="http://www.w3.org/1999/XSL/Transform">\n<xsl:template match="/">'
    return XML + head + inside + b"</xsl:template>\n</xsl:stylesheet>\n"


def picture(public):
    """An SVG file with a public identifier."""
    return XML + b'<!DOCTYPE svg PUBLIC "' + public + b'" "http://www.w3.org/TR/fox.dtd">\n' + POINT + b"\n"


def drawn(version):
    """An SVG file with its version in an attribute."""
    return b'<svg width="1" height="1"\n version="' + version + b'" viewBox="0 0 1 1"\n xmlns="http://www.w3.org/2000/svg"/>\n'


def flat(kind, quote=b'"'):
    """A flat OpenDocument file."""
    namespaces = b'xmlns:office="urn:oasis:names:tc:opendocument:xmlns:office:1.0"\n xmlns:xhtml="http://www.w3.org/1999/xhtml"'
    said = b" office:version=\"1.2\" office:mimetype=" + quote + b"application/vnd.oasis.opendocument." + kind + quote
    return b"<office:document " + namespaces + said + b"><office:body/></office:document>\n"


def features(prefix, version):
    """A feature collection, by OGR or a web feature service."""
    root = prefix + b"FeatureCollection"
    schema = b' xmlns:xsi="http://www.w3.org/2001/XMLSchema-instance"\n'
    return b"<" + root + b"\n" + schema + b' xmlns:gml="http://www.opengis.net/gml' + version + b'"></' + root + b">\n"


def mail(first, *rest):
    return b"\r\n".join([first, *rest, b"", b"Good morning.", b""])


def message():
    """A message of Python's library."""
    text = MIMEText("Good morning.\n")
    text["Subject"], text["From"], text["Date"] = "Morning", "fox@example.org", "Thu, 1 Jan 2026 00:00:00 +0000"
    return text


def written():
    return message().as_bytes()


def gathered():
    """A mailbox of Python's library."""
    with tempfile.TemporaryDirectory() as folder:
        path = os.path.join(folder, "mbox")
        box = mailbox.mbox(path)
        box.add(message())
        box.close()
        with open(path, "rb") as file:
            return file.read()


def armour(label, body):
    """A body in base 64 between two lines with a label."""
    return b"-----BEGIN " + label + b"-----\n" + body + b"\n-----END " + label + b"-----\n"


def openpgp(label):
    return armour(b"PGP " + label, b"\nyDgBO22WxBHv7O8X7O/jygAEzol56iUKiXmV+XmpCtmpqQUKiQrFqclFqUDBovzS\n=njUN")


def pem(label):
    return armour(label, b"MCowBQYDK2VwAyEAGb9ECWmEzf6FQbrBZ9w7lshQhqowtrbLDFw4rXAxZuE=")


SENDER, MOMENT = b"From: Fox <fox@example.org>", b"Date: Thu, 1 Jan 2026 00:00:00 +0000"
SUBJECT, TRACE = b"Subject: Morning", b"Received: from a.example by b.example; Thu, 1 Jan 2026 00:00:01 +0000"
# the first field of a message, by the program that wrote or delivered it
FIRST = (b"Return-Path: <fox@example.org>", b"Delivered-To: dog@example.org", TRACE, b"Message-ID: <1@example.org>",
         b"Message-Id: <1@example.org>", b"MIME-Version: 1.0", SUBJECT, b"To: dog@example.org", b"Reply-To: fox@example.org",
         b"X-Mailer: Fox", b"Content-Type: text/plain", b"DKIM-Signature: v=1", b"Authentication-Results: example.org; none",
         b"ARC-Seal: i=1", b"Sender: fox@example.org", b"Cc: cat@example.org", b"References: <0@example.org>",
         b"In-Reply-To: <0@example.org>", b"User-Agent: Fox")  # fmt: skip

# vocabularies of XML: each is identified with a declaration and without
ROOTS = [
    ("movkrin/atom", "a.atom", b'<feed xmlns="http://www.w3.org/2005/Atom"><title>Fox</title></feed>'),
    ("movkrin/rss", "a.rss", b'<rss version="2.0"><channel><title>Fox</title></channel></rss>'),
    ("movkrin/kml", "a.kml", b'<kml xmlns="http://www.opengis.net/kml/2.2"><Document/></kml>'),
    ("movkrin/gpx", "a.gpx", b'<gpx version="1.1" creator="Fox" xmlns="http://www.topografix.com/GPX/1/1"/>'),
    ("movkrin/gml", "a.gml", features(b"ogr:", b"")),
    ("movkrin/gml", "a.gml", features(b"gml:", b"/3.2")),
    ("movkrin/gml", "a.gml", features(b"wfs:", b"/3.2")),
    ("movkrin/gml", "a.gml", features(b"", b"/3.2")),
    ("x-fmt/281", "a.xsl", b'<xsl:stylesheet version="1.0" xmlns:xsl="http://www.w3.org/1999/XSL/Transform"/>'),
    ("x-fmt/281", "a.xslt", b'<xsl:transform version="1.0" xmlns:xsl="http://www.w3.org/1999/XSL/Transform"/>'),
    ("x-fmt/280", "a.xsd", b'<xs:schema xmlns:xs="http://www.w3.org/2001/XMLSchema"/>'),
    ("x-fmt/280", "a.xsd", b'<xsd:schema xmlns:xsd="http://www.w3.org/2001/XMLSchema"/>'),
    ("x-fmt/280", "a.xsd", b'<schema xmlns="http://www.w3.org/2001/XMLSchema"/>'),
    ("movkrin/mathml", "a.mml", FORMULA),
    ("movkrin/musicxml", "a.musicxml", document(b"score-partwise", b"-//Recordare//DTD MusicXML 4.0 Partwise//EN")),
    ("movkrin/musicxml", "a.musicxml", document(b"score-timewise", b"-//Recordare//DTD MusicXML 4.0 Timewise//EN")),
    ("movkrin/plist", "a.plist", document(b"plist", b"-//Apple//DTD PLIST 1.0//EN")),
    ("movkrin/svg", "a.svg", POINT),
]  # fmt: skip
FLAT = [
    ("movkrin/fodt", b"text"),
    ("movkrin/fods", b"spreadsheet"),
    ("movkrin/fodp", b"presentation"),
    ("movkrin/fodg", b"graphics"),
]
SVG_1_0, SVG_1_1 = b"-//W3C//DTD SVG 1.0//EN", b"-//W3C//DTD SVG 1.1//EN"

SPACES = (b"\n", b"\r\n", b" ", b"\t", b"\n\n", b"\r\n\r\n", b"  ", UTF_8 + b"\n", UTF_8 + b"\r\n")

PAGES = [
    ("fmt/96", "a.html", b"<HTML>\n<HEAD><TITLE>Fox</TITLE></HEAD><BODY>Fox</BODY></HTML>\n"),
    ("fmt/96", "a.htm", b'\r\n<html lang="en"><head><title>Fox</title></head></html>\n'),
    ("fmt/96", "a.html", b'<!DOCTYPE html SYSTEM "about:legacy-compat">\n<html></html>\n'),
    ("fmt/96", "a.html", b"<!-- a page -->\n<html><head><title>Fox</title></head></html>\n"),
    *[
        ("fmt/96", "a.html", declaration + b"<html><head><title>Fox</title></head><body>" + inside + b"</body></html>\n")
        for declaration in (XML, XML_1_1)
        for inside in (b"", POINT + FORMULA, drawn(b"1.0") + drawn(b"1.1"))
    ],
    *[("fmt/96", "a.html", space + b"<html><head></head></html>\n") for space in SPACES],
    *[("fmt/471", "a.html", space + b"<!DOCTYPE html>\n") for space in SPACES],
    *[("fmt/102", "a.html", space + page(b"-//W3C//DTD XHTML 1.0 Strict//EN")) for space in SPACES],
    ("fmt/97", "a.html", page(b"-//IETF//DTD HTML 2.0//EN")),
    ("fmt/97", "a.html", page(b"-//IETF//DTD HTML//EN")),
    ("fmt/97", "a.html", page(b"-//IETF//DTD HTML Strict//EN")),
    ("fmt/98", "a.html", page(b"-//W3C//DTD HTML 3.2 Final//EN")),
    ("fmt/99", "a.html", page(b"-//W3C//DTD HTML 4.0//EN")),
    ("fmt/99", "a.html", page(b"-//W3C//DTD HTML 4.0 Transitional//EN", b' "http://www.w3.org/TR/REC-html40/loose.dtd"')),
    ("fmt/100", "a.html", page(b"-//W3C//DTD HTML 4.01//EN", b' "http://www.w3.org/TR/html4/strict.dtd"')),
    ("fmt/100", "a.html", b"<!-- a page -->\n" + page(b"-//W3C//DTD HTML 4.01//EN").replace(b"DOCTYPE html", b"doctype HTML")),
    ("fmt/471", "a.html", b"<!DOCTYPE html>\n<html><head><title>Fox</title></head></html>\n"),
    ("fmt/471", "a.html", UTF_8 + b"<!doctype HTML >\n<title>Fox</title>\n" + POINT),
    ("movkrin/xhtml", "a.xhtml", xhtml(b"")),
    ("movkrin/xhtml", "a.xhtml", xhtml(b"", POINT, FORMULA)),
    ("movkrin/xhtml", "a.xhtml", xhtml(b"", drawn(b"1.0"), drawn(b"1.1"))),
    ("movkrin/xhtml", "a.xhtml", XML_1_1 + b"<html " + XHTML + b"></html>"),
    *[
        (puid, "a.xhtml", content)
        for puid, public in (("fmt/102", b"-//W3C//DTD XHTML 1.0 Strict//EN"), ("fmt/103", b"-//W3C//DTD XHTML 1.1//EN"))
        for content in (page(public), xhtml(public), xhtml(public, POINT, FORMULA, drawn(b"1.0"), drawn(b"1.1")))
    ],
    ("fmt/102", "a.xhtml", xhtml(b"-//W3C//DTD XHTML 1.0 Transitional//EN").replace(XML, XML_1_1)),
    ("fmt/103", "a.xhtml", xhtml(b"-//W3C//DTD XHTML 1.1//EN").replace(XML, XML_1_1)),
]

SAMPLES = [
    ("fmt/101", "a.xml", XML + b"<note/>\n"),
    ("fmt/101", "a.xml", UTF_8 + b"<?xml\n version = '1.0'?><note/>\n"),
    ("fmt/101", "a.xml", b"\xff\xfe" + NOTE.encode("utf-16-le")),
    ("fmt/101", "a.xml", b"\xfe\xff" + NOTE.encode("utf-16-be")),
    ("movkrin/xml-1-1", "a.xml", NOTE_1_1),
    *PAGES,
    *ROOTS,
    *[(puid, name, XML + content) for puid, name, content in ROOTS],
    *[(puid, name, XML_1_1 + content) for puid, name, content in ROOTS],
    *[("x-fmt/281", "a.xsl", stylesheet(content)) for _, _, content in ROOTS if not content.startswith(b"<!DOCTYPE")],
    *[(puid, "a." + puid[-4:], XML + flat(kind)) for puid, kind in FLAT],
    *[(puid, "a." + puid[-4:], XML + b"\n" + flat(kind, b"'")) for puid, kind in FLAT],
    *[("x-fmt/281", "a.xsl", stylesheet(flat(kind))) for _, kind in FLAT],
    ("x-fmt/281", "a.xsl", stylesheet(b"<html><body/></html>")),
    ("x-fmt/281", "a.xsl", stylesheet(b"<html " + XHTML + b"><body/></html>")),
    ("x-fmt/281", "a.xsl", stylesheet(drawn(b"1.0"))),
    ("x-fmt/281", "a.xsl", stylesheet(drawn(b"1.1"))),
    ("fmt/91", "a.svg", picture(SVG_1_0)),
    ("fmt/92", "a.svg", picture(SVG_1_1)),
    ("fmt/91", "a.svg", picture(SVG_1_0).replace(XML, XML_1_1)),
    ("fmt/92", "a.svg", picture(SVG_1_1).replace(XML, XML_1_1)),
    ("fmt/91", "a.svg", drawn(b"1.0")),
    ("fmt/92", "a.svg", b"<!-- a point -->\n" + drawn(b"1.1")),
    ("movkrin/svg", "a.svg", drawn(b"2.0")),
    *[("fmt/278", "a.eml", mail(first, SENDER, MOMENT, SUBJECT)) for first in FIRST],
    ("fmt/278", "a.eml", mail(SENDER, SUBJECT, MOMENT)),
    ("fmt/278", "a.eml", mail(MOMENT, SENDER)),
    ("fmt/278", "a.eml", written()),
    ("fmt/720", "a.mbox", gathered()),
    ("fmt/720", "a.mbox", b"From fox@example.org Thu Jan  1 00:00:00 2026\n" + mail(SENDER, MOMENT).replace(b"\r", b"")),
    ("movkrin/vcard", "a.vcf", b"BEGIN:VCARD\r\nVERSION:4.0\r\nFN:Fox\r\nEND:VCARD\r\n"),
    ("movkrin/vcard", "a.vcf", b"begin:vcard\nversion:3.0\nfn:Fox\nend:vcard\n"),
    ("fmt/388", "a.ics", b"BEGIN:VCALENDAR\r\nVERSION:2.0\r\nPRODID:-//Fox//EN\r\nEND:VCALENDAR\r\n"),
    ("movkrin/pem-certificate", "a.pem", pem(b"CERTIFICATE")),
    ("movkrin/pem-key", "a.pem", pem(b"PRIVATE KEY")),
    ("movkrin/pem-key", "a.key", pem(b"ENCRYPTED PRIVATE KEY")),
    ("movkrin/pem-key", "a.pub", pem(b"PUBLIC KEY")),
    ("movkrin/openpgp-message", "a.asc", openpgp(b"MESSAGE")),
    ("movkrin/openpgp-signature", "a.sig", openpgp(b"SIGNATURE")),
    ("movkrin/openpgp-key", "a.asc", openpgp(b"PUBLIC KEY BLOCK")),
    ("movkrin/webvtt", "a.vtt", b"WEBVTT\n\n00:00.000 --> 00:01.000\nFox\n"),
    ("movkrin/webvtt", "a.vtt", UTF_8 + b"WEBVTT - fox\n\n"),
]
