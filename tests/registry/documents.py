"""Documents, by their specifications."""

from io import BytesIO
from zipfile import ZIP_DEFLATED, ZIP_STORED, ZipFile, ZipInfo

from layout import be32, le16, le32

PDF_VERSIONS = {
    "1.0": "fmt/14", "1.1": "fmt/15", "1.2": "fmt/16", "1.3": "fmt/17", "1.4": "fmt/18", "1.5": "fmt/19",
    "1.6": "fmt/20", "1.7": "fmt/276", "2.0": "fmt/1129",
}  # fmt: skip
ARCHIVE_LEVELS = {
    "1A": "fmt/95", "1B": "fmt/354", "2A": "fmt/476", "2B": "fmt/477", "2U": "fmt/478", "3A": "fmt/479",
    "3B": "fmt/480", "3U": "fmt/481",
}  # fmt: skip


def pdf(version, metadata="", far=0):
    """A document without pages. Its metadata lies between `far` bytes of comments, away from both ends."""
    gap = b"%" + b"-" * far + b"\n" if far else b""
    objects = b"1 0 obj\n<< /Type /Catalog /Pages 2 0 R >>\nendobj\n2 0 obj\n<< /Type /Pages /Count 0 /Kids [] >>\nendobj\n"
    stream = f"3 0 obj\n<< /Type /Metadata /Subtype /XML /Length {len(metadata)} >>\nstream\n{metadata}\nendstream\nendobj\n"
    head = f"%PDF-{version}\n%\u00e2\u00e3\u00cf\u00d3\n".encode("latin-1")
    return head + objects + gap + stream.encode("ascii") + b"trailer\n<< /Root 1 0 R >>\nstartxref\n0\n%%EOF\n"


def as_elements(part, level):
    conformance = f"<pdfaid:conformance>{level}</pdfaid:conformance>" if level else ""
    return f"<rdf:Description><pdfaid:part>{part}</pdfaid:part>{conformance}</rdf:Description>"


def as_attributes(part, level, quote='"'):
    conformance = f" pdfaid:conformance={quote}{level}{quote}" if level else ""
    return f"<rdf:Description pdfaid:part={quote}{part}{quote}{conformance}/>"


def archived():
    for level, puid in ARCHIVE_LEVELS.items():
        yield puid, "a.pdf", pdf("1.4", as_elements(*level))
        yield puid, "a.pdf", pdf("1.7", as_attributes(*level), far=70_000)
        yield puid, "a.pdf", pdf("1.7", as_attributes(*level, quote="'")) + b"%" * 70_000
        for version in PDF_VERSIONS:
            if version != "2.0":
                yield puid, "a.pdf", pdf(version, as_elements(*level))
    yield "movkrin/pdfa-4", "a.pdf", pdf("2.0", as_elements(4, ""))
    yield "movkrin/pdfa-4", "a.pdf", pdf("2.0", as_attributes(4, "F"), far=70_000)
    yield "movkrin/pdfa-4", "a.pdf", pdf("2.0", as_attributes(4, "")) + b"%" * 70_000


def compound(major):
    """The header of a compound file."""
    header = b"\xd0\xcf\x11\xe0\xa1\xb1\x1a\xe1" + bytes(16) + le16(0x3E, major, 0xFFFE, 9 if major == 3 else 12, 6)
    return header + bytes(6) + le32(0, 1, 1, 0, 4096, 0xFFFFFFFE, 0, 0xFFFFFFFE, 0) + b"\xff" * 436


SECTOR = 512
NONE, END, TABLE = 0xFFFFFFFF, 0xFFFFFFFE, 0xFFFFFFFD
STORAGE, STREAM, ROOT = 1, 2, 5


def entry(name, kind, clsid=bytes(16), after=NONE, child=NONE, start=END, size=0):
    """A directory entry ([MS-CFB] 2.6.1), whose right sibling is `after`."""
    text = name.encode("utf-16-le") + b"\0\0"
    head = text.ljust(64, b"\0") + le16(len(text)) + bytes([kind, 1])
    return head + le32(NONE, after, child) + clsid + bytes(20) + le32(start, size, 0)


def directory_of(clsid, parts, begin):
    """The directory of a compound file, and its streams, which stand from sector `begin` on. A part is a stream's name
    and content, or a storage's name and parts."""
    entries, streams = [("Root Entry", ROOT, clsid, NONE, 1, END, 0)], []

    def add(level):
        for place, (name, content) in enumerate(level):
            at = len(entries)
            entries.append(None)
            if isinstance(content, list):
                child = len(entries)
                add(content)
                row = [STORAGE, bytes(16), NONE, child, 0, 0]
            else:
                # (a stream of fewer than 4,096 bytes would stand in the mini stream)
                whole = content.ljust(4096, b"\0")
                row = [STREAM, bytes(16), NONE, NONE, begin + sum(map(len, streams)) // SECTOR, len(whole)]
                streams.append(whole.ljust(-(-len(whole) // SECTOR) * SECTOR, b"\0"))
            if place + 1 < len(level):
                row[2] = len(entries)
            entries[at] = (name, *row)

    add(parts)
    return b"".join(entry(*row) for row in entries), streams


def compound_file(clsid, *parts, first=True):
    """A compound file of version 3 with this class and these streams and storages. Its directory is the first of its
    sectors, or the last."""
    long = len(directory_of(clsid, parts, 0)[0]) // 128
    sectors = -(-long // 4)
    directory, streams = directory_of(clsid, parts, sectors if first else 0)
    directory = directory.ljust(sectors * SECTOR, b"\0")
    used = [len(stream) // SECTOR for stream in streams]
    chains = [sectors, *used] if first else [*used, sectors]
    tables = -(-sum(chains) // 127)
    table, at = [], 0
    for length in chains:
        table += [*range(at + 1, at + length), END]
        at += length
    table += [TABLE] * tables
    table += [NONE] * (128 * tables - len(table))
    begin = 0 if first else sum(used)
    header = b"\xd0\xcf\x11\xe0\xa1\xb1\x1a\xe1" + bytes(16) + le16(0x3E, 3, 0xFFFE, 9, 6) + bytes(10)
    header += le32(tables, begin, 0, 4096, END, 0, END, 0) + le32(*range(at, at + tables)).ljust(436, b"\xff")
    body = [directory, *streams] if first else [*streams, directory]
    return header + b"".join(body) + le32(*table)


def classed(number):
    """A class of Microsoft's, {NUMBER-0000-0000-C000-000000000046}."""
    return le32(number) + bytes(4) + b"\xc0" + bytes(6) + b"\x46"


# the beginnings of streams: [MS-DOC] 2.5.2; Word 6 by wv's wvQuerySupported(); [MS-XLS] 2.4.21; Excel 5 by OpenOffice.org's
# Microsoft Excel File Format; [MS-PPT] 2.4.1
WORD_8 = le16(0xA5EC, 0xC1, 0, 0x409, 0, 0, 0xBF) + bytes(18) + le16(14)
WORD_6 = le16(0xA5DC, 101, 0, 0x409, 0, 0, 101) + bytes(18)
EXCEL_8, EXCEL_5 = le16(0x809, 16, 0x600, 5, 0xDBB, 0x7CC) + bytes(8), le16(0x809, 8, 0x500, 5, 0, 0x7C9)
SLIDE_SHOW = le16(0x0F, 1000) + le32(0)
NO_CLASS = bytes(16)
POWER_POINT = bytes.fromhex("108d81649b4fcf1186ea00aa00b929e8")
PUBLISHER = bytes.fromhex("0112020000000000") + bytes([0, 0xC0]) + bytes(5) + b"\x46"
PROPERTIES = "__properties_version1.0"
OBJECT = ("ObjectPool", [("_1", [("WordDocument", WORD_8), ("VisioDocument", b""), ("Workbook", EXCEL_8)])])
# identifier, name, class, streams
OLD_OFFICE = [
    ("fmt/39", "a.doc", classed(0x20900), ("WordDocument", WORD_6)),
    ("fmt/40", "a.doc", classed(0x20906), ("WordDocument", WORD_8), ("1Table", b"")),
    ("fmt/40", "a.dot", NO_CLASS, ("WordDocument", WORD_8)),
    ("fmt/59", "a.xls", classed(0x20810), ("Book", EXCEL_5)),
    ("movkrin/xls", "a.xls", classed(0x20820), ("Workbook", EXCEL_8)),
    ("movkrin/xls", "a.xlt", classed(0x20810), ("Book", EXCEL_5), ("Workbook", EXCEL_8)),
    ("fmt/126", "a.ppt", POWER_POINT, ("Current User", b""), ("PowerPoint Document", SLIDE_SHOW)),
    ("x-fmt/430", "a.msg", classed(0x20D0B), ("__nameid_version1.0", [("__substg1.0_00020102", b"")]), (PROPERTIES, b"")),
    ("movkrin/pub", "a.pub", PUBLISHER, ("Contents", b""), ("Quill", [("QuillSub", [("CONTENTS", b"")])])),
    ("movkrin/vsd", "a.vsd", classed(0x21A14), ("VisioDocument", b"Visio (TM) Drawing\r\n\0")),
]
FAR = ("zz", bytes(70_000))


def old_office():
    for puid, name, clsid, *parts in OLD_OFFICE:
        for first in (True, False):
            yield puid, name, compound_file(clsid, *parts, first=first)
            # the directory lies far from the other end
            yield puid, name, compound_file(clsid, *parts, FAR, first=first)
    # an embedded document does not count where the class says which program's file it is
    show = ("MBD1", [("PowerPoint Document", SLIDE_SHOW)])
    yield "movkrin/xls", "a.xls", compound_file(classed(0x20820), ("Workbook", EXCEL_8), show)
    yield "fmt/126", "a.ppt", compound_file(POWER_POINT, ("PowerPoint Document", SLIDE_SHOW), OBJECT)


def package(*names, kind=ZIP_DEFLATED):
    """A ZIP file with such entries."""
    file = BytesIO()
    with ZipFile(file, "w", kind) as archive:
        for name in names:
            archive.writestr(ZipInfo(name), b"<part/>" * 50, kind)
    return file.getvalue()


def with_many(*names):
    """The same, so long that the first and the last bytes have none of the entries' local headers."""
    file = BytesIO()
    with ZipFile(file, "w", ZIP_STORED) as archive:
        archive.writestr(ZipInfo("first"), bytes(70_000))
        for name in names:
            archive.writestr(ZipInfo(name), b"<part/>")
        archive.writestr(ZipInfo("last"), bytes(70_000))
    return file.getvalue()


def cut(content):
    """A package whose central directory lies before its last bytes."""
    return content + bytes(70_000)


def with_mimetype(media_type):
    file = BytesIO()
    with ZipFile(file, "w") as archive:
        archive.writestr(ZipInfo("mimetype"), media_type, ZIP_STORED)
        archive.writestr(ZipInfo("META-INF/manifest.xml"), "<manifest:manifest/>", ZIP_DEFLATED)
    return file.getvalue()


TYPES = "[Content_Types].xml"
WORD, SHEET, SLIDES = "word/document.xml", "xl/workbook.xml", "ppt/presentation.xml"
OPEN_DOCUMENTS = {
    "odt": "text", "ott": "text-template", "ods": "spreadsheet", "ots": "spreadsheet-template", "odp": "presentation",
    "otp": "presentation-template", "odg": "graphics", "otg": "graphics-template", "odf": "formula", "odc": "chart",
    "odb": "base", "odm": "text-master", "oth": "text-web",
}  # fmt: skip


def office():
    for puid, ending, part in (("fmt/412", "docx", WORD), ("fmt/214", "xlsx", SHEET), ("fmt/215", "pptx", SLIDES)):
        yield puid, "a." + ending, package(TYPES, "_rels/.rels", part)
        yield puid, "a." + ending, with_many(part, TYPES)
        yield puid, "a." + ending, cut(package(TYPES, "_rels/.rels", part))
    for puid, ending, part in (("fmt/523", "docm", WORD), ("fmt/445", "xlsm", SHEET), ("fmt/487", "pptm", SLIDES)):
        yield puid, "a." + ending, package(TYPES, part, part.split("/")[0] + "/vbaProject.bin")
    yield "fmt/595", "a.xlsb", package(TYPES, "xl/workbook.bin")
    for ending, kind in OPEN_DOCUMENTS.items():
        yield "movkrin/" + ending, "a." + ending, with_mimetype("application/vnd.oasis.opendocument." + kind)
    yield "fmt/483", "a.epub", with_mimetype("application/epub+zip")
    history = "buildVersionHistory.plist"
    for puid, ending, *parts in (
        ("movkrin/key-09", "key", "index.apxl", history),
        ("movkrin/iwork-09", "pages", "index.xml", history),
        ("movkrin/iwork", "numbers", "Index/Document.iwa", "Metadata/Properties.plist"),
    ):
        yield puid, "a." + ending, package(*parts)
        yield puid, "a." + ending, with_many(*parts)
        yield puid, "a." + ending, cut(package(*parts))


SAMPLES = [
    *[(puid, "a.pdf", pdf(version)) for version, puid in PDF_VERSIONS.items()],
    *archived(),
    ("movkrin/postscript", "a.ps", b"%!PS-Adobe-3.0\n%%Pages: 1\nshowpage\n%%EOF\n"),
    ("movkrin/postscript", "a.ps", b"%!PS\nshowpage\n"),
    ("movkrin/postscript", "a.ps", b"\x04%!PS-Adobe-2.0\nshowpage\n"),
    *[("movkrin/postscript", "a.ps", b"%!" + end + b"/x 1 def" + end + b"0 0 moveto" + end) for end in (b"\n", b"\r\n", b"\r")],
    ("fmt/122", "a.eps", b"%!PS-Adobe-2.0 EPSF-1.2\n%%BoundingBox: 0 0 1 1\n"),
    ("fmt/123", "a.eps", b"%!PS-Adobe-2.0 EPSF-2.0\n%%BoundingBox: 0 0 1 1\n"),
    ("fmt/124", "a.eps", b"%!PS-Adobe-3.0 EPSF-3.0\n%%BoundingBox: 0 0 1 1\n"),
    ("movkrin/eps", "a.epsf", b"%!PS-Adobe-3.1 EPSF-3.0\n%%BoundingBox: 0 0 1 1\n"),
    ("movkrin/eps-dos", "a.eps", b"\xc5\xd0\xd3\xc6" + le32(30, 24, 0, 0, 54, 0) + b"\xff\xff" + b"%!PS-Adobe-3.0 EPSF-3.0\n"),
    ("movkrin/dvi", "a.dvi", b"\xf7\x02" + be32(25400000, 473628672, 1000) + b"\x03TeX"),
    ("movkrin/rtf", "a.rtf", b"{\\rtf1\\ansi\\deff0 {\\fonttbl{\\f0 Times;}}Good morning.\\par}\n"),
    ("fmt/111", "a.doc", compound(3)),
    ("fmt/111", "a.msi", compound(4)),
    *[
        (puid, "a.pst", b"!BDN" + le32(0) + b"SM" + le16(version, 19) + b"\1\1" + bytes(498))
        for puid, versions in (("x-fmt/248", (14, 15)), ("x-fmt/249", (23, 36)))
        for version in versions
    ],
    ("movkrin/onenote", "a.one", bytes.fromhex("e4525c7b8cd8a74daeb15378d02996d3") + bytes(16)),
    *old_office(),
    *office(),
]
