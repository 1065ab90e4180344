"""Archives and compressed files, made by their specifications and by Python's library."""

import bz2
import gzip
import lzma
import tarfile
from io import BytesIO
from zipfile import ZIP_DEFLATED, ZIP_STORED, ZipFile, ZipInfo
from zlib import crc32

from documents import cut, package, with_many
from layout import be16, be32, le16, le32

TEXT = b"The quick brown fox jumps over the lazy dog.\n"


def tar(layout):
    file = BytesIO()
    with tarfile.open(fileobj=file, mode="w", format=layout) as archive:
        member = tarfile.TarInfo("letters/fox.txt")
        member.size = len(TEXT)
        archive.addfile(member, BytesIO(TEXT))
    return file.getvalue()


def member(name, content):
    """A member of a Unix archive."""
    head = name.ljust(16) + b"0".ljust(12) + b"0".ljust(6) + b"0".ljust(6) + b"100644".ljust(8)
    return head + b"%-10d`\n" % len(content) + content + b"\n" * (len(content) % 2)


def debian():
    parts = member(b"debian-binary", b"2.0\n") + member(b"control.tar.gz", gzip.compress(b"", mtime=0))
    return b"!<arch>\n" + parts + member(b"data.tar.gz", gzip.compress(b"", mtime=0))


def cpio(magic):
    """A header of the formats newc or crc, of the trailer."""
    return magic + b"%08X" % 0 * 4 + b"%08X" % 1 + b"%08X" % 0 * 6 + b"%08X" % 11 + b"%08X" % 0 + b"TRAILER!!!\0\0\0\0"


def portable_cpio():
    return b"070707" + b"0" * 42 + b"0" * 11 + b"000013" + b"0" * 11 + b"TRAILER!!!\0"


def lz4_frame():
    """A frame with one stored block and without checksums: the byte of its descriptor's checksum is not checked."""
    return le32(0x184D2204) + b"\x60\x40\x82" + le32(0x80000000 | len(TEXT)) + TEXT + le32(0)


def zstd_frame():
    """A frame of one stored block, whose content size takes one byte."""
    return le32(0xFD2FB528) + b"\x20" + bytes([len(TEXT)]) + (1 | len(TEXT) << 3).to_bytes(3, "little") + TEXT


def lzip():
    raw = lzma.compress(TEXT, lzma.FORMAT_RAW, filters=[{"id": lzma.FILTER_LZMA1, "dict_size": 65536}])
    size = 6 + len(raw) + 20
    return b"LZIP\1\x10" + raw + le32(crc32(TEXT)) + len(TEXT).to_bytes(8, "little") + size.to_bytes(8, "little")


def seven_zip():
    """The header of an archive without files."""
    start = bytes(20)
    return b"7z\xbc\xaf\x27\x1c\0\4" + le32(crc32(start)) + start


def cabinet():
    """A cabinet with one folder and one file, both empty."""
    header = b"MSCF" + le32(0, 61, 0, 44, 0) + b"\3\1" + le16(1, 1, 0, 1, 0)
    return header + le32(61) + le16(0, 0) + bytes(16) + b"\0"


def iso_9660():
    """16 empty sectors, and a primary volume descriptor with nothing but its identifiers."""
    descriptor = b"\1CD001\1\0" + b"LINUX".ljust(32) + b"LETTERS".ljust(32)
    return bytes(16 * 2048) + descriptor.ljust(2048, b"\0") + (b"\xffCD001\1").ljust(2048, b"\0")


def record(version):
    head = b"WARC-Type: warcinfo\r\nContent-Length: 0\r\n"
    return b"WARC/" + version + b"\r\n" + head + b"\r\n\r\n\r\n"


def siard(namespace, far=0, kind=ZIP_STORED):
    """A database without content. `far` bytes stand before and behind its metadata."""
    file = BytesIO()
    with ZipFile(file, "w", kind) as archive:
        archive.writestr(ZipInfo("content/schema0/table0/table0.xml"), bytes(far), ZIP_STORED)
        archive.writestr(ZipInfo("header/metadata.xsd"), b"<xs:schema/>", kind)
        text = f'<?xml version="1.0" encoding="utf-8"?>\n<siardArchive xmlns="{namespace}" version="1.0"></siardArchive>\n'
        archive.writestr(ZipInfo("header/metadata.xml"), text, kind)
    return file.getvalue()


SIARD_1 = "http://www.bar.admin.ch/xmlns/siard/1.0/metadata.xsd"
SIARD_2 = "http://www.bar.admin.ch/xmlns/siard/2/metadata.xsd"
MANIFEST = "META-INF/MANIFEST.MF"
CHECKS = (lzma.CHECK_NONE, lzma.CHECK_CRC32, lzma.CHECK_CRC64)
LAYOUTS = (tarfile.USTAR_FORMAT, tarfile.PAX_FORMAT, tarfile.GNU_FORMAT)
END_OF_NO_ENTRIES = b"PK\5\6" + bytes(18)

SAMPLES = [
    ("x-fmt/263", "a.zip", package("fox.txt", "dog.txt")),
    ("x-fmt/263", "a.zip", package("fox.txt", kind=ZIP_STORED)),
    ("x-fmt/263", "a.zip", package()),
    ("x-fmt/263", "a.zip", END_OF_NO_ENTRIES),
    ("x-fmt/263", "a.zip", b"PK\7\x08" + package("fox.txt")),
    ("x-fmt/263", "a.zip", b"PK00" + package("fox.txt", kind=ZIP_DEFLATED)),
    ("x-fmt/266", "a.gz", gzip.compress(TEXT, mtime=0)),
    ("x-fmt/266", "a.tgz", gzip.compress(tar(tarfile.USTAR_FORMAT), mtime=0)),
    ("x-fmt/268", "a.bz2", bz2.compress(TEXT)),
    ("x-fmt/268", "a.bz2", bz2.compress(b"", 1)),
    *[("fmt/1098", "a.xz", lzma.compress(TEXT, check=check)) for check in CHECKS],
    ("movkrin/lzip", "a.lz", lzip()),
    ("movkrin/zstd", "a.zst", zstd_frame()),
    ("movkrin/zstd", "a.zst", le32(0x184D2A53, 4) + b"note" + zstd_frame()),
    ("movkrin/lz4", "a.lz4", lz4_frame()),
    ("fmt/484", "a.7z", seven_zip()),
    *[("x-fmt/265", "a.tar", tar(layout)) for layout in LAYOUTS],
    ("movkrin/rar-4", "a.rar", b"Rar!\x1a\7\0" + b"\xcf\x90\x73\0\0\x0d\0" + bytes(6)),
    ("fmt/613", "a.rar", b"Rar!\x1a\7\1\0" + le32(0x6A3DB9C4) + b"\3\1\0\0"),
    ("movkrin/cab", "a.cab", cabinet()),
    ("fmt/635", "a.cpio", cpio(b"070701")),
    ("fmt/635", "a.cpio", cpio(b"070702")),
    ("fmt/635", "a.cpio", portable_cpio()),
    ("movkrin/ar", "a.a", b"!<arch>\n" + member(b"fox.txt/", TEXT)),
    ("movkrin/deb", "a.deb", debian()),
    ("movkrin/rpm", "a.rpm", b"\xed\xab\xee\xdb\3\0" + be16(0, 1) + b"fox-1.0-1".ljust(66, b"\0") + be16(1, 5) + bytes(16)),
    ("x-fmt/412", "a.jar", package(MANIFEST, "Fox.class")),
    ("x-fmt/412", "a.jar", with_many(MANIFEST)),
    ("x-fmt/412", "a.jar", cut(package(MANIFEST, "Fox.class"))),
    ("movkrin/siard", "a.siard", siard(SIARD_2, kind=ZIP_DEFLATED)),
    ("movkrin/siard", "a.siard", siard(SIARD_2, 70_000, ZIP_DEFLATED)),
    ("movkrin/siard", "a.siard", siard(SIARD_2, kind=ZIP_DEFLATED) + bytes(70_000)),
    ("fmt/161", "a.siard", siard(SIARD_1)),
    ("fmt/161", "a.siard", siard(SIARD_1, 70_000)),
    ("fmt/161", "a.siard", siard(SIARD_1) + bytes(70_000)),
    ("movkrin/apk", "a.apk", package("AndroidManifest.xml", "classes.dex", MANIFEST)),
    ("movkrin/apk", "a.apk", with_many("AndroidManifest.xml", "classes.dex")),
    ("movkrin/apk", "a.apk", cut(package("AndroidManifest.xml", "classes.dex"))),
    ("fmt/468", "a.iso", iso_9660()),
    ("movkrin/git-pack", "a.pack", b"PACK" + be32(2, 0) + bytes.fromhex("029d08823bd8a8eab510ad6ac75c823cfd3ed31e")),
    ("fmt/289", "a.warc", record(b"1.0")),
    ("movkrin/warc-1-1", "a.warc", record(b"1.1")),
]
