"""Each sample is identified as its format alone, and a file that nearly has a format is not."""

import unittest

from archives import SIARD_1
from common import REGISTRY, SAMPLES
from documents import (
    EXCEL_8, NO_CLASS, PROPERTIES, STORAGE, WORD_6, WORD_8, classed, compound_file, entry, package, with_mimetype,
)  # fmt: skip
from layout import be16, be32, le16, le32, brand
from pictures import compressed, dpx, jpeg, pcx, png, segment, targa
from programs_and_data import dbase, profile
from sound_and_film import adts, dif, real_media, sound
from texts import XML
from identification import identify
from tools import crawled, filtered, installed, made, programs

NOTHING, TEXT = ("none", []), ("Extension", ["x-fmt/111"])
TIFF, OLE, ZIP, MARKUP = [("Signature", [puid]) for puid in ("fmt/353", "fmt/111", "x-fmt/263", "fmt/101")]
INSTALLER = classed(0xC1084)
FIELD = (b"NAME", b"C", 20)
METADATA = b'<gmd:MD_Metadata xmlns:gmd="http://www.isotc211.org/2005/gmd" xmlns:gml="http://www.opengis.net/gml"/>'
FLAT = b"""<office:document xmlns:office="urn:oasis:names:tc:opendocument:xmlns:office:1.0"
 office:mimetype="application/vnd.oasis.opendocument.%s"/>
"""

# name, content, and the method and formats
NEAR = [
    ("a.png", png()[:7] + b"\r" + png()[8:], NOTHING),
    ("a.png", b"\x89PNG\r\r\n\x1a" + png()[8:], NOTHING),
    ("a.gif", b"GIF88a" + bytes(20), NOTHING),
    ("a.gif", b"gif89a" + bytes(20), NOTHING),
    ("a.jpg", b"\xff\xd8\x00", NOTHING),
    ("a.jpg", jpeg(segment(0xE0, b"JFIX\0\1\1")), ("Signature", ["fmt/41"])),
    ("a.jpg", jpeg(segment(0xE0, b"JFIF\0\1\3\0")), ("Signature", ["fmt/41"])),
    ("a.pdf", b"%PDF-1.8\n", NOTHING),
    ("a.pdf", b" %PDF-1.4\n", NOTHING),
    ("a.pdf", b"%PDF-1.4\npdfaid:part>1<\npdfaid:conformance>C<\n", ("Signature", ["fmt/18"])),
    ("a.pdf", b"%PDF-2.0\npdfaid:part>1<\npdfaid:conformance>B<\n", ("Signature", ["fmt/1129"])),
    ("a.zip", b"PK\3\5", NOTHING),
    ("a.zip", b"PK\5\6\0\0\0\0\1\0\1\0" + bytes(10), NOTHING),
    ("a.gz", b"\x1f\x8b\x07\0", NOTHING),
    ("a.gz", b"\x1f\x8b\x08\x20", NOTHING),
    ("a.bz2", b"BZh01AY&SY", NOTHING),
    ("a.tar", bytes(256) + b"ustar\00000" + bytes(247), ("Extension", ["movkrin/tar-by-name"])),
    ("a.tar", bytes(258) + b"ustar\00000" + bytes(245), ("Extension", ["movkrin/tar-by-name"])),
    ("a.iso", bytes(32767) + b"\1CD001\1", NOTHING),
    ("a.dcm", bytes(127) + b"DICM\2\0", NOTHING),
    ("a.tga", b"TRUEVISION-XFILE.\0\0", NOTHING),
    ("a.vhd", b"conectix" + bytes(503), NOTHING),
    ("a.parquet", b"PAR1" + bytes(20) + b"PAR2", NOTHING),
    ("a.avi", b"RIFF\4\0\0\0AVIX", NOTHING),
    ("a.mp4", be32(20) + b"ftypxxxx" + bytes(8), NOTHING),
    ("a.mkv", b"\x1a\x45\xdf\xa3\x8b\x42\x82\x88matroski", NOTHING),
    ("a.mp3", b"\xff\xfb\x90\x64" + bytes(2000) + b"\xff\xfb\x90\x64" + bytes(2000), ("Extension", ["movkrin/mp3-by-name"])),
    ("a.ts", b"G" + (b"\0" * 187 + b"G") * 3, ("Extension", ["movkrin/typescript"])),
    ("a.exe", b"MZ\0\2" + bytes(200), NOTHING),
    ("Fox.class", b"\xca\xfe\xba\xbe\0\0\0\x2c", NOTHING),
    ("a.db", b"SQLite format 2\0", NOTHING),
    ("a.ttf", b"\0\1\0\0\0\x0a\0\x81\0\3\0\x20", NOTHING),
    ("a.eml", b"Subject: Morning\r\nFrom: Fox\r\n\r\nNo moment.\r\n", NOTHING),
    ("a.pcx", pcx(1), NOTHING),
    ("a.pcx", pcx(5)[:64] + b"\1" + pcx(5)[65:], NOTHING),
    ("a.tga", targa(4, 24, bytes(3)), NOTHING),
    ("a.tga", targa(2, 24, bytes(3), sides=(0, 1)), NOTHING),
    ("a.tga", targa(2, 24, bytes(3), sides=(1, 0)), NOTHING),
    ("a.tga", targa(2, 24, bytes(3), sides=(16384, 1)), NOTHING),
    ("a.tga", targa(2, 12, bytes(3)), NOTHING),
    ("a.tga", targa(1, 24, bytes(7), colours=2), NOTHING),
    ("a.dpx", dpx(b"SDPX", b"V3.0"), NOTHING),
    ("a.dpx", dpx(b"DPXS", b"V1.0"), NOTHING),
    ("a.tif", b"II" + le16(42) + le32(16) + b"CS\2\0" + bytes(8), TIFF),
    ("a.cr3", brand(b"cry "), NOTHING),
    ("a.crw", b"II" + le32(26) + b"HEAPCCDS" + le16(2, 1), NOTHING),
    ("a.tif", compressed(True, 34712), TIFF),
    ("a.tif", compressed(False, 32767), TIFF),
    ("a.tif", compressed(True, 65535), TIFF),
    ("a.orf", b"IIRT" + le32(8), NOTHING),
    ("a.rw2", b"IIU\0" + le32(24) + bytes(16), NOTHING),
    ("a.raf", b"FUJIFILMCCD-RAX 0201FF383501", NOTHING),
    ("a.x3f", b"FOVb" + le16(0, 5), NOTHING),
    ("a.mrw", b"\0MRM" + be32(100) + b"\0PRD" + be32(25), NOTHING),
    # an unknown program's file, a storage, a name that is longer, names without a directory
    ("a.doc", compound_file(NO_CLASS, ("Worddocument", WORD_8)), OLE),
    ("a.doc", compound_file(NO_CLASS, ("WordDocument", [("WordDocumen", WORD_8)])), OLE),
    ("a.doc", compound_file(NO_CLASS, ("WordDocuments", WORD_8)), OLE),
    ("a.msi", compound_file(INSTALLER, ("WordDocument", WORD_8), ("Workbook", EXCEL_8)), OLE),
    ("a.doc", compound_file(NO_CLASS, ("WordDocument", WORD_6.replace(le16(101), le16(106)))), ("Signature", ["fmt/40"])),
    ("a.xls", compound_file(NO_CLASS, ("Workbooks", EXCEL_8)), OLE),
    ("a.xls", compound_file(NO_CLASS, ("Books", b"")), OLE),
    ("a.ppt", compound_file(NO_CLASS, ("PowerPoint Documents", b"")), OLE),
    ("a.msg", compound_file(INSTALLER, (PROPERTIES, b"")), OLE),
    ("a.pub", compound_file(NO_CLASS, ("Quill", [("QuillSub", b"")])), OLE),
    ("a.vsd", compound_file(INSTALLER, ("VisioDocument", b"")), OLE),
    ("a.bin", entry("Root Entry", 5) + entry("WordDocument", 2) + entry("QuillSub", STORAGE), NOTHING),
    ("a.pst", b"!BDN" + le32(0) + b"SM" + le16(16, 19), NOTHING),
    ("a.zip", with_mimetype("application/vnd.oasis.opendocument.graphics-templates"), ZIP),
    ("a.zip", package("index.apxm", "buildVersionHistory.plist"), ZIP),
    ("a.zip", package("index.xml", "version.plist"), ZIP),
    ("a.zip", package("Index/Documents.iwa"), ZIP),
    ("a.zip", package("header/metadata.xml", "header/metadata.dtd"), ZIP),
    ("a.zip", package("header/metadata.xsd", f"metadata.xml, {SIARD_1}"), ZIP),
    ("a.ps", b"%!\nThis is no program.\n", ("Extension", ["movkrin/postscript-by-name"])),
    ("a.tex", b"%! TEX root = fox.tex\n\\moveto(0,0)\n", ("Extension", ["movkrin/tex"])),
    ("a.m", b"%!test\n%! assert (showpage, 1)\n", ("Extension", ["movkrin/objective-c"])),
    ("a.ps", b"%!PS-AdobeFont-2.0: Fox 1.0\n", ("Signature", ["movkrin/postscript"])),
    ("a.pfb", b"\x80\2" + le32(64) + b"%!PS-AdobeFont-1.0: Fox 1.0\n", NOTHING),
    ("a.mp2", sound(b"\xff\xfd\xa4\0", 2000), NOTHING),
    ("a.mp2", sound(b"\xff\xff\xa4\0", 626), NOTHING),
    ("a.mp2", (b"\xff\xfd\xa4\0" + bytes(622)) * 2, NOTHING),
    ("a.aac", adts(b"\xff\xf1", 371, 372, 373), NOTHING),
    ("a.aac", adts(b"\xff\xf7", 371, 372, 373, 374), NOTHING),
    ("a.ac3", (b"\x0b\x77\0\0\x14\x40" + bytes(762)) * 2, NOTHING),
    ("a.ac3", sound(b"\x0b\x77\0\0\x14\x58", 768), NOTHING),
    ("a.eac3", sound(b"\x0b\x77\x01\x7f\x34\x88", 768), NOTHING),
    ("a.dv", dif(b"\x7f"), NOTHING),
    ("a.dv", dif(b"\xbf").replace(b"\x3f\x07\0", b"\x5f\x07\0"), NOTHING),
    ("a.rm", real_media(2), NOTHING),
    ("a.ra", b".ra\xfd" + be16(6), NOTHING),
    ("a.mpg", b"\0\0\1\xba\x30", NOTHING),
    ("a.xml", XML + METADATA, MARKUP),
    ("a.xml", XML + FLAT % b"text-template", MARKUP),
    ("a.xml", XML + (FLAT % b"text").replace(b"office:document ", b"office:document-content "), MARKUP),
    ("a.dbf", dbase(4, FIELD), NOTHING),
    ("a.dbf", dbase(0x8B, (b"NAME", b"X", 20)), NOTHING),
    ("a.dbf", dbase(0xF5, FIELD, end=b"\r" + bytes(8)), NOTHING),
    ("a.xml", XML + b'<FeatureCollections xmlns:gml="http://www.opengis.net/gml"/>', MARKUP),
    ("a.dbf", dbase(3, FIELD).replace(bytes([126, 1, 31]), bytes([126, 13, 31])), NOTHING),
    ("a.dbf", dbase(3, (b"NAME", b"X", 20)), NOTHING),
    ("a.csv", b"ID;PRODUCT;PRICE\r\nC;FOX;5\r\n", ("Extension", ["x-fmt/18"])),
    ("a.csv", b"ID;PRODUCT;PRICE\r\n1;FOX;5\r\nE", ("Extension", ["x-fmt/18"])),
    ("a.csv", b"TABLE\r\n0,1\r\n0,2\r\n", ("Extension", ["x-fmt/18"])),
    ("a.icc", profile(3, b"mntr"), NOTHING),
    ("a.icc", profile(4, b"mntR"), NOTHING),
    ("a.eml", b"Content-Type: text/plain\r\nDate: Thu, 1 Jan 2026 00:00:00 +0000\r\n\r\nGood morning.\r\n", NOTHING),
    # texts that begin like other formats
    ("a.txt", b"MZ is short for Mark Zbikowski.\n", TEXT),
    ("a.txt", b"BM stands for bitmap. " * 3, TEXT),
    ("a.txt", b"PK: a knockout.\n", TEXT),
    ("a.txt", b"P1 is a note; P5 another.\n", TEXT),
    ("a.txt", b"I'm free, and a moov is an atom.\n", TEXT),
    ("a.txt", b"From now on, Mondays are free.\n", TEXT),
    ("a.txt", b"To: be or not to be\n", TEXT),
    ("a.txt", b"FWS and CWS 2 are wildlife services.\n", TEXT),
    ("a.txt", b"ID3 tags stand before sound.\n", TEXT),
    ("a.txt", b"Some words about <html>, <svg> and <?xml version=\"1.0\"?>.\n", TEXT),
    ("a.txt", b"#!AMR is a magic line.\n", TEXT),
    ("a.txt", b"%! is a mark, not a program: moveto and showpage are words.\n", TEXT),
    ("a.txt", b"ID;P is how a sheet begins.\nE", TEXT),
    ("a.txt", b"TABLE\nof contents\n", TEXT),
    ("a.txt", b"SDPX, V1.0\n", TEXT),
    ("a.txt", b".RMF is RealMedia, .ra RealAudio.\n", TEXT),
    ("a.txt", "Root Entry, WordDocument".encode("utf-16"), TEXT),
    ("a.txt", b"", TEXT),
    ("a.txt", bytes(70_000), TEXT),
]


class Samples(unittest.TestCase):
    def check(self, samples):
        for (puid, name, content), found in zip(samples, identify(REGISTRY, samples)):
            self.assertEqual(found, ("Signature", False, [puid]), (puid, name, content[:80]))

    def test_each_sample(self):
        self.check(SAMPLES)

    def test_files_of_tools(self):
        self.check([*filtered(), *programs(), *installed(), *made(), *crawled()])

    def test_near_misses(self):
        samples = [(None, name, content) for name, content, _ in NEAR]
        for (name, content, expected), (method, mismatch, puids) in zip(NEAR, identify(REGISTRY, samples)):
            self.assertEqual((method, puids, mismatch), (*expected, False), (name, content[:80]))


if __name__ == "__main__":
    unittest.main()
