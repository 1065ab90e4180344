"""Programs, data and fonts, by their specifications, and databases as Python's library makes them."""

import os
import sqlite3
import tempfile

from layout import be16, be32, le16, le32


def elf(wide, little):
    """The header of a relocatable file without sections."""
    n = (lambda value, width: value.to_bytes(width, "little")) if little else (lambda value, width: value.to_bytes(width, "big"))
    word = 8 if wide else 4
    machine = {(True, True): 62, (False, True): 3, (False, False): 20, (True, False): 21}[wide, little]
    ident = b"\x7fELF" + bytes([2 if wide else 1, 1 if little else 2, 1]) + bytes(9)
    rest = [(1, 2), (machine, 2), (1, 4), (0, word), (0, word), (0, word), (0, 4), (64 if wide else 52, 2)]
    return ident + b"".join(n(*part) for part in rest) + bytes(10)


def dos(*after):
    """The header of an MS-DOS program, with what follows at byte 128."""
    header = b"MZ" + le16(144, 3, 0, 4, 0, 65535, 0, 184, 0, 0, 0, 64)
    return header.ljust(60, b"\0") + le32(128) + bytes(64) + b"".join(after)


def portable(machine, magic, size):
    """A portable executable without sections."""
    return dos(b"PE\0\0" + le16(machine, 0) + le32(0, 0, 0) + le16(size, 0x22), (le16(magic) + bytes(size)))


def database(*statements):
    with tempfile.TemporaryDirectory() as folder:
        path = os.path.join(folder, "fox.db")
        connection = sqlite3.connect(path)
        for statement in statements:
            connection.execute(statement)
        connection.commit()
        connection.close()
        with open(path, "rb") as file:
            return file.read()


TABLE = "CREATE TABLE letters (name TEXT)"


def application(name):
    return "PRAGMA application_id = %d" % int.from_bytes(name, "big")


SUPERBLOCK = b"\x89HDF\r\n\x1a\n" + b"\2\x08\x08\0" + bytes(36)


def sfnt(first, tables):
    power = 1 << (tables.bit_length() - 1)
    directory = b"".join(tag + bytes(12) for tag in (b"cmap", b"glyf", b"head", b"hhea", b"maxp"))
    return first + be16(tables, power * 16, power.bit_length() - 1, (tables - power) * 16) + directory


def woff(magic, flavour):
    return magic + flavour + be32(44) + be16(0, 0) + be32(12) + be16(1, 0) + bytes(20)


def dbase(version, *fields, end=b"\r"):
    """A table without records. A field is its name, type and length."""
    descriptors = b"".join(
        name.ljust(11, b"\0") + kind + bytes(4) + bytes([length, 0]) + bytes(14) for name, kind, length in fields
    )
    lengths = le16(32 + len(descriptors) + len(end), 1 + sum(length for _, _, length in fields))
    return bytes([version, 126, 1, 31]) + le32(0) + lengths + bytes(20) + descriptors + end + b"\x1a"


FIELDS = [(b"NAME", b"C", 20), (b"BORN", b"D", 8), (b"COUNT", b"N", 5), (b"TRUE", b"L", 1), (b"NOTE", b"M", 10)]
FOX_FIELDS = [(b"ID", b"I", 4), *FIELDS]


def part(kind, content):
    """A segment of a binary font file: 1 for text, 2 for bytes."""
    return bytes([0x80, kind]) + le32(len(content)) + content


def profile(major, kind):
    """An ICC profile without tags."""
    header = be32(132) + bytes(4) + bytes([major, 0x20, 0, 0]) + kind + b"RGB XYZ " + be16(2026, 1, 1, 0, 0, 0) + b"acsp"
    return header.ljust(128, b"\0") + be32(0)


DIF = "TABLE\n0,1\n\"\"\nVECTORS\n0,1\n\"\"\nTUPLES\n0,1\n\"\"\nDATA\n0,0\n\"\"\n-1,0\nBOT\n0,5\nV\n-1,0\nEOD\n"
SYLK = "ID;PFOX\nC;X1;Y1;K5\nE\n"
SYLK_ROWS = ("B;X1;Y1", "P;PGeneral", "F;W1 1 9", "O;E")
TYPE_1 = (b"%!PS-AdobeFont-1.0: Fox 1.0\n", b"%!FontType1-1.0: Fox 1.0\n")
FONT = b"11 dict begin\n/FontName /Fox def\ncurrentfile eexec\n"
FIXED = be32(0x10000)
ARRAY = b"{'descr': '<f8', 'fortran_order': False, 'shape': (0,), }"
SAMPLES = [
    ("fmt/690", "a", elf(True, True)),
    ("fmt/688", "a", elf(False, True)),
    ("fmt/689", "a", elf(False, False)),
    ("fmt/691", "a", elf(True, False)),
    ("x-fmt/409", "a.exe", dos()),
    ("fmt/899", "a.exe", portable(0x14C, 0x10B, 224)),
    ("fmt/899", "a.dll", portable(0x1C4, 0x10B, 224)),
    ("fmt/900", "a.exe", portable(0x8664, 0x20B, 240)),
    ("fmt/900", "a.sys", portable(0xAA64, 0x20B, 240)),
    ("fmt/900", "a.efi", portable(0x200, 0x20B, 240)),
    ("fmt/899", "a.efi", portable(0xEBC, 0x10B, 224)),
    ("movkrin/mach-o", "a.o", le32(0xFEEDFACF, 0x01000007, 3, 1, 0, 0, 0, 0)),
    ("movkrin/mach-o", "a.dylib", le32(0xFEEDFACF, 0x0100000C, 0, 6, 0, 0, 0, 0)),
    ("movkrin/mach-o", "a.o", le32(0xFEEDFACE, 7, 3, 1, 0, 0, 0)),
    ("movkrin/mach-o", "a.o", be32(0xFEEDFACE, 18, 0, 1, 0, 0, 0)),
    ("movkrin/mach-o", "a.o", be32(0xFEEDFACF, 0x01000012, 0, 1, 0, 0, 0, 0)),
    ("movkrin/mach-o-fat", "a.dylib", be32(0xCAFEBABE, 2, 0x01000007, 3, 4096, 100, 12, 0x0100000C, 0, 8192, 100, 12)),
    ("x-fmt/415", "Fox.class", be32(0xCAFEBABE) + be16(0, 52, 1, 0x21, 0, 0, 0, 0, 0, 0)),
    ("x-fmt/415", "Fox.class", be32(0xCAFEBABE) + be16(3, 45, 1, 0x21, 0, 0, 0, 0, 0, 0)),
    ("movkrin/wasm", "a.wasm", b"\0asm" + le32(1)),
    ("movkrin/dex", "classes.dex", b"dex\n035\0" + bytes(104)),
    ("movkrin/dex", "classes.dex", b"dex\n041\0" + bytes(104)),
    ("movkrin/lnk", "a.lnk", le32(76, 0x21401, 0, 0xC0, 0x46000000) + bytes(56)),
    ("fmt/729", "a.sqlite", database(TABLE)),
    *[("movkrin/geopackage", "a.gpkg", database(application(name), TABLE)) for name in (b"GPKG", b"GP10", b"GP11")],
    *[("movkrin/hdf5", "a.h5", bytes(start) + SUPERBLOCK) for start in (0, 512, 1024, 2048)],
    *[("movkrin/netcdf", "a.nc", b"CDF" + bytes([version]) + bytes(32)) for version in (1, 2, 5)],
    ("movkrin/mat-5", "a.mat", b"MATLAB 5.0 MAT-file, Platform: GLNXA64".ljust(124) + le16(0x100) + b"IM"),
    ("movkrin/npy", "a.npy", b"\x93NUMPY\1\0" + le16(118) + ARRAY.ljust(117) + b"\n"),
    ("movkrin/parquet", "a.parquet", b"PAR1" + b"\x15\0" + bytes(20) + le32(20) + b"PAR1"),
    ("movkrin/arrow", "a.arrow", b"ARROW1\0\0" + le32(0xFFFFFFFF, 0) + b"ARROW1"),
    ("movkrin/avro", "a.avro", b"Obj\1\2\x14avro.codec\x08null\0" + bytes(16)),
    ("movkrin/pcap", "a.pcap", le32(0xA1B2C3D4) + le16(2, 4) + le32(0, 0, 65535, 1)),
    ("movkrin/pcap", "a.pcap", be32(0xA1B2C3D4) + be16(2, 4) + be32(0, 0, 65535, 1)),
    ("movkrin/pcap", "a.pcap", le32(0xA1B23C4D) + le16(2, 4) + le32(0, 0, 65535, 1)),
    ("movkrin/pcap", "a.pcap", be32(0xA1B23C4D) + be16(2, 4) + be32(0, 0, 65535, 1)),
    ("movkrin/pcapng", "a.pcapng", le32(0x0A0D0D0A, 28, 0x1A2B3C4D) + le16(1, 0) + b"\xff" * 8 + le32(28)),
    ("movkrin/pcapng", "a.pcapng", be32(0x0A0D0D0A, 28, 0x1A2B3C4D) + be16(1, 0) + b"\xff" * 8 + be32(28)),
    *[("x-fmt/9", "a.dbf", dbase(3, field)) for field in FIELDS[:-1]],
    ("x-fmt/9", "a.dbf", dbase(0x83, *FIELDS)),
    ("x-fmt/9", "a.dbf", dbase(3, (b"name", b"F", 10), *FIELDS, end=b"\r\0")),
    *[("movkrin/dbf", "a.dbf", dbase(version, *FIELDS)) for version in (0x43, 0x63, 0x8B, 0xCB, 0xF5, 0xFB)],
    *[("movkrin/dbf", "a.dbf", dbase(version, *FOX_FIELDS, end=b"\r" + bytes(263))) for version in (0x30, 0x31, 0x32)],
    *[("movkrin/sylk", "a.slk", SYLK.replace("\n", end).encode("ascii")) for end in ("\n", "\r\n", "\r")],
    *[("movkrin/sylk", "a.sylk", SYLK.replace("C;X1;Y1;K5", row).encode("ascii")) for row in SYLK_ROWS],
    *[("movkrin/dif", "a.dif", DIF.replace("\n", end).encode("ascii")) for end in ("\n", "\r\n", "\r")],
    *[("movkrin/icc", "a.icc", profile(4, kind)) for kind in (b"scnr", b"mntr", b"prtr", b"link", b"spac", b"abst", b"nmcl")],
    *[("movkrin/icc", "a.icm", profile(major, b"mntr")) for major in (2, 5)],
    ("movkrin/shp", "a.shp", be32(9994, 0, 0, 0, 0, 0, 50) + le32(1000, 1) + bytes(64)),
    ("movkrin/gettext-mo", "a.mo", le32(0x950412DE, 0, 0, 28, 28, 0, 28)),
    ("movkrin/gettext-mo", "a.mo", be32(0x950412DE, 0x10000, 0, 28, 28, 0, 28) + bytes(20)),
    *[("movkrin/tzif", "a.tzif", b"TZif" + version + bytes(39) + b"\1" + bytes(7)) for version in (b"\0", b"2", b"3", b"4")],
    ("movkrin/torrent", "a.torrent", b"d8:announce19:http://example.org/4:infod6:lengthi1e4:name1:aee"),
    ("movkrin/torrent", "a.torrent", b"d13:announce-listll19:http://example.org/ee4:infodee"),
    ("movkrin/vhd", "a.vhd", bytes(4096) + (b"conectix" + be32(2, 0x10000)).ljust(512, b"\0")),
    ("movkrin/vhdx", "a.vhdx", b"vhdxfile" + "fox".encode("utf-16-le") + bytes(498)),
    ("movkrin/qcow2", "a.qcow2", b"QFI\xfb" + be32(3, 0, 0, 0, 16, 0, 4096) + bytes(72)),
    ("movkrin/vmdk", "a.vmdk", b"KDMV" + le32(1, 3) + bytes(500)),
    ("x-fmt/453", "a.ttf", sfnt(FIXED, 11)),
    ("x-fmt/453", "a.ttf", sfnt(FIXED, 20)),
    ("fmt/520", "a.otf", sfnt(b"OTTO", 9)),
    ("movkrin/ttc", "a.ttc", b"ttcf" + be32(0x10000, 2, 20, 200)),
    ("movkrin/ttc", "a.ttc", b"ttcf" + be32(0x20000, 2, 32, 200, 0, 0, 0)),
    *[("movkrin/woff", "a.woff", woff(b"wOFF", flavour)) for flavour in (FIXED, b"OTTO", b"true")],
    *[("movkrin/type1", "a.pfa", first + FONT + b"0" * 512 + b"\ncleartomark\n") for first in TYPE_1],
    *[("movkrin/pfb", "a.pfb", part(1, first + FONT) + part(2, b"abcd") + b"\x80\3") for first in TYPE_1],
    *[("movkrin/woff2", "a.woff2", woff(b"wOF2", flavour)) for flavour in (FIXED, b"OTTO", b"true", b"ttcf")],
]
