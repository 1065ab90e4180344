"""Pictures, by their specifications."""

from zlib import compress, crc32

from layout import be16, be32, box, brand, iff, le16, le32, riff


def png_chunk(kind, content=b""):
    return be32(len(content)) + kind + content + be32(crc32(kind + content))


def png(*chunks):
    """A picture of one black point, with chunks between its header and its data."""
    header = png_chunk(b"IHDR", be32(1, 1) + bytes([8, 0, 0, 0, 0]))
    data = png_chunk(b"IDAT", compress(b"\0\0")) + png_chunk(b"IEND")
    return b"\x89PNG\r\n\x1a\n" + header + b"".join(chunks) + data


SRGB = png_chunk(b"sRGB", b"\0")
ICCP = png_chunk(b"iCCP", b"profile\0\0" + compress(b"profile"))
SPLT = png_chunk(b"sPLT", b"palette\0\x08" + bytes(6))
ITXT = png_chunk(b"iTXt", b"Title\0\0\0de\0Titel\0Ein Punkt")
ANIMATED = png_chunk(b"acTL", be32(1, 0))


def gif(version):
    """Header, logical screen of one point with two colours, an image, the trailer."""
    return b"GIF" + version + le16(1, 1) + b"\x80\0\0" + bytes(6) + b"," + le16(0, 0, 1, 1) + b"\0\2\2\x4c\1\0;"


def segment(marker, content):
    return bytes([0xFF, marker]) + be16(2 + len(content)) + content


def jpeg(*segments):
    quantization = segment(0xDB, bytes(65))
    frame = segment(0xC0, b"\x08" + be16(1, 1) + b"\x01\x01\x11\0")
    return b"\xff\xd8" + b"".join(segments) + quantization + frame + b"\xff\xd9"


def jfif(minor):
    return segment(0xE0, b"JFIF\0\1" + bytes([minor, 0]) + be16(1, 1) + b"\0\0")


def exif(little, version=None):
    """APP1 with a TIFF header and one directory, in which ExifVersion is the only tag."""
    n16, n32 = (le16, le32) if little else (be16, be32)
    head = (b"II" if little else b"MM") + n16(42) + n32(8)
    tags = b"" if version is None else n16(0x9000, 7) + n32(4) + version
    return segment(0xE1, b"Exif\0\0" + head + n16(len(tags) // 12) + tags + n32(0))


def tiff(little, *tags):
    """A directory of tags: tag, type, count, value as four bytes."""
    n16, n32 = (le16, le32) if little else (be16, be32)
    head = (b"II" if little else b"MM") + n16(42) + n32(8)
    return head + n16(len(tags)) + b"".join(n16(*tag[:2]) + n32(tag[2]) + tag[3] for tag in tags) + n32(0)


WIDTH = {little: (256, 4, 1, n32(1)) for little, n32 in ((True, le32), (False, be32))}
DNG_VERSION = (50706, 1, 4, bytes([1, 4, 0, 0]))


def bmp(size, compression=0, bits=24):
    """A bitmap of one point, with an information header of this size."""
    sizes = le16(1, 1) if size == 12 else le32(1, 1)
    header = (le32(size) + sizes + le16(1, bits) + le32(compression)).ljust(size, b"\0")[:size]
    return b"BM" + le32(18 + size, 0, 14 + size) + header + bytes(4)


def icon(kind, *planes_and_bits):
    image = le32(40) + le32(1, 2) + le16(1, 32) + bytes(24 + 8)
    return le16(0, kind, 1) + b"\x01\x01\0\0" + le16(*planes_and_bits) + le32(len(image), 22) + image


def photoshop(version):
    return b"8BPS" + be16(version) + bytes(6) + be16(3) + be32(1, 1) + be16(8, 3) + bytes(12) + bytes(5)


def jpeg_2000(kind):
    return box(b"jP  ", b"\r\n\x87\n") + box(b"ftyp", kind, be32(0), kind) + box(b"jp2h")


SIZ = b"\xff\x51" + be16(41, 0) + be32(1, 1, 0, 0, 1, 1, 0, 0) + be16(1) + b"\x07\1\1"
CARDS = [b"SIMPLE  =                    T", b"BITPIX  =                    8", b"NAXIS   =                    0", b"END"]


BITMAP_HEADER = be16(1, 1, 0, 0) + b"\1\0\0\0" + be16(0) + b"\1\1" + be16(1, 1)
END_OF_RECORDS = le32(14, 20, 0, 16, 20)


def targa(kind, bits, content, colours=0, note=b"", sides=(1, 1)):
    """A picture of this image type and these sides."""
    head = bytes([len(note), colours > 0, kind]) + le16(0, colours) + bytes([24 * (colours > 0)])
    return head + le16(0, 0, *sides) + bytes([bits, 0]) + note + content


FOOTER = le32(0, 0) + b"TRUEVISION-XFILE.\0"


def pcx(version):
    """A picture of one black point: header, one scan line in two bytes."""
    header = bytes([10, version, 1, 8]) + le16(0, 0, 0, 0, 72, 72) + bytes(48) + bytes([0, 1]) + le16(2, 1)
    return header.ljust(128, b"\0") + b"\xc2\0"


def dpx(order, version):
    """The file information header, and its image at 2,048 bytes."""
    n32 = be32 if order == b"SDPX" else le32
    return (order + n32(2048) + version.ljust(8, b"\0") + n32(2052, 1, 1664, 384, 0)).ljust(2052, b"\0")


def compressed(little, number):
    """A TIFF file whose first directory says so in the tag Compression."""
    n16 = le16 if little else be16
    return tiff(little, WIDTH[little], (259, 3, 1, n16(number, 0)))


def canon(content=bytes(8)):
    """A TIFF header with the mark of CR2."""
    return b"II" + le16(42) + le32(16) + b"CR\2\0" + le32(0) + content


def brands(puid, name, *majors):
    return [(puid, name, brand(major, b"mif1") + box(b"mdat", bytes(8))) for major in majors]


SAMPLES = [
    ("fmt/3", "a.gif", gif(b"87a")),
    ("fmt/4", "a.gif", gif(b"89a")),
    ("fmt/11", "a.png", png()),
    ("fmt/12", "a.png", png(SRGB)),
    ("fmt/12", "a.png", png(ICCP)),
    ("fmt/12", "a.png", png(png_chunk(b"gAMA", be32(45455)), SPLT)),
    ("fmt/13", "a.png", png(ITXT)),
    ("fmt/13", "a.png", png(SRGB, ITXT)),
    ("fmt/935", "a.apng", png(ANIMATED, png_chunk(b"fcTL", bytes(26)))),
    ("fmt/935", "a.png", png(SRGB, ITXT, ANIMATED)),
    ("fmt/41", "a.jpg", jpeg()),
    ("fmt/41", "a.jpeg", jpeg(segment(0xEE, b"Adobe" + be16(100, 0, 0) + b"\0"))),
    ("fmt/42", "a.jpg", jpeg(jfif(0))),
    ("fmt/43", "a.jpg", jpeg(jfif(1))),
    ("fmt/44", "a.jpg", jpeg(jfif(2))),
    ("movkrin/jpeg-exif", "a.jpg", jpeg(exif(True))),
    ("movkrin/jpeg-exif", "a.jpg", jpeg(exif(False, b"0232"))),
    *[
        (puid, "a.jpg", jpeg(exif(little, version)))
        for puid, version in (("x-fmt/398", b"0200"), ("x-fmt/390", b"0210"), ("x-fmt/391", b"0220"), ("fmt/645", b"0221"))
        for little in (True, False)
    ],
    ("x-fmt/392", "a.jp2", jpeg_2000(b"jp2 ")),
    ("fmt/151", "a.jpx", jpeg_2000(b"jpx ")),
    ("movkrin/j2c", "a.j2c", b"\xff\x4f" + SIZ),
    ("movkrin/jxl", "a.jxl", box(b"JXL ", b"\r\n\x87\n") + brand(b"jxl ") + box(b"jxlc", b"\xff\x0a")),
    ("movkrin/jxl", "a.jxl", b"\xff\x0a\x00\x90\x01\x00\x12\x88"),
    ("movkrin/jxr", "a.jxr", b"II\xbc\x01" + le32(8) + le16(0) + le32(0)),
    ("fmt/353", "a.tif", tiff(True, WIDTH[True])),
    ("fmt/353", "a.tiff", tiff(False, WIDTH[False])),
    ("movkrin/bigtiff", "a.tif", b"II" + le16(43, 8, 0) + bytes([16] + [0] * 7) + bytes(16)),
    ("movkrin/bigtiff", "a.tif", b"MM" + be16(43, 8, 0) + bytes([0] * 7 + [16]) + bytes(16)),
    ("movkrin/dng", "a.dng", tiff(True, WIDTH[True], DNG_VERSION)),
    ("movkrin/dng", "a.dng", tiff(False, WIDTH[False], DNG_VERSION)),
    ("fmt/592", "a.cr2", canon()),
    ("movkrin/cr3", "a.cr3", brand(b"crx ", b"isom") + box(b"moov")),
    ("movkrin/crw", "a.crw", b"II" + le32(26) + b"HEAPCCDR" + le16(2, 1) + bytes(8)),
    ("fmt/202", "a.nef", compressed(True, 34713)),
    ("fmt/202", "a.nef", compressed(False, 34713)),
    ("movkrin/arw", "a.arw", compressed(True, 32767)),
    ("movkrin/pef", "a.pef", compressed(False, 65535)),
    *[("movkrin/orf", "a.orf", mark + bytes(8)) for mark in (b"IIRO" + le32(8), b"IIRS" + le32(8), b"MMOR" + be32(8))],
    ("movkrin/rw2", "a.rw2", b"IIU\0" + le32(24) + bytes.fromhex("88e774d8f8251d4d947a6e77822b5d6a") + bytes(8)),
    ("movkrin/raf", "a.raf", b"FUJIFILMCCD-RAW 0201FF383501" + b"FinePix".ljust(32, b"\0")),
    *[("movkrin/x3f", "a.x3f", b"FOVb" + le16(minor, major) + bytes(32)) for minor, major in ((2, 2), (0, 3), (0, 4))],
    ("movkrin/mrw", "a.mrw", b"\0MRM" + be32(100) + b"\0PRD" + be32(24) + b"21860002" + bytes(16)),
    ("fmt/566", "a.webp", riff(b"WEBP", (b"VP8 ", b"\x30\1\0\x9d\1\x2a" + le16(1, 1) + bytes(6)))),
    ("fmt/567", "a.webp", riff(b"WEBP", (b"VP8L", b"\x2f\0\0\0\0\0"))),
    ("fmt/568", "a.webp", riff(b"WEBP", (b"VP8X", bytes(10)), (b"VP8L", b"\x2f\0\0\0\0\0"))),
    ("movkrin/bmp-core", "a.bmp", bmp(12)),
    ("fmt/116", "a.bmp", bmp(40)),
    ("fmt/117", "a.bmp", bmp(40, 3, 16)),
    ("fmt/118", "a.bmp", bmp(108, 3, 32)),
    ("fmt/119", "a.dib", bmp(124)),
    ("x-fmt/418", "a.ico", icon(1, 1, 32)),
    ("fmt/385", "a.cur", icon(2, 0, 0)),
    ("x-fmt/92", "a.psd", photoshop(1)),
    ("movkrin/psb", "a.psb", photoshop(2)),
    ("movkrin/xcf", "a.xcf", b"gimp xcf file\0" + be32(1, 1, 0, 0) + be32(0, 0, 0, 0)),
    ("movkrin/xcf", "a.xcf", b"gimp xcf v011\0" + be32(1, 1, 0, 150, 0, 0, 0, 0)),
    ("movkrin/exr", "a.exr", le32(20000630, 2) + b"channels\0chlist\0" + le32(1) + b"\0\0"),
    ("movkrin/qoi", "a.qoi", b"qoif" + be32(1, 1) + b"\3\0" + b"\xfe\0\0\0" + bytes(7) + b"\1"),
    ("movkrin/dds", "a.dds", b"DDS " + le32(124, 0x1007, 1, 1) + bytes(108)),
    *[(f"fmt/{86 + place}", "a.pcx", pcx(version)) for place, version in enumerate((0, 2, 3, 4, 5))],
    ("x-fmt/367", "a.tga", targa(2, 24, bytes(3))),
    ("x-fmt/367", "a.tga", targa(10, 24, b"\x80" + bytes(3), note=b"a point")),
    ("x-fmt/367", "a.tga", targa(3, 8, b"\0")),
    ("x-fmt/367", "a.tga", targa(1, 8, bytes(7), colours=2)),
    ("x-fmt/367", "a.tga", targa(9, 8, bytes(768 + 2), colours=256)),
    *[
        ("x-fmt/367", "a.tga", targa(kind, bits, colours + bytes(width * height * bits // 8), len(colours) // 3, sides=(width, height)))
        for width, height in ((1, 256), (256, 1), (256, 256), (300, 2))
        for kind, bits, colours in ((2, 24, b""), (3, 8, b""), (1, 8, bytes(6)))
    ],
    ("fmt/402", "a.tga", targa(3, 8, b"\0" + FOOTER)),
    *[
        (puid, "a.dpx", dpx(order, version))
        for puid, version in (("fmt/193", b"V1.0"), ("fmt/541", b"V2.0"))
        for order in (b"SDPX", b"XPDS")
    ],
    ("movkrin/pbm", "a.pbm", b"P1\n1 1\n0\n"),
    ("movkrin/pbm", "a.pbm", b"P4\n8 1\n\0"),
    ("movkrin/pgm", "a.pgm", b"P5\n# a point\n1 1\n255\n\0"),
    ("movkrin/pgm", "a.pgm", b"P2\r\n1 1\r\n255\r\n0\r\n"),
    ("movkrin/ppm", "a.ppm", b"P6 1 1 255 \0\0\0"),
    ("movkrin/xpm", "a.xpm", b'/* XPM */\nstatic char *fox[] = {\n"1 1 1 1",\n"a c #000000",\n"a"\n};\n'),
    ("movkrin/ilbm", "a.iff", iff(b"ILBM", (b"BMHD", BITMAP_HEADER), (b"BODY", b"\0\0"))),
    ("fmt/255", "a.djvu", b"AT&T" + iff(b"DJVU", (b"INFO", be16(1, 1) + b"\x18\0\x2c\1\x16\1"))),
    ("fmt/255", "a.djv", b"AT&T" + iff(b"DJVM", (b"DIRM", b"\x81\0\0"))),
    ("fmt/574", "a.dcm", bytes(128) + b"DICM" + le16(2, 0) + b"UL" + le16(4) + le32(0)),
    ("x-fmt/383", "a.fits", b"".join(card.ljust(80) for card in CARDS).ljust(2880)),
    *brands("movkrin/heic", "a.heic", b"heic", b"heix", b"heim", b"heis"),
    *brands("movkrin/heif", "a.heif", b"mif1"),
    *brands("movkrin/avif", "a.avif", b"avif", b"avis"),
    ("x-fmt/119", "a.wmf", le32(0x9AC6CDD7) + le16(0, 0, 0, 1, 1, 1440) + bytes(6) + le16(1, 9, 0x300) + bytes(12)),
    ("x-fmt/119", "a.wmf", le16(1, 9, 0x300) + le32(12) + le16(0) + le32(3) + le16(0) + le32(3) + le16(0)),
    ("movkrin/emf", "a.emf", le32(1, 108) + bytes(32) + b" EMF" + le32(0x10000, 128, 2) + bytes(52) + END_OF_RECORDS),
]
