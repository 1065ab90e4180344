"""Sound and moving pictures, by their specifications."""

import wave
from io import BytesIO

from layout import be16, be32, be64, box, brand, iff, le16, le32, le64, riff

PCM = le16(1, 1) + le32(8000, 8000) + le16(1, 8)
FORMAT, DATA = (b"fmt ", PCM), (b"data", b"\x80\x80")


def made_wave():
    file = BytesIO()
    with wave.open(file, "wb") as sound:
        sound.setnchannels(1)
        sound.setsampwidth(2)
        sound.setframerate(8000)
        sound.writeframes(bytes(160))
    return file.getvalue()


def extended(value):
    """A whole number as an 80-bit extended value."""
    exponent = value.bit_length() - 1
    return be16(16383 + exponent) + be64(value << (63 - exponent))


COMMON = be16(1) + be32(1) + be16(8) + extended(8000)


def ogg(packet):
    """The first page of a logical stream, with its checksum left at zero."""
    return b"OggS\0\2" + le64(0) + le32(1, 0, 0) + bytes([1, len(packet)]) + packet


VORBIS = b"\1vorbis" + le32(0) + b"\1" + le32(44100, 0, 128000, 0) + b"\xb8\1"
OPUS = b"OpusHead\1\1" + le16(312) + le32(48000) + le16(0) + b"\0"
STREAMINFO = b"\0\0\x22" + be16(4096, 4096) + bytes(6) + bytes.fromhex("0ac440f000000000") + bytes(16)
OGG_FLAC = b"\x7fFLAC\1\0" + be16(1) + b"fLaC\0" + STREAMINFO
SPEEX = b"Speex   " + b"1.2".ljust(20, b"\0") + le32(1, 80, 8000, 0, 4, 1, 0, 160, 0, 1, 0, 0, 0)
THEORA = b"\x80theora\3\2\1" + be16(1, 1) + bytes(30)


def frames(header, length):
    """Four MPEG frames of silence."""
    return (header + bytes(length - 4)) * 4


def sound(header, length, *others):
    """Four frames with this header and of these lengths, of zeros."""
    return b"".join(header + bytes(each - len(header)) for each in (length, *others, length, length))


def adts(first, *lengths):
    """ADTS frames of zeros: LC, 44,100 Hz, two channels, without a checksum (14496-3, 1.A.2.2)."""
    return b"".join(first + b"\x50\x80" + be32(length << 13 | 0x1FFC)[1:] + bytes(length - 7) for length in lengths)


def dif(header):
    """The first blocks of a frame: header, two of subcode, three of VAUX (SMPTE 314M, 4.2)."""
    blocks = [b"\x1f\x07\0" + header + bytes(76)]
    others = ((0x3F, 0), (0x3F, 1), (0x56, 0), (0x56, 1), (0x56, 2))
    blocks += [bytes([first, 7, number]) + bytes(77) for first, number in others]
    return b"".join(blocks)


def real_media(version):
    return b".RMF" + be32(18) + be16(version) + be32(0, 1) + b"PROP" + be32(50) + bytes(42)


def asf(*streams):
    """A header object with stream properties objects: the stream's type, and what is special to it."""
    made = b"".join(
        bytes.fromhex("9107dcb7b7a9cf118ee600c00c205365") + le64(78 + len(special)) + kind + bytes(24)
        + le32(len(special), 0) + le16(1) + le32(0) + special
        for kind, special in streams
    )  # fmt: skip
    return bytes.fromhex("3026b2758e66cf11a6d900aa0062ce6c") + le64(30 + len(made)) + le32(len(streams)) + b"\1\2" + made


def media_audio(tag):
    return bytes.fromhex("409e69f84d5bcf11a8fd00805f5c442b"), le16(tag, 2) + le32(44100, 16000) + le16(743, 16, 0)


def media_video(kind):
    header = le32(40, 64, 48) + le16(1, 24) + kind + bytes(20)
    return bytes.fromhex("c0ef19bc4d5bcf11a8fd00805f5c442b"), le32(64, 48) + b"\2" + le16(40) + header


TAG = b"ID3\4\0\0\0\0\0\x0a" + bytes(10)


def track(division=96):
    event = b"\0\xff\x2f\0"
    return b"MThd" + be32(6) + be16(0, 1, division) + b"MTrk" + be32(len(event)) + event


def ebml(kind, size=lambda length: bytes([0x80 | length])):
    """An EBML header with DocType, and a segment of unknown size."""
    versions = b"\x42\x86\x81\1\x42\xf7\x81\1\x42\xf2\x81\4\x42\xf3\x81\x08"
    body = versions + b"\x42\x82" + size(len(kind)) + kind + b"\x42\x87\x81\4\x42\x85\x81\2"
    return b"\x1a\x45\xdf\xa3" + bytes([0x80 | len(body)]) + body + b"\x18\x53\x80\x67\x01" + b"\xff" * 7


def in_two_bytes(length):
    return bytes([0x40, length])


def in_eight_bytes(length):
    return b"\1" + bytes(6) + bytes([length])


def avi():
    header = le32(40000, 0, 0, 0x10, 1, 0, 1, 0, 1, 1) + bytes(16)
    inner = b"hdrlavih" + le32(len(header)) + header
    return riff(b"AVI ", (b"LIST", inner), (b"LIST", b"movi"))


def transport(before=b""):
    """Six null packets."""
    return (before + b"\x47\x1f\xff\x10" + b"\xff" * 184) * 6


def majors(puid, name, *kinds):
    return [(puid, name, brand(kind, b"isom") + box(b"free") + box(b"mdat", bytes(8))) for kind in kinds]


MP4 = b"isom iso2 iso3 iso4 iso5 iso6 iso7 iso8 iso9 mp41 mp42 avc1 dash".split() + [b"M4V "]
PACK_2 = b"\0\0\1\xba\x44\0\4\0\4\1\0\0\3\xf8"
PACK_1 = b"\0\0\1\xba\x21\0\1\0\1\x80\0\1"
SEQUENCE = b"\0\0\1\xb3\x01\x00\x10\x13\xff\xff\xe0\xa0"
PARTITION = bytes.fromhex("060e2b34020501010d01020101020400") + b"\x83\0\0\x58" + be16(1, 3) + bytes(84)

SAMPLES = [
    ("fmt/6", "a.wav", made_wave()),
    ("movkrin/bwf", "a.wav", riff(b"WAVE", (b"bext", bytes(602)), FORMAT, DATA)),
    ("movkrin/bwf", "a.bwf", riff(b"WAVE", (b"JUNK", bytes(28)), (b"bext", bytes(700)), FORMAT, DATA)),
    ("movkrin/rf64", "a.wav", b"RF64" + le32(0xFFFFFFFF) + b"WAVEds64" + le32(28) + bytes(28)),
    ("movkrin/rf64", "a.bw64", b"BW64" + le32(0xFFFFFFFF) + b"WAVEds64" + le32(28) + bytes(28)),
    ("movkrin/aiff", "a.aif", iff(b"AIFF", (b"COMM", COMMON), (b"SSND", bytes(9)))),
    ("movkrin/aifc", "a.aifc", iff(b"AIFC", (b"FVER", be32(0xA2805140)), (b"COMM", COMMON + b"NONE\0\0"), (b"SSND", bytes(9)))),
    ("x-fmt/139", "a.au", b".snd" + be32(24, 8, 1, 8000, 1) + bytes(8)),
    ("movkrin/caf", "a.caf", b"caff" + be16(1, 0) + b"desc" + be64(32) + bytes(32)),
    ("fmt/279", "a.flac", b"fLaC\x80" + STREAMINFO),
    ("fmt/279", "a.flac", b"fLaC\x00" + STREAMINFO + b"\x81\0\0\0"),
    ("movkrin/wavpack", "a.wv", b"wvpk" + le32(24) + le16(0x410) + b"\0\0" + le32(0, 0, 0, 0, 0)),
    ("fmt/134", "a.mp3", TAG + frames(b"\xff\xfb\x90\x64", 417)),
    ("fmt/134", "a.mp3", frames(b"\xff\xfb\x90\x64", 417)),
    ("fmt/134", "a.mp3", frames(b"\xff\xfb\xe8\x64", 1440)),
    ("fmt/134", "a.mp3", frames(b"\xff\xfa\x14\x64", 96)),
    ("fmt/134", "a.mp3", frames(b"\xff\xf3\x80\xc4", 208)),
    ("fmt/134", "a.mp3", frames(b"\xff\xf2\x14\xc4", 24)),
    ("fmt/134", "a.mp3", frames(b"\xff\xf3\xe8\xc4", 720)),
    # 192 kbit/s at 44,100 Hz, padded at times; 160 at 22,050; 32 at 48,000 with a checksum; 8 at 24,000
    ("movkrin/mp2", "a.mp2", sound(b"\xff\xfd\xa4\0", 626, 627)),
    ("movkrin/mp2", "a.mp2", sound(b"\xff\xf5\xe0\xc0", 1044, 1045)),
    ("movkrin/mp2", "a.mp2", sound(b"\xff\xfc\x14\0", 96)),
    ("movkrin/mp2", "a.mpa", sound(b"\xff\xf4\x14\0", 48)),
    ("movkrin/aac", "a.aac", adts(b"\xff\xf1", 371, 8, 4600, 500)),
    ("movkrin/aac", "a.aac", adts(b"\xff\xf9", 371, 372, 373, 374)),
    # the least and the greatest sizes; 192 kbit/s at 44,100 Hz (A/52, table 5.18)
    ("movkrin/ac3", "a.ac3", sound(b"\x0b\x77\0\0\0\x40", 128)),
    ("movkrin/ac3", "a.ac3", sound(b"\x0b\x77\0\0\xa5\x40", 3840)),
    ("movkrin/ac3", "a.ac3", sound(b"\x0b\x77\0\0\x54\x40", 834, 836)),
    ("movkrin/eac3", "a.eac3", sound(b"\x0b\x77\x01\x7f\x34\x80", 768)),
    ("fmt/203", "a.ogg", ogg(VORBIS)),
    ("fmt/946", "a.opus", ogg(OPUS)),
    ("movkrin/ogg-flac", "a.oga", ogg(OGG_FLAC)),
    ("movkrin/ogg-speex", "a.spx", ogg(SPEEX)),
    ("movkrin/ogg-theora", "a.ogv", ogg(THEORA)),
    ("movkrin/ogg", "a.ogx", ogg(b"fishead\0" + bytes(56))),
    ("fmt/356", "a.amr", b"#!AMR\n" + b"\x7c" + bytes(12)),
    ("movkrin/amr-wb", "a.awb", b"#!AMR-WB\n" + b"\x7c" + bytes(12)),
    ("x-fmt/230", "a.mid", track()),
    *majors("fmt/199", "a.mp4", *MP4),
    *majors("movkrin/m4a", "a.m4a", b"M4A ", b"M4B ", b"M4P "),
    *majors("fmt/357", "a.3gp", b"3gp4", b"3gp6", b"3ge6", b"3gg6", b"3gh9", b"3gr6", b"3gs6"),
    *majors("movkrin/3g2", "a.3g2", b"3g2a", b"3g2b", b"3g2c"),
    *majors("x-fmt/384", "a.mov", b"qt  "),
    ("x-fmt/384", "a.mov", box(b"moov", box(b"mvhd", bytes(100)))),
    ("x-fmt/384", "a.mov", box(b"mdat", bytes(8)) + box(b"moov", box(b"mvhd", bytes(100)))),
    ("x-fmt/384", "a.mov", be32(1) + b"mdat" + be64(24) + bytes(8) + box(b"moov")),
    ("x-fmt/384", "a.mov", box(b"wide") + box(b"mdat", bytes(8)) + box(b"moov")),
    ("fmt/569", "a.mkv", ebml(b"matroska")),
    ("fmt/569", "a.mkv", ebml(b"matroska", in_two_bytes)),
    ("fmt/569", "a.mka", ebml(b"matroska", in_eight_bytes)),
    ("fmt/573", "a.webm", ebml(b"webm")),
    ("fmt/573", "a.webm", ebml(b"webm", in_two_bytes)),
    ("fmt/573", "a.webm", ebml(b"webm", in_eight_bytes)),
    ("fmt/5", "a.avi", avi()),
    ("fmt/131", "a.asf", asf()),
    ("fmt/131", "a.wmv", asf(media_audio(0x55), media_video(b"MP43"))),
    *[("fmt/132", "a.wma", asf(media_audio(tag))) for tag in (0x160, 0x161, 0x162, 0x163)],
    *[("fmt/133", "a.wmv", asf(media_audio(0x161), media_video(kind))) for kind in b"WMV1 WMV2 WMV3 WMVA WVC1".split()],
    ("x-fmt/382", "a.flv", b"FLV\1\5" + be32(9, 0)),
    ("movkrin/swf", "a.swf", b"FWS\x06" + le32(21) + b"\x30\x0a\0\xa0" + le16(0, 1, 0)),
    ("movkrin/swf", "a.swf", b"CWS\x0a" + le32(4000) + b"\x78\x9c" + bytes(20)),
    ("movkrin/swf", "a.swf", b"ZWS\x0d" + le32(4000, 100) + b"\x5d\0\0\x20\0"),
    ("x-fmt/386", "a.mpg", PACK_2 + bytes(20)),
    ("x-fmt/385", "a.mpg", PACK_1 + bytes(20)),
    ("movkrin/mpeg-video", "a.m2v", SEQUENCE + bytes(20)),
    ("movkrin/mpeg-ts", "a.ts", transport()),
    ("movkrin/mpeg-ts", "a.m2ts", transport(bytes(4))),
    ("x-fmt/152", "a.dv", dif(b"\xbf")),
    ("x-fmt/152", "a.dif", dif(b"\x3f")),
    ("movkrin/realmedia", "a.rm", real_media(0)),
    ("movkrin/realmedia", "a.rmvb", real_media(1)),
    *[("movkrin/realaudio", "a.ra", b".ra\xfd" + be16(version) + bytes(40)) for version in (3, 4, 5)],
    ("fmt/200", "a.mxf", PARTITION),
]
