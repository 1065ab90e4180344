"""`file --mime-type` gives each sample the media type of its format in the registry, if `file` is installed in the
version of these tables; other versions know more or fewer formats."""

import os
import shutil
import subprocess
import tempfile
import unittest

from common import FORMATS, SAMPLES

VERSION = "file-5.44"

# it doesn't know the format, or needs more of a file than the sample has
NOT_KNOWN = {"application/octet-stream", "text/plain"}
NOT_KNOWN_AT_TIMES = """
    dds emf ilbm dvi tzif onenote caf rf64 wavpack swf mpeg-ts dex npy parquet arrow avro netcdf pcapng shp vhd vhdx vmdk
    pbm kml gpx mathml musicxml plist pem-certificate pem-key webvtt cr3 rw2 mrw gml type1
""".split()
NOT_KNOWN_BY_PUID = {"x-fmt/384", "fmt/569", "fmt/573", "x-fmt/409", "fmt/92", "fmt/278", "fmt/720", "x-fmt/280", "x-fmt/281"}

# the same type by its name before it was registered, or by another name
OTHER_NAMES = {
    "movkrin/j2c": "image/x-jp2-codestream",
    "movkrin/x3f": "image/x-x3f",
    **{f"fmt/{number}": "image/x-pcx" for number in range(86, 91)},
    "movkrin/qoi": "image/x-qoi",
    "movkrin/pgm": "image/x-portable-greymap",
    "movkrin/odb": "application/vnd.oasis.opendocument.database",
    "movkrin/lzip": "application/x-lzip",
    "movkrin/rar-4": "application/x-rar",
    "fmt/613": "application/x-rar",
    "fmt/6": "audio/x-wav",
    "movkrin/bwf": "audio/x-wav",
    "movkrin/rf64": "audio/x-wav",
    "movkrin/m4a": "audio/x-m4a",
    "movkrin/aac": "audio/x-hx-aac-adts",
    "movkrin/ac3": "audio/vnd.dolby.dd-raw",
    "movkrin/eac3": "audio/vnd.dolby.dd-raw",
    "x-fmt/152": "video/x-dv",
    "fmt/569": "video/x-matroska",
    "fmt/5": "video/x-msvideo",
    "movkrin/swf": "application/x-shockwave-flash",
    "x-fmt/9": "application/x-dbf",
    "movkrin/dbf": "application/x-dbf",
    "x-fmt/453": "font/sfnt",
    "fmt/520": "application/vnd.ms-opentype",
    "movkrin/pfb": "font/x-postscript-pfb",
}

WORD = "application/vnd.openxmlformats-officedocument."
# it gives the format's container, or a wider or a narrower kind
WIDER_OR_NARROWER = {
    "fmt/935": {"image/png"},
    "movkrin/dng": {"image/tiff"},
    "fmt/202": {"image/tiff"},
    "fmt/132": {"video/x-ms-asf"},
    "fmt/133": {"video/x-ms-asf"},
    "movkrin/arw": {"image/tiff"},
    "movkrin/pef": {"image/tiff"},
    "movkrin/heic": {"image/heif"},
    "fmt/126": {"application/x-ole-storage"},
    "movkrin/pub": {"application/x-ole-storage"},
    "movkrin/vsd": {"application/x-ole-storage"},
    "fmt/412": {"application/zip"},
    "fmt/214": {"application/zip"},
    "fmt/215": {"application/zip"},
    "fmt/523": {WORD + "wordprocessingml.document"},
    "fmt/445": {WORD + "spreadsheetml.sheet"},
    "fmt/487": {WORD + "presentationml.presentation"},
    "fmt/595": {"application/zip"},
    "x-fmt/412": {"application/zip"},
    "movkrin/apk": {"application/zip"},
    "movkrin/siard": {"application/zip"},
    "fmt/161": {"application/zip"},
    "movkrin/key-09": {"application/zip"},
    "movkrin/iwork-09": {"application/zip"},
    "movkrin/iwork": {"application/zip"},
    "movkrin/amr-wb": {"audio/amr"},
    "movkrin/m4a": {"video/mp4"},
    "fmt/199": {"video/x-m4v"},
    "movkrin/ogg": {"video/ogg"},
    "fmt/690": {"application/x-object"},
    "fmt/688": {"application/x-object"},
    "fmt/689": {"application/x-object"},
    "fmt/691": {"application/x-object"},
    "movkrin/geopackage": {"application/vnd.sqlite3"},
    "movkrin/ttc": {"font/ttf"},
    "fmt/96": {"text/xml"},
    "movkrin/xhtml": {"text/xml"},
    "fmt/102": {"text/xml", "text/html"},
    "fmt/103": {"text/xml", "text/html"},
    "x-fmt/280": {"text/xml"},
    "x-fmt/281": {"text/xml"},
    **{"movkrin/" + name: {"text/xml"} for name in "atom rss kml gpx gml mathml musicxml plist fodt fods fodp fodg".split()},
}

# it goes by the content: a picture within a page, a title like that of a page, or a sheet in a presentation
SOMETHING_INSIDE = {
    "fmt/126": "application/vnd.ms-excel",
    "fmt/96": "image/svg+xml",
    "movkrin/xhtml": "image/svg+xml",
    "x-fmt/281": "image/svg+xml",
    "fmt/102": "image/svg+xml",
    "fmt/103": "image/svg+xml",
    "movkrin/atom": "text/html",
    "movkrin/rss": "text/html",
}


def answers_but(puid):
    """Returns what it may say of a format, beside the media type of the registry."""
    known = {*WIDER_OR_NARROWER.get(puid, ())}
    known |= {table[puid] for table in (OTHER_NAMES, SOMETHING_INSIDE) if puid in table}
    if puid in NOT_KNOWN_BY_PUID or puid.removeprefix("movkrin/") in NOT_KNOWN_AT_TIMES:
        known |= NOT_KNOWN
    return known


def installed():
    if shutil.which("file") is None:
        return False
    return subprocess.run(["file", "--version"], capture_output=True, text=True).stdout.startswith(VERSION + "\n")


def said_of(samples):
    """Returns what `file` says of each sample."""
    with tempfile.TemporaryDirectory() as folder:
        paths = []
        for number, (_, name, content) in enumerate(samples):
            paths.append(os.path.join(folder, f"{number}-{name}"))
            with open(paths[-1], "wb") as file:
                file.write(content)
        done = subprocess.run(["file", "--brief", "--mime-type", *paths], capture_output=True, text=True, check=True)
    return done.stdout.splitlines()


@unittest.skipUnless(installed(), f"{VERSION} is not installed")
class MediaTypes(unittest.TestCase):
    def test_file_agrees(self):
        said = said_of(SAMPLES)
        self.assertEqual(len(said), len(SAMPLES))
        others = {puid: set() for puid in FORMATS}
        for (puid, name, content), media_type in zip(SAMPLES, said):
            if media_type.lower() != FORMATS[puid].media_type.lower():
                self.assertIn(media_type, answers_but(puid), (puid, name, content[:80]))
                others[puid].add(media_type)
        for puid, seen in others.items():
            self.assertLessEqual(answers_but(puid) - NOT_KNOWN, seen, (puid, "agrees by now"))
            self.assertEqual(bool(answers_but(puid) & NOT_KNOWN), bool(seen & NOT_KNOWN), (puid, "is known by now"))


if __name__ == "__main__":
    unittest.main()
