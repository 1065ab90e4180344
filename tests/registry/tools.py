"""Files that the installed tools of this machine make."""

import os
import platform
import shutil
import subprocess
import tempfile
from functools import partial
from http.server import SimpleHTTPRequestHandler, ThreadingHTTPServer
from threading import Thread

from programs_and_data import FONT, TYPE_1
from texts import flat

TEXT = b"The quick brown fox jumps over the lazy dog.\n" * 20
KEY = ["openssl", "genpkey", "-algorithm", "ED25519"]
CERTIFICATE = ["openssl", "req", "-x509", "-newkey", "ed25519", "-nodes", "-keyout", "/dev/null", "-subj", "/CN=fox"]

# a picture of four points, as the Portable Pixmap format has it
POINTS_OF_A_PICTURE = b"P6 2 2 255\n" + bytes(range(12))

# identifier, name, and a command that reads a text and writes the file
FILTERS = [
    ("x-fmt/266", "a.gz", ["gzip", "-c"]),
    ("x-fmt/268", "a.bz2", ["bzip2", "-c"]),
    ("fmt/1098", "a.xz", ["xz", "-c"]),
    ("movkrin/zstd", "a.zst", ["zstd", "-q", "-c"]),
    ("movkrin/lz4", "a.lz4", ["lz4", "-q", "-c"]),
    ("movkrin/lzip", "a.lz", ["lzip", "-c"]),
    ("x-fmt/263", "a.zip", ["zip", "-q", "-", "-"]),
    ("movkrin/pem-key", "a.pem", KEY),
    ("movkrin/pem-certificate", "a.pem", CERTIFICATE),
]
# the same for commands that read a picture
PICTURE_FILTERS = [
    ("fmt/90", "a.pcx", ["ppmtopcx"]),
    ("fmt/90", "a.pcx", ["ppmtopcx", "-24bit"]),
    ("x-fmt/367", "a.tga", ["pamtotga"]),
    ("x-fmt/367", "a.tga", ["pamtotga", "-norle", "-rgb"]),
]


FFMPEG = ["ffmpeg", "-v", "error"]
SOUND = [*FFMPEG, "-f", "lavfi", "-i", "sine=duration=1", "-ac", "2"]
PICTURE = [*FFMPEG, "-f", "lavfi", "-i", "testsrc=duration=0.2:size=64x48"]
PICTURE_JPG = [*PICTURE, "-frames:v", "1", "a.jpg"]
OFFICE = ["soffice", "-env:UserInstallation=file:///FOLDER/settings", "--headless", "--convert-to"]
GHOSTSCRIPT = ["gs", "-q", "-dBATCH", "-dNOPAUSE"]
PDF = [*GHOSTSCRIPT, "-sDEVICE=pdfwrite", "-sOutputFile=a.pdf"]
ARCHIVED = [*PDF, "-dPDFACompatibilityPolicy=1", "-sColorConversionStrategy=RGB"]
PDF_VERSIONS = {
    "1.2": "fmt/16", "1.3": "fmt/17", "1.4": "fmt/18", "1.5": "fmt/19", "1.6": "fmt/20", "1.7": "fmt/276", "2.0": "fmt/1129",
}  # fmt: skip
ARCHIVED_PARTS = [("1", "fmt/354"), ("2", "fmt/477"), ("3", "fmt/480")]
POINTS = ["-oo", "X_POSSIBLE_NAMES=x", "-oo", "Y_POSSIBLE_NAMES=y", "-a_srs", "EPSG:4326"]
INPUTS = {
    "a.txt": TEXT,
    "a.csv": b"name,x,y\nfox,1,2\ndog,3,4\n",
    "a.ps": b"%!PS-Adobe-3.0\n/Times findfont 12 scalefont setfont 72 72 moveto (Fox) show showpage\n",
    "a.pfa": TYPE_1[0] + FONT + b"0123456789abcdef\n" * 16 + (b"0" * 64 + b"\n") * 8 + b"cleartomark\n",
    "slides.fodp": b'<?xml version="1.0" encoding="UTF-8"?>\n' + flat(b"presentation"),
}

# identifier, the file that is made, and the commands that make it, in a folder with the files of INPUTS
MADE = [
    ("movkrin/aac", "a.aac", [[*SOUND, "a.aac"]]),
    ("movkrin/aac", "a.aac", [[*SOUND, "-ar", "22050", "a.aac"]]),
    ("movkrin/mp2", "a.mp2", [[*SOUND, "a.mp2"]]),
    ("movkrin/mp2", "a.mp2", [[*SOUND, "-ar", "22050", "-b:a", "64k", "a.mp2"]]),
    ("movkrin/ac3", "a.ac3", [[*SOUND, "a.ac3"]]),
    ("movkrin/ac3", "a.ac3", [[*SOUND, "-ar", "32000", "a.ac3"]]),
    ("movkrin/eac3", "a.eac3", [[*SOUND, "-ar", "48000", "a.eac3"]]),
    ("fmt/132", "a.wma", [[*SOUND, "a.wma"]]),
    *[("fmt/133", "a.wmv", [[*PICTURE, "-c:v", codec, "a.wmv"]]) for codec in ("wmv1", "wmv2")],
    ("fmt/131", "a.wmv", [[*PICTURE, "-c:v", "msmpeg4v3", "a.wmv"]]),
    ("movkrin/realmedia", "a.rm", [[*SOUND, "-c:a", "ac3", "a.rm"]]),
    ("x-fmt/152", "a.dv", [[*PICTURE, "-target", "pal-dv", "-an", "a.dv"]]),
    ("x-fmt/152", "a.dv", [[*PICTURE, "-target", "ntsc-dv", "-an", "a.dv"]]),
    ("fmt/193", "a.dpx", [[*PICTURE, "-frames:v", "1", "a.dpx"]]),
    ("fmt/90", "a.pcx", [[*PICTURE, "-frames:v", "1", "a.pcx"]]),
    ("fmt/402", "a.tga", [[*PICTURE, "-frames:v", "1", "a.tga"]]),
    ("fmt/574", "a.dcm", [PICTURE_JPG, ["img2dcm", "a.jpg", "a.dcm"]]),
    *[(puid, "a.pdf", [[*PDF, "-dCompatibilityLevel=" + version, "a.ps"]]) for version, puid in PDF_VERSIONS.items()],
    *[(puid, "a.pdf", [[*ARCHIVED, "-dPDFA=" + part, "a.ps"]]) for part, puid in ARCHIVED_PARTS],
    ("movkrin/postscript", "b.ps", [[*GHOSTSCRIPT, "-sDEVICE=ps2write", "-sOutputFile=b.ps", "a.ps"]]),
    ("fmt/124", "b.eps", [[*GHOSTSCRIPT, "-sDEVICE=eps2write", "-sOutputFile=b.eps", "a.ps"]]),
    ("movkrin/pfb", "a.pfb", [["t1binary", "a.pfa", "a.pfb"]]),
    ("movkrin/type1", "b.pfa", [["t1binary", "a.pfa", "a.pfb"], ["t1ascii", "a.pfb", "b.pfa"]]),
    ("movkrin/gml", "a.gml", [["ogr2ogr", "-f", "GML", "a.gml", "a.csv", *POINTS]]),
    ("movkrin/gml", "a.gml", [["ogr2ogr", "-f", "GML", "-dsco", "FORMAT=GML2", "a.gml", "a.csv", *POINTS]]),
    ("movkrin/geopackage", "a.gpkg", [["ogr2ogr", "-f", "GPKG", "a.gpkg", "a.csv", *POINTS]]),
    ("x-fmt/9", "a.dbf", [["ogr2ogr", "-f", "ESRI Shapefile", "a.shp", "a.csv", *POINTS]]),
    ("movkrin/shp", "a.shx", [["ogr2ogr", "-f", "ESRI Shapefile", "a.shp", "a.csv", *POINTS]]),
    ("movkrin/xls", "a.xls", [["ssconvert", "-T", "Gnumeric_Excel:excel_biff8", "a.csv", "a.xls"]]),
    ("movkrin/xls", "a.xls", [["ssconvert", "-T", "Gnumeric_Excel:excel_dsf", "a.csv", "a.xls"]]),
    ("fmt/59", "a.xls", [["ssconvert", "-T", "Gnumeric_Excel:excel_biff7", "a.csv", "a.xls"]]),
    ("movkrin/sylk", "a.slk", [["ssconvert", "a.csv", "a.slk"]]),
    ("movkrin/dif", "a.dif", [["ssconvert", "a.csv", "a.dif"]]),
    ("fmt/40", "a.doc", [[*OFFICE, "doc", "a.txt"]]),
    ("fmt/126", "slides.ppt", [[*OFFICE, "ppt", "slides.fodp"]]),
    ("movkrin/xls", "a.xls", [[*OFFICE, "xls", "a.csv"]]),
    ("movkrin/fodt", "a.fodt", [[*OFFICE, "fodt", "a.txt"]]),
    ("movkrin/fods", "a.fods", [[*OFFICE, "fods", "a.csv"]]),
]


# identifier, and a file of Debian's packages ghostscript and fonts-urw-base35
INSTALLED = [
    ("movkrin/icc", "/usr/share/color/icc/ghostscript/srgb.icc"),
    ("movkrin/icc", "/usr/share/color/icc/ghostscript/default_cmyk.icc"),
    ("movkrin/type1", "/usr/share/fonts/type1/urw-base35/C059-Bold.t1"),
    ("movkrin/pfb", "/usr/share/fonts/X11/Type1/C059-Bold.pfb"),
]


def installed():
    """Yields the files of INSTALLED that are there."""
    for puid, path in INSTALLED:
        if os.path.isfile(path):
            with open(path, "rb") as file:
                yield puid, os.path.basename(path), file.read()


def made():
    """Yields the files of MADE whose commands are installed."""
    for puid, name, commands in MADE:
        if all(shutil.which(command[0]) for command in commands):
            with tempfile.TemporaryDirectory() as folder:
                for input, content in INPUTS.items():
                    with open(os.path.join(folder, input), "wb") as file:
                        file.write(content)
                for command in commands:
                    words = [word.replace("/FOLDER", folder) for word in command]
                    subprocess.run(words, cwd=folder, stdin=subprocess.DEVNULL, capture_output=True, check=True)
                # (a LibreOffice without the part that is needed ends well, and makes nothing)
                if os.path.isfile(os.path.join(folder, name)):
                    with open(os.path.join(folder, name), "rb") as file:
                        yield puid, name, file.read()


def crawled():
    """Yields an archive of a page that wget fetched, if wget is installed."""
    if shutil.which("wget"):
        with tempfile.TemporaryDirectory() as folder:
            os.mkdir(os.path.join(folder, "site"))
            handler = partial(Quiet, directory=os.path.join(folder, "site"))
            with ThreadingHTTPServer(("127.0.0.1", 0), handler) as server:
                Thread(target=server.serve_forever, daemon=True).start()
                page = f"http://127.0.0.1:{server.server_address[1]}/"
                words = ["wget", "-q", "--no-proxy", "--warc-file=a", "--no-warc-compression", page]
                subprocess.run(words, cwd=folder, capture_output=True, check=True)
                server.shutdown()
            with open(os.path.join(folder, "a.warc"), "rb") as file:
                yield "fmt/289", "a.warc", file.read()


class Quiet(SimpleHTTPRequestHandler):
    def log_message(self, *_):
        pass


def filtered():
    for filters, content in ((FILTERS, TEXT), (PICTURE_FILTERS, POINTS_OF_A_PICTURE)):
        for puid, name, command in filters:
            if shutil.which(command[0]):
                yield puid, name, subprocess.run(command, input=content, capture_output=True, check=True).stdout


def compiled(*options):
    """Compiles an empty program, and returns its first bytes, which have its header."""
    with tempfile.TemporaryDirectory() as folder:
        source, made = os.path.join(folder, "fox.c"), os.path.join(folder, "fox")
        with open(source, "w", encoding="ascii") as file:
            file.write("int main(void) { return 0; }\n")
        subprocess.run([os.environ.get("CC") or "cc", *options, "-o", made, source], check=True)
        with open(made, "rb") as file:
            return file.read()[:8192]


def programs():
    """Yields files of the compiler for this processor."""
    if platform.system() == "Linux" and platform.machine() == "x86_64":
        for options in ((), ("-c",), ("-shared", "-fPIC")):
            yield "fmt/690", "a", compiled(*options)
