"""Names what is missing on this machine for the tests: needs.py. Without a C compiler it ends with status 1; what needs
anything else is left out. With INSTALL=1 in the environment, as root, it installs what is missing by apt-get."""

import os
import shutil
import subprocess
import sys

OFFICE = "libreoffice-writer-nogui libreoffice-calc-nogui libreoffice-impress-nogui"
# the commands of which one is needed, Debian's packages, and what is left out without it
OPTIONAL = [
    (["chromium", "chromium-browser", "chromium-headless-shell", "google-chrome"], "chromium", "the page of `report` in a browser"),
    (["groff"], "groff", "the layout of the manual page"),
    (["file"], "file", "media types beside those of `file`"),
    (["openssl"], "openssl", "keys and certificates, as files to identify"),
    (["rsync"], "rsync", "rsync beside `submit` over a slow link, in tests/bench"),
    *[([name], package, f"files that {name} makes, to identify") for name, package in [("xz", "xz-utils"), ("zstd", "zstd"), ("lz4", "lz4"), ("lzip", "lzip"), ("zip", "zip"), ("bzip2", "bzip2")]],
    *[
        ([name], package, f"files that {name} makes, to identify")
        for name, package in [
            ("ffmpeg", "ffmpeg"), ("ppmtopcx", "netpbm"), ("gs", "ghostscript"), ("img2dcm", "dcmtk"), ("t1binary", "t1utils"),
            ("ogr2ogr", "gdal-bin"), ("ssconvert", "gnumeric"), ("soffice", OFFICE), ("wget", "wget"),
        ]
    ],
]  # fmt: skip
OLDEST = (3, 10)


def missing():
    return [row for row in OPTIONAL if not any(map(shutil.which, row[0]))]


def has_compiler():
    return shutil.which(os.environ.get("CC") or "cc") is not None


def install(packages):
    """Installs Debian packages, and returns whether it could."""
    if os.geteuid() != 0 or not shutil.which("apt-get"):
        print("INSTALL=1 installs by apt-get, as root alone", file=sys.stderr)
        return False
    quiet = {"stdout": subprocess.DEVNULL, "stderr": subprocess.PIPE, "env": {**os.environ, "DEBIAN_FRONTEND": "noninteractive"}}
    for words in (["update", "-qq"], ["install", "-qq", "-y", "--no-install-recommends", *packages]):
        done = subprocess.run(["apt-get", *words], **quiet)
        if done.returncode:
            print(f"apt-get {words[0]} failed: {done.stderr.decode(errors='replace').strip()[-300:]}", file=sys.stderr)
            return False
    return True


def main():
    if sys.version_info < OLDEST:
        sys.exit(f"the tests need Python 3.{OLDEST[1]} or later, and this is {sys.version.split()[0]}")
    packages = [name for _, package, _ in missing() for name in package.split()] + ["gcc", "libc6-dev"] * (not has_compiler())
    if packages and os.environ.get("INSTALL") == "1":
        print(f"installing: {' '.join(packages)}", flush=True)
        install(packages)
    for names, package, what in missing():
        print(f"missing: {names[0]} (Debian's {package}); left out: {what}", flush=True)
    if not has_compiler():
        sys.exit("missing: a C compiler (Debian's package gcc), which the tests need")


if __name__ == "__main__":
    main()
