"""Profiles to try `report` on: random ones, odd ones, and one with 100,000 rows. `verify` takes each of them."""

import calendar
import csv
import io

from numbers_of import NAMES

ODD = [
    "<script>alert(1)</script>", "\"><img src=x onerror=alert(1)>", "&amp;&lt;&#60;", "'", "a\nb\tc\r", "\x01\x1f\x7f", "\u202egpj.exe", "é\u0301", "x" * 255,
    "</title><script>", "</style>", "<!--", "-->", "]]>", "\U0001f4c4", " ", "%3Cscript%3E", "javascript:alert(1)",
]
# the digits of hashes of files, by the name of their column
DIGITS = {"HASH": 0, "MD5_HASH": 1, "SHA256_HASH": 2}
# the numbers of folders that have no row
FOLDERS = {}
HASHES = ["0" * 32, "1" * 32, "b59a94e604faec0d5849fb2179502bac", "d41d8cd98f00b204e9800998ecf8427e", ""]


def written(rows, names=NAMES):
    """Returns a CSV."""
    out = io.StringIO(newline="")
    writer = csv.writer(out, quoting=csv.QUOTE_ALL, lineterminator="\n")
    writer.writerow(names)
    writer.writerows(rows)
    return out.getvalue()


def place_of(path):
    """Returns PARENT_ID and NAME of a path."""
    above, name = path.rsplit("/", 1)
    return FOLDERS.setdefault(above, 2**31 + len(FOLDERS)) if above else "", name


def rows_by(chance, count, hash_name="MD5_HASH"):
    """Yields the rows of a random profile."""
    for number in range(1, count + 1):
        name = chance.choice(ODD) + str(number)
        path = "".join("/" + chance.choice(["a", "b<", "&"]) for _ in range(chance.choice([0, 1, 2, 3, 70]))) + "/" + name
        is_file = chance.random() < 0.8
        formats = chance.choice([0, 1, 1, 1, 2, 3]) if is_file else 0
        method = chance.choice(["Signature", "Extension"]) if formats else ""
        size = chance.choice([0, 1, 3, 4, 1023, 1024, 7, 7, 7, chance.randrange(2**30), chance.randrange(2**40), 2**64 - 1])
        year, month = chance.choice([1, 1970, 1999, 2024, 9999]), chance.randrange(1, 13)
        moment = f"{year:04}-{month:02}-{calendar.monthrange(year, month)[1]}T23:59:{chance.randrange(60):02}" if chance.random() < 0.9 else ""
        digest = chance.choice(HASHES) * DIGITS[hash_name] if is_file else ""
        for _ in range(max(formats, 1)):
            puid = chance.choice(["fmt/", "x-fmt/", "movkrin/", "<b>"]) + str(chance.randrange(20)) if formats else ""
            parent, last = place_of(path)
            yield [
                number, parent, "file:" + path, path, last, method, "Done", size if is_file else "", "File" if is_file else "Folder", "",
                moment, "true" if is_file and number % 7 == 0 else "false",
                digest, formats if is_file else "", puid, "", chance.choice(ODD) if puid else "", "1.0" if puid else "",
            ]


def profile(chance, count, hash_name="MD5_HASH"):
    return written(rows_by(chance, count, hash_name), [hash_name if name == "MD5_HASH" else name for name in NAMES])


def row(number, path, size=1, method="", puid="", moment="2024-01-31T23:59:59", digest="0" * 32):
    parent, name = place_of(path)
    return [number, parent, "file:" + path, path, name, method, "Done", size, "File", "", moment, "false", digest, 1 if puid else 0, puid, "", "", ""]


def many(chance):
    """Returns a profile of 100,000 rows."""
    return written(
        [n, 200_000 + n // 500, f"file:/box-{n // 500}/letter-{n}.txt", f"/box-{n // 500}/letter-{n}.txt", f"letter-{n}.txt", "Extension", "Done", chance.randrange(10**7), "File", "txt",
         f"{chance.randrange(1980, 2027)}-01-31T23:59:59", "false", f"{chance.randrange(90_000):032x}", 1, f"fmt/{chance.randrange(300)}", "text/plain", "Plain Text", "1"]
        for n in range(1, 100_001)
    )


def all_of(chance):
    """Returns profiles by their names. One has a name that no line holds."""
    return {"empty": written([]), "odd": profile(chance, 700), "many": many(chance), "n" * 245: profile(chance, 30)}
