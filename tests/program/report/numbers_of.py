"""What a report has to say of a profile, computed from its CSV alone, with nothing of the program."""

import csv
import io

LIMITS = [200, 100, 50, 20, 5, 0]
MOST_BYTES = 300_000
MOST = 2**64 - 1
NAMES = (
    "ID PARENT_ID URI FILE_PATH NAME METHOD STATUS SIZE TYPE EXT LAST_MODIFIED EXTENSION_MISMATCH MD5_HASH FORMAT_COUNT PUID MIME_TYPE"
    " FORMAT_NAME FORMAT_VERSION"
).split()
UNITS = ["bytes", "KiB", "MiB", "GiB", "TiB", "PiB", "EiB"]
PRONOM = "https://www.nationalarchives.gov.uk/PRONOM/"


def rows_of(text):
    """Returns the rows of a CSV as dictionaries; the hash column is called HASH."""
    names, *rows = csv.reader(io.StringIO(text, newline=""))
    names[12] = "HASH"
    return [dict(zip(names, row)) for row in rows]


def firsts(rows):
    """Returns the first row of each folder or file."""
    kept, last = [], None
    for row in rows:
        if row["ID"] != last:
            kept.append(row)
        last = row["ID"]
    return kept


def shown(text):
    """Returns a text as a page shows it: control characters as their pictures."""
    return "".join(chr(0x2400 + ord(c)) if ord(c) < 32 else "\u2421" if c == "\x7f" else c for c in text)


def size_of(row):
    return int(row["SIZE"] or "0")


def moment_of(row):
    return int("".join(c for c in row["LAST_MODIFIED"] if c in "0123456789") or "0")


def size_class(size):
    """Returns the number of powers of four that are not above a size."""
    return sum(4**power <= size for power in range(32))


def size_name(number):
    if number == 0:
        return "no bytes"
    unit, power = divmod(number - 1, 5)
    return f"from {4**power} {UNITS[unit]}"


def share(number, most):
    return min(min(number * 1000, MOST) // max(most, 1), 1000)


# ---- groups


class Group:
    """Rows with one key: their number, the sum of their sizes, and what the first says."""

    def __init__(self, key, label, first):
        self.key, self.label, self.first = key, label, first
        self.count = self.bytes = 0

    def add(self, size):
        self.count, self.bytes = self.count + 1, min(self.bytes + size, MOST)

    @property
    def saved(self):
        return max(self.bytes - self.first, 0)


def groups(rows, key_of, label_of):
    """Returns the groups by the bytes of their keys. Rows without a key have none."""
    found = {}
    for row in rows:
        key = key_of(row)
        if key:
            if key not in found:
                found[key] = Group(key, label_of(row), size_of(row))
            found[key].add(size_of(row))
    return [found[key] for key in sorted(found, key=lambda key: key.encode())]


def together(some, number_of):
    return min(sum(number_of(group) for group in some), MOST)


# ---- tables: a title, a note, the names of columns, and rows of cells


def words(text):
    return ("words", text)


def amount(number):
    return ("amount", number)


def bar(number):
    return ("bar", number)


def link(puid):
    if puid.startswith(("fmt/", "x-fmt/")):
        return ("link", PRONOM + puid, puid)
    return words(puid)


def more(number, elsewhere):
    return f"{number} more: {elsewhere}" if number > 0 else ""


def classes(title, note, head, files, class_of, name_of, limit):
    counts = {}
    for row in files:
        one = class_of(row)
        if one is not None:
            counts[one] = counts.get(one, 0) + 1
    most = max(counts.values(), default=0)
    rows = [[words(name_of(one)), amount(counts[one]), bar(share(counts[one], most))] for one in sorted(counts)]
    return title, note, [head, "files", "share"], rows[:limit]


def picture(title, unit, ranked, number_of, limit):
    """Returns a picture. Where lists have no row, it has none for a format alone."""
    named = 12 if limit else 0
    first, rest = ranked[:named], ranked[named:]
    numbers = [(group.label, number_of(group)) for group in first]
    if rest:
        numbers.append(("all others", together(rest, number_of)))
    most = max((number for _, number in numbers), default=0)
    rows = [[words(name), amount(number), bar(share(number, most))] for name, number in numbers]
    note = "The twelve largest, and all others." if limit else "All formats together: there is no room for their names."
    return title, note, ["format", unit, "share"], rows


def listed(title, note, files, limit):
    rows = [[words(row["FILE_PATH"]), amount(size_of(row)), words(row["LAST_MODIFIED"])] for row in files[:limit]]
    return title, note, ["path", "bytes", "last change"], rows


def some(title, files, elsewhere, limit, kept=200):
    """Returns a list of at most `kept` of these files, cut at the page's limit, that says how many more there are."""
    rows = files[:kept]
    return listed(title, more(len(files) - min(limit, len(rows)), elsewhere), rows, limit)


class Numbers:
    """All numbers of a profile, each computed once."""

    def __init__(self, text):
        rows = rows_of(text)
        each = firsts(rows)
        self.files = [row for row in each if row["TYPE"] == "File"]
        self.folders = len(each) - len(self.files)
        formats = groups(rows, lambda row: row["PUID"], lambda row: f"{row['FORMAT_NAME']} {row['FORMAT_VERSION']}")
        self.by_files = sorted(formats, key=lambda group: -group.count)
        self.by_bytes = sorted(formats, key=lambda group: -group.bytes)
        equal = groups(self.files, lambda row: row["HASH"] and f"{row['HASH']}, {size_of(row)}", lambda row: row["FILE_PATH"])
        self.equal = sorted((group for group in equal if group.count > 1), key=lambda group: -group.saved)
        self.unidentified = [row for row in self.files if row["METHOD"] == ""]
        self.mismatches = [row for row in self.files if row["EXTENSION_MISMATCH"] == "true"]
        self.several = [row for row in self.files if int(row["FORMAT_COUNT"]) > 1]
        self.largest = sorted(self.files, key=lambda row: -size_of(row))
        dated = [row for row in self.files if row["LAST_MODIFIED"]]
        self.oldest = sorted(dated, key=moment_of)[:20]
        self.newest = sorted(dated, key=lambda row: -moment_of(row))[:20]

    def totals(self):
        files = self.files
        return [
            ("folders", self.folders),
            ("files", len(files)),
            ("bytes", min(sum(map(size_of, files)), MOST)),
            ("files identified by a signature", sum(row["METHOD"] == "Signature" for row in files)),
            ("files identified by their extension alone", sum(row["METHOD"] == "Extension" for row in files)),
            ("files that were not identified", len(self.unidentified)),
            ("files with an unexpected extension", len(self.mismatches)),
            ("files with several formats", len(self.several)),
            ("files without bytes", sum(size_of(row) == 0 for row in files)),
            ("formats", len(self.by_files)),
            ("copies of other files", sum(group.count - 1 for group in self.equal)),
            ("bytes of these copies", together(self.equal, lambda group: group.saved)),
        ]

    def tables(self, limit):
        """Returns the tables of the page with at most this many rows in each list."""
        formats, equal = self.by_files, self.equal
        return [
            ("Totals", "", ["what", "number"], [[words(name), amount(number)] for name, number in self.totals()]),
            picture("Formats by number of files", "files", formats, lambda group: group.count, limit),
            picture("Formats by bytes", "bytes", self.by_bytes, lambda group: group.bytes, limit),
            classes(
                "Years", "When files were last changed. Files without a date are not in it.", "year", self.files,
                lambda row: min(int(row["LAST_MODIFIED"][:4]), 9999) if row["LAST_MODIFIED"] else None, str, limit,
            ),
            classes("Sizes", "Files by size, from each power of four to the next.", "size", self.files, lambda row: size_class(size_of(row)), size_name, 65),
            classes(
                "Depth", "How many slashes the paths of files have.", "slashes", self.files,
                lambda row: min(row["FILE_PATH"].count("/"), 64), lambda one: "64 or more" if one == 64 else str(one), 65,
            ),
            (
                "All formats", more(len(formats[limit:]), "see PUID in the CSV"), ["PUID", "name and version", "files", "bytes"],
                [[link(group.key), words(group.label), amount(group.count), amount(group.bytes)] for group in formats[:limit]],
            ),
            (
                "Equal files", more(len(equal[limit:]), "sort the CSV by its hash"), ["first file", "hash, size in bytes", "files", "bytes of the copies"],
                [[words(group.label), words(group.key), amount(group.count), amount(group.saved)] for group in equal[:limit]],
            ),
            some("Not identified", self.unidentified, "rows of the CSV with TYPE File and no PUID", limit),
            some("Unexpected extensions", self.mismatches, "rows of the CSV with EXTENSION_MISMATCH true", limit),
            some("Several formats", self.several, "rows of the CSV with FORMAT_COUNT above 1", limit),
            some("Largest files", self.largest, "sort the CSV by SIZE", limit, 50),
            listed("Oldest files", "By the last change.", self.oldest, limit),
            listed("Newest files", "By the last change.", self.newest, limit),
        ]


# ---- the page's text


def escaped(text):
    for letter, reference in (("&", "&amp;"), ("<", "&lt;"), (">", "&gt;"), ('"', "&quot;")):
        text = text.replace(letter, reference)
    return shown(text)


def cell_text(cell):
    kind, *parts = cell
    if kind == "words":
        return f"<td><bdi>{escaped(parts[0])}</bdi></td>"
    if kind == "link":
        return f'<td><a href="{escaped(parts[0])}" rel="noreferrer">{escaped(parts[1])}</a></td>'
    if kind == "amount":
        return f'<td class="n">{parts[0]}</td>'
    return (
        '<td class="b"><svg viewbox="0 0 1000 20" preserveaspectratio="none" aria-hidden="true">'
        f'<rect width="{parts[0]}" height="20"></rect></svg></td>'
    )


def table_text(table):
    title, note, heads, rows = table
    heads = "".join(f'<th scope="col">{escaped(head)}</th>' for head in heads)
    rows = "".join("<tr>" + "".join(map(cell_text, row)) + "</tr>" for row in rows)
    return f"<section><h2>{escaped(title)}</h2><p>{escaped(note)}</p><table><thead><tr>{heads}</tr></thead><tbody>{rows}</tbody></table></section>"


def body_text(title, about, tables):
    return f"<main><h1>{escaped(title)}</h1><p>{escaped(about)}</p>" + "".join(map(table_text, tables)) + "</main>"


def fitting(numbers, title, about, around):
    """Returns the tables and the body of the page with the first limit that makes it small enough; `around` bytes stand
    around its body."""
    for limit in LIMITS:
        tables = numbers.tables(limit)
        body = body_text(title, about, tables)
        if limit == 0 or around + len(body.encode()) <= MOST_BYTES:
            return tables, body
