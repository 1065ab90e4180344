"""Exports the folders of a large profile through the program's `run`, and the same rows by Python's sqlite3 and csv.

Usage: compare_folders_export.py, with the program's path in DROID_DESK and tests/ on Python's path. Prints the
milliseconds of the first part of the export, of each further part and of Python's text, beside the limits. Both
texts have to be the same.
"""
import csv
import datetime
import io
import sqlite3
import sys
import time
import urllib.parse

from lib.frames import ADD_FOLDER, EXPORT, MOST_NODES, NODE, PART, export_body, folder_body
from measured_run import MeasuredRun

FOLDERS = MOST_NODES
LIMIT = 0.35
LIMIT_FURTHER = 0.005
LEAST_RATIO = 3
COLUMNS = (
    "ID PARENT_ID URI FILE_PATH NAME METHOD STATUS SIZE TYPE EXT LAST_MODIFIED EXTENSION_MISMATCH MD5_HASH FORMAT_COUNT"
    " PUID MIME_TYPE FORMAT_NAME FORMAT_VERSION"
).split()


def names():
    """Returns the names of the folders, in no order, each with characters that a URI escapes."""
    return [f"folder {place * 7_919 % FOLDERS} of \"a\" & b" for place in range(FOLDERS)]


def part(service, start):
    """Asks for a part of the export: the length of the whole text, the part, and the seconds that it took."""
    began = time.perf_counter()
    body = service.ask(EXPORT, export_body(start), PART)
    took = time.perf_counter() - began
    return int.from_bytes(body[8:16], "big"), body[16:], took


def export(service):
    """Asks for the whole text in parts, with the seconds of each."""
    total, text, took = part(service, 0)
    pieces, times = [text], [took]
    read = len(text)
    while read < total:
        _, text, took = part(service, read)
        pieces.append(text)
        times.append(took)
        read += len(text)
    return b"".join(pieces), times


def row(place, name):
    """Returns the row of a folder at the top."""
    moment = datetime.datetime.fromtimestamp(place, datetime.timezone.utc).strftime("%Y-%m-%dT%H:%M:%S")
    path = "/" + name
    uri = "file:" + urllib.parse.quote(path) + "/"
    return 1 + place, "", uri, path, name, "", "Done", "", "Folder", "", moment, "false", "", "", "", "", "", ""


def by_python(found):
    """Makes the same text from a table in memory with the spelled rows, and measures the seconds."""
    base = sqlite3.connect(":memory:")
    base.execute(f"create table rows ({COLUMNS[0]} integer primary key, {', '.join(COLUMNS[1:])})")
    places = ", ".join("?" for _ in COLUMNS)
    base.executemany(f"insert into rows values ({places})", (row(place, name) for place, name in enumerate(found)))
    began = time.perf_counter()
    out = io.StringIO(newline="")
    writer = csv.writer(out, quoting=csv.QUOTE_ALL, lineterminator="\n")
    writer.writerow(COLUMNS)
    writer.writerows(base.execute("select * from rows order by ID"))
    text = out.getvalue().encode()
    return text, time.perf_counter() - began


def main():
    found = names()
    with MeasuredRun() as service:
        bodies = [folder_body(name.encode(), modified=place) for place, name in enumerate(found)]
        service.ask_all(ADD_FOLDER, bodies, NODE)
        text, times = export(service)
    same, python = by_python(found)
    if same != text:
        sys.exit("Python writes another text")
    print(f"export of {FOLDERS} folders: {len(text)} bytes in {len(times)} parts")
    print(f"  the first part: {times[0] * 1000:.0f} milliseconds; limit {LIMIT * 1000:.0f}")
    further = sorted(times[1:])
    print(f"  each further part: {further[len(further) // 2] * 1000:.1f} milliseconds by the median; limit {LIMIT_FURTHER * 1000:.0f}")
    print(f"  Python's sqlite3 and csv, the whole: {python * 1000:.0f} milliseconds; {python / times[0]:.1f} times as long, at least {LEAST_RATIO}")


main()
