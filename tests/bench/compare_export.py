"""Exports 100,000 records, half of them folders and half files with one to three formats, and writes the same rows by
Python's csv with every field between double quotes.

Usage: compare_export.py, with the program's path in DROID_DESK and tests/ on Python's path. Prints the
milliseconds from a request for the first byte to its reply, in which the service reads the records and makes the
whole text, those of a processor, those of Python, the ratio and the limit. Both texts have to be the same.
"""
import csv
import io
import sys
import tempfile
import time

from lib.frames import ADD_FILE, ADD_FOLDER, EXPORT, FINISH, FINISHED, LARGEST_PART, MOST_NODES, MOST_UNFINISHED
from lib.frames import NODE, PART, PIECE, TAKEN
from lib.frames import export_body, file_body, folder_body, node_body, piece_body
from measured_run import MeasuredRun, registry_in

# how much of Python's time it takes at most
LIMIT = 0.5
# each byte of a file's content is that of one more format
REGISTRY = b"".join(b"F,bench/%d,Format %d,1.0,application/x-%d,\nS,bench/%d,BOF,%d,%d,%02X\n" % (at, at, at, at, at, at, 97 + at) for at in range(3))
CONTENT = b"abc"


def name(number):
    return b'number %d of "a" & b.txt' % number


def fill(service):
    """Adds folders and files in turn, below two folders."""
    parent = 0
    for folder in (b"some folder", b"another one"):
        (parent,) = service.nodes_of(ADD_FOLDER, [folder_body(folder, parent)])
    for start in range(2, MOST_NODES, 2 * MOST_UNFINISHED):
        numbers = range(start, min(start + 2 * MOST_UNFINISHED, MOST_NODES))
        service.ask_all(ADD_FOLDER, [folder_body(name(it), parent, modified=it) for it in numbers[::2]], NODE)
        contents = [CONTENT[: 1 + it // 2 % 3] for it in numbers[1::2]]
        bodies = [file_body(name(it), len(content), 3, parent, modified=it) for it, content in zip(numbers[1::2], contents)]
        nodes = service.nodes_of(ADD_FILE, bodies)
        service.ask_all(PIECE, [piece_body(node, 0, content) for node, content in zip(nodes, contents)], TAKEN)
        service.ask_all(FINISH, [node_body(node) for node in nodes], FINISHED)


def whole_text(service):
    """Reads the export in parts."""
    text, total = b"", 1
    while len(text) < total:
        body = service.ask(EXPORT, export_body(len(text), LARGEST_PART), PART)
        total = int.from_bytes(body[8:16], "big")
        text += body[16:]
    return text


def main():
    with tempfile.TemporaryDirectory() as place, MeasuredRun(*registry_in(place, REGISTRY)) as service:
        fill(service)
        took, used = service.cost(EXPORT, export_body(most=1), PART)
        text = whole_text(service).decode("utf-8")
    rows = list(csv.reader(io.StringIO(text, newline="")))
    out = io.StringIO(newline="")
    start = time.perf_counter()
    csv.writer(out, quoting=csv.QUOTE_ALL, lineterminator="\n").writerows(rows)
    python = 1_000 * (time.perf_counter() - start)
    if out.getvalue() != text:
        sys.exit("Python's csv writes another text")
    print(f"export: {MOST_NODES} records, {len(rows)} rows, {len(text.encode('utf-8'))} bytes")
    print(f"  the service: {took:.1f} milliseconds to the first byte, {used:.1f} of a processor")
    print(f"  Python's csv: {python:.1f} milliseconds; ratio {used / python:.2f}, limit {LIMIT}", flush=True)


main()
