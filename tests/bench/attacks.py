"""Measures the dearest requests that a client can make, of each kind: the time that `run` takes from the request's
last byte to the reply's, and the part of it for which it has a processor.

Usage: attacks.py, with the program's path in DROID_DESK and tests/ on Python's path. Prints milliseconds, for
several requests those of the quickest and of the slowest.
"""

import tempfile

from lib.frames import ABANDON, ABANDONED, ADD_FILE, ADD_FOLDER, CREATE_PROFILE, EXPORT, FINISH, FINISHED
from lib.frames import LARGEST_FILE, LIMITS
from lib.frames import MADE, MD5, MOST_NODES, MOST_UNFINISHED, NODE, PART, PIECE, PROGRESS, REFUSED, SHA256, STATUS
from lib.frames import TAKEN
from lib.frames import export_body, file_body, folder_body, node_body, piece_body, profile_body
from lib.processes import most_resident
from measured_run import DEPTH, MeasuredRun, registry_in

LARGEST_PIECE = LIMITS[1].piece
ROUNDS = 5
NAME = b"n" * 255
# a byte of it takes three in a URI, and two in the CSV's name
ESCAPED = b'"' * 255

# patterns of the greatest length, and how many of them a registry holds
ALTERNATIVES = b"*61(" + b"|".join(b"%02X" % (at % 256) for at in range(1_361)) + b"){0-999}00"
GAPS = b"61" + b"{0-9999}" * 511 + b"00"
LONG_PATTERNS = 4_073
# the longest texts of which a filter holds the most, which differ from the files' extension in their last byte
ALIKE = b"a" * 15
UNMET = b"a" * 14 + b"b"
PUIDS = [b"a" * 11 + b"%04d" % number for number in range(4_096)]

# as many of the longest texts as a frame of version 2 holds, and the extension of files with names of 255 bytes, which
# follows them all in the order of texts, and differs from each only at the end
LONG_LISTS = 64
LONG_EXTENSION = b"a" * 248 + b"b"
LONG_TEXTS = [b"a" * 249 + b"%06d" % number for number in range(LONG_LISTS * 255)]


def many_nodes():
    """Measures requests beside the most nodes."""
    with MeasuredRun() as service:
        parent = service.deep(NAME)
        (waiting,) = service.nodes_of(ADD_FILE, [file_body(b"waiting", LARGEST_FILE, LARGEST_PIECE)])
        room = 10 * ROUNDS
        service.nodes_of(ADD_FOLDER, [folder_body(b"%d" % place) for place in range(MOST_NODES - DEPTH - room)])
        names = [b"%0255d" % place for place in range(2 * ROUNDS)]
        service.measure("CreateProfile", CREATE_PROFILE, [profile_body()] * ROUNDS, MADE)
        folders = [folder_body(name, parent) for name in names[:ROUNDS]]
        service.measure("AddFolder, a name of 255 bytes with a path of 4,096", ADD_FOLDER, folders, NODE)
        whole_frames(service)
        files = [file_body(name, LARGEST_FILE, LARGEST_PIECE, parent) for name in names[ROUNDS:]]
        service.measure("AddFile, the same name, 2^40 bytes", ADD_FILE, files, NODE)
        service.measure("Status", STATUS, [node_body(waiting)] * ROUNDS, PROGRESS)
        fifteen_waiting(service)


def whole_frames(service, of=""):
    """Measures a name and a body of no kind of the greatest length."""
    name = b"n" * (service.most.body - len(folder_body(b"")))
    service.measure(f"AddFolder{of}, a name of {len(name):,} bytes", ADD_FOLDER, [folder_body(name)] * ROUNDS, REFUSED)
    longest = bytes(service.most.body)
    service.measure(f"a frame{of} of no kind, of {len(longest):,} bytes", 9, [longest] * ROUNDS, REFUSED)


def fifteen_waiting(service, of=""):
    """Measures files with as many waiting pieces as possible."""
    size = service.most.piece
    piece = b"p" * size
    nodes = service.nodes_of(ADD_FILE, [file_body(b"p%d" % place, LARGEST_FILE, size) for place in range(ROUNDS)])
    for node in nodes:
        for index in range(1, 16):
            service.ask(PIECE, piece_body(node, index, piece), TAKEN)
    firsts = [piece_body(node, 0, piece) for node in nodes[1:]]
    service.measure(f"Piece of {size >> 20} MiB{of} for which fifteen wait", PIECE, firsts, TAKEN)
    service.measure(f"Abandon with fifteen pieces of {size >> 20} MiB{of} that wait", ABANDON, [node_body(nodes[0])], ABANDONED)
    service.measure(f"Abandon{of}", ABANDON, [node_body(node) for node in nodes[1:]], ABANDONED)


def in_version_2():
    """Measures what is larger in version 2, with each hash."""
    for name, hash in (("MD5", MD5), ("SHA-256", SHA256)):
        with MeasuredRun(version=2, hash=hash) as service:
            fifteen_waiting(service, f" with {name}")
    with MeasuredRun(version=2) as service:
        whole_frames(service, " of version 2")


def unmet(tag):
    """Returns an export of a byte with 255 lists of 255 texts, of which no record has any."""
    texts = bytes([tag, 255]) + (bytes([len(UNMET)]) + UNMET) * 255
    return export_body(most=1, criteria=b"\0\xff" + texts * 255)


def long_lists():
    """Returns the same with lists of the longest extensions, all different."""
    texts = [bytes([len(text)]) + text for text in LONG_TEXTS]
    lists = [b"\3\xff" + b"".join(texts[at : at + 255]) for at in range(0, len(texts), 255)]
    return export_body(most=1, criteria=bytes([0, len(lists)]) + b"".join(lists))


def long_patterns(place):
    """Measures Finish under as many patterns of the greatest length as a registry holds."""
    for what, pattern in (("alternatives", ALTERNATIVES), ("gaps", GAPS)):
        text = b"F,long,A,,,\n" + (b"S,long,BOF,0,65535," + pattern + b"\n") * LONG_PATTERNS
        with MeasuredRun(*registry_in(place, text)) as service:
            body = service.unfinished_file(b"f", b"ab" * 65_536)
            service.measure(f"Finish under 4,073 patterns of 4,096 bytes, of {what}", FINISH, [body], FINISHED)


def many_formats(place):
    """Measures files of the most formats, beside the most folders."""
    text = b"".join(b"F,%s,A,,,\nS,%s,BOF,0,0,61\n" % (puid, puid) for puid in PUIDS)
    with MeasuredRun(*registry_in(place, text)) as service:
        service.nodes_of(ADD_FOLDER, [folder_body(b"%d" % at) for at in range(MOST_NODES - ROUNDS)])
        bodies = [service.unfinished_file(b"f%d" % at, b"a") for at in range(ROUNDS)]
        service.measure("Finish of a file of 4,096 formats", FINISH, bodies, FINISHED)
        service.measure("Export of five such files by 255 lists of 255 PUIDs", EXPORT, [unmet(2)], PART)


def fill_with_files(service, extension):
    """Adds the most empty files, with this extension."""
    for start in range(0, MOST_NODES, MOST_UNFINISHED):
        numbered = range(start, min(start + MOST_UNFINISHED, MOST_NODES))
        nodes = service.nodes_of(ADD_FILE, [file_body(b"%05d.%s" % (at, extension), 0, 1) for at in numbered])
        service.ask_all(FINISH, [node_body(node) for node in nodes], FINISHED)


def many_files(place):
    """Measures exports of the most files, each of one format and with one extension."""
    text = b"F,%s,A,,,\nE,%s,%s,,,\n" % (ALIKE, ALIKE, ALIKE)
    with MeasuredRun(*registry_in(place, text)) as service:
        fill_with_files(service, ALIKE)
        service.measure("Export of 100,000 files", EXPORT, [export_body(most=1)] * 2, PART)
        service.measure("Export of 100,000 files by 255 lists of 255 extensions", EXPORT, [unmet(3)], PART)
        service.measure("Export of 100,000 files by 255 lists of 255 PUIDs", EXPORT, [unmet(2)], PART)


def many_long_files():
    """Measures exports of the most files with the longest extensions."""
    with MeasuredRun(version=2) as service:
        fill_with_files(service, LONG_EXTENSION)
        service.measure("Export of 100,000 files with extensions of 249 bytes", EXPORT, [export_body(most=1)], PART)
        what = "Export of 100,000 files by 64 lists of 255 extensions of 255 bytes"
        service.measure(what, EXPORT, [long_lists()], PART)


def long_paths():
    with MeasuredRun() as service:
        parent = service.deep(ESCAPED)
        names = [b"%05d" % at + ESCAPED[:250] for at in range(MOST_NODES - DEPTH)]
        service.nodes_of(ADD_FOLDER, [folder_body(name, parent) for name in names])
        before = most_resident(service.process)
        service.measure("Export of 100,000 folders with paths of 4,096 bytes", EXPORT, [export_body(most=1)], PART)
        print(f"attacks: with {before} bytes of memory at the most before it, and {most_resident(service.process)} after it")


def main():
    many_nodes()
    in_version_2()
    with tempfile.TemporaryDirectory() as place:
        long_patterns(place)
        many_formats(place)
        many_files(place)
    many_long_files()
    long_paths()


if __name__ == "__main__":
    main()
