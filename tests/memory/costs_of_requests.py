"""The allocations of one request: the counts of a stream with it less those of the stream without it. They have to
be the figures of the file `costs_of_requests` exactly, since the same stream always has the same counts. The request begins with
a read and a turn of its own, so that no other request changes how it is read or how its reply is gathered."""

import os
import struct
import tempfile
import unittest

from allocations import counted, filled, last_frame
from lib.frames import ABANDONED, FINISHED, LARGEST_FILE, LIMITS, MADE, NODE, PART, PROGRESS, REFUSED, TAKEN
from lib.frames import abandon, create, export, file, finish, folder, in_version, piece, status
from lib.session import ALL, KEPT, NOT_KEPT, requests_of

TABLE = os.path.join(os.path.dirname(os.path.abspath(__file__)), "costs_of_requests")

# The session, and its requests once more, which are repeats and queries. After that the database's working rows have
# their final sizes.
BEFORE = requests_of(ALL + KEPT + NOT_KEPT)

# the first number, node and profile after that, and the number of the measured request
NUMBER, NEXT_NODE, NEXT_PROFILE = 100, 8, 6
LAST = 10_000

LONG = b"n" * 255
ESCAPED = b"%" * 255
LARGEST = LIMITS[1].piece
MIDDLE = b"m" * LARGEST
MEBIBYTES = file(NUMBER, b"f", LARGEST_FILE, LARGEST)
LARGEST_OF_2 = LIMITS[2].piece
LARGE_PIECES = in_version(2, file(NUMBER, b"f", LARGEST_FILE, LARGEST_OF_2))
LARGE_MIDDLE = b"m" * LARGEST_OF_2
FORMATS = 4_096


def whole_file(content, count, name=b"f"):
    """Returns the frames of a file with this many pieces of this content."""
    size = len(content)
    pieces = [piece(NUMBER + 1 + index, NEXT_NODE, index, content) for index in range(count)]
    return file(NUMBER, name, count * size, max(size, 1)) + b"".join(pieces)


def waiting(count):
    """Returns the frames of a file with this many pieces that wait for the first one."""
    return MEBIBYTES + b"".join(piece(NUMBER + index, NEXT_NODE, index, MIDDLE) for index in range(1, 1 + count))


def empty_file(hash):
    """Returns the frames of a profile of version 2 with this hash, and of an empty file in it."""
    return create(NUMBER, version=2, hash=hash) + file(NUMBER + 1, b"f", 0, 1, profile=NEXT_PROFILE)


def large_piece(number, index):
    return in_version(2, piece(number, NEXT_NODE, index, LARGE_MIDDLE))


def deep(depth):
    """Returns the frames of folders, each in the one before. Each adds 256 bytes to the path."""
    nodes = [0] + [NEXT_NODE + place for place in range(depth)]
    return b"".join(folder(NUMBER + place, LONG, parent=nodes[place]) for place in range(depth))


def folders(count):
    return b"".join(folder(NUMBER + place, b"%0255d" % place) for place in range(count))


def lists(count, texts, size):
    """Returns criteria of extensions: this many lists of this many texts of this size."""
    return (bytes([3, texts]) + (bytes([size]) + b"x" * size) * texts) * count


# a filter of as many bytes as a frame holds, 1,048,624, and one with the most texts, of 1,040,912
WIDEST = bytes([0, 23]) + lists(16, 255, 255) + lists(1, 16, 255) + b"\7\1" * 6
LONGEST = bytes([0, 255]) + lists(255, 255, 15)

# the requests before it, the request, and the kind of its reply
CASES = {
    "create": (b"", create(LAST), MADE),
    "create_in_version_2": (b"", create(LAST, version=2, hash=2), MADE),
    "folder_of_1_byte": (b"", folder(LAST, b"n"), NODE),
    "folder_of_255_bytes": (b"", folder(LAST, LONG), NODE),
    "folder_of_a_path_of_4096": (deep(15), folder(LAST, LONG, parent=NEXT_NODE + 14), NODE),
    "file_of_no_byte": (b"", file(LAST, b"n", 0, 1), NODE),
    "file_of_2_to_the_40": (b"", file(LAST, b"n", LARGEST_FILE, LARGEST), NODE),
    "file_of_2_to_the_40_in_version_2": (b"", in_version(2, file(LAST, b"n", LARGEST_FILE, LARGEST_OF_2)), NODE),
    "file_of_a_million_pieces": (b"", file(LAST, b"n", LARGEST, 1), NODE),
    "file_with_a_name_of_255": (b"", file(LAST, LONG, 0, 1), NODE),
    "piece_of_1": (file(NUMBER, b"f", 2, 1), piece(LAST, NEXT_NODE, 0, b"a"), TAKEN),
    "piece_of_1048576": (MEBIBYTES, piece(LAST, NEXT_NODE, 0, MIDDLE), TAKEN),
    "piece_that_waits": (MEBIBYTES, piece(LAST, NEXT_NODE, 15, MIDDLE), TAKEN),
    "piece_for_which_15_wait": (waiting(15), piece(LAST, NEXT_NODE, 0, MIDDLE), TAKEN),
    "piece_of_4194304": (LARGE_PIECES, large_piece(LAST, 0), TAKEN),
    "piece_of_4194304_that_waits": (LARGE_PIECES, large_piece(LAST, 15), TAKEN),
    "finish_of_no_piece": (whole_file(b"", 0), finish(LAST, NEXT_NODE), FINISHED),
    "finish_of_1_piece": (whole_file(b"a", 1), finish(LAST, NEXT_NODE), FINISHED),
    "finish_of_300_pieces": (whole_file(b"a", 300), finish(LAST, NEXT_NODE), FINISHED),
    "finish_of_4_mebibytes": (whole_file(MIDDLE, 4), finish(LAST, NEXT_NODE), FINISHED),
    "finish_of_4096_formats": (whole_file(b"", 0, b"f.x"), finish(LAST, NEXT_NODE), FINISHED),
    "finish_without_a_hash": (empty_file(0), in_version(2, finish(LAST, 1, NEXT_PROFILE)), FINISHED),
    "finish_with_md5_in_version_2": (empty_file(1), in_version(2, finish(LAST, 1, NEXT_PROFILE)), FINISHED),
    "finish_with_sha_256": (empty_file(2), in_version(2, finish(LAST, 1, NEXT_PROFILE)), FINISHED),
    "abandon": (MEBIBYTES, abandon(LAST, NEXT_NODE), ABANDONED),
    "abandon_of_15_pieces": (waiting(15), abandon(LAST, NEXT_NODE), ABANDONED),
    "status_of_an_unfinished": (MEBIBYTES, status(LAST, NEXT_NODE), PROGRESS),
    "status_of_a_finished": (b"", status(LAST, 2), PROGRESS),
    "export": (b"", export(LAST), PART),
    "export_of_one_more": (folder(NUMBER, b"n"), export(LAST), PART),
    "export_of_one_more_escaped": (folder(NUMBER, ESCAPED), export(LAST), PART),
    "export_by_the_widest_filter": (b"", export(LAST, criteria=WIDEST), PART),
    "export_by_the_longest_filter": (b"", export(LAST, criteria=LONGEST), PART),
    "export_of_1300_folders_1": (folders(1_300), export(LAST, most=1), PART),
    "export_of_1300_folders_1048576": (folders(1_300), export(LAST), PART),
    "repeat_of_create": (b"", create(1), MADE),
    "repeat_of_folder": (folder(NUMBER, LONG), folder(NUMBER, LONG), NODE),
    "repeat_of_file": (MEBIBYTES, MEBIBYTES, NODE),
    "repeat_of_piece_of_1": (whole_file(b"a", 1), piece(NUMBER + 1, NEXT_NODE, 0, b"a"), TAKEN),
    "repeat_of_piece_of_1048576": (waiting(1), piece(NUMBER + 1, NEXT_NODE, 1, MIDDLE), TAKEN),
    "repeat_of_finish": (b"", finish(6, 2), FINISHED),
    "repeat_of_finish_of_4096_formats": (
        whole_file(b"", 0, b"f.x") + finish(NUMBER + 1, NEXT_NODE),
        finish(NUMBER + 1, NEXT_NODE),
        FINISHED,
    ),
    "repeat_of_abandon": (b"", abandon(9, 3), ABANDONED),
    "repeat_of_piece_of_4194304": (LARGE_PIECES + large_piece(NUMBER + 1, 1), large_piece(NUMBER + 1, 1), TAKEN),
    "number_used_again_in_version_2": (b"", in_version(2, folder(2, b"in")), REFUSED),
    "finish_of_sha_256_in_version_1": (empty_file(2), finish(LAST, 1, NEXT_PROFILE), REFUSED),
    "folder_whose_name_is_taken": (b"", folder(LAST, b"in"), REFUSED),
    "number_used_again": (b"", folder(2, b"out"), REFUSED),
    "request_with_a_byte_too_few": (b"", finish(LAST, 2)[:14] + struct.pack(">I", 7) + bytes(7), REFUSED),
}


def registry(place):
    """Writes a registry with the most formats, each with the longest identifier, all of one extension."""
    path = os.path.join(place, "registry.csv")
    with open(path, "w", encoding="ascii") as records:
        for number in range(FORMATS):
            records.write(f"F,{number:032d},A,,,\nE,{number:032d},x,,,\n")
    return path


def figures():
    """Reads the figures of the file: for each name the number of allocations and their bytes."""
    with open(TABLE, encoding="ascii") as lines:
        rows = [line.split() for line in lines if line.strip() and not line.startswith("#")]
    return {name: tuple(map(int, numbers)) for name, *numbers in rows}


class CostsOfRequests(unittest.TestCase):
    maxDiff = None

    def cost(self, name, options):
        before, request, kind = CASES[name]
        front = filled(BEFORE + before)
        without = counted(front, options)[1]
        written, counts = counted(front + request, options)
        self.assertEqual(last_frame(written)[0], kind, name)
        return tuple(counts.less(without))[:2]

    def test_each_is_as_the_table_has_it(self):
        with tempfile.TemporaryDirectory() as place:
            many_formats = ["--registry", registry(place)]
            found = {name: self.cost(name, many_formats if "4096_formats" in name else []) for name in CASES}
        expected = figures()
        self.assertEqual(expected.keys(), found.keys())
        lines = ["%-34s %6d %9d" % (name, *found[name]) for name in found if found[name] != expected[name]]
        self.assertEqual(lines, [], "these were found:\n" + "\n".join(lines))


if __name__ == "__main__":
    unittest.main()
