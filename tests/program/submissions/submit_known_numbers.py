"""Requests whose numbers were computed once, by hashlib, from the definition. `submit` sends each of them under its number:
to a service that gives its profile and its entries the numbers that a run names."""
import os
import struct
import unittest
from typing import NamedTuple

from lib.frames import ABANDON, ABANDONED, ADD_FILE, ADD_FOLDER, CAUSES, CREATE_PROFILE, EXPORT, FINISH, LARGEST_PART, MADE
from lib.frames import MD5, MOST_PIECES, NO_HASH, NODE, PART, PIECE, SCAN_LIMIT
from lib.frames import export_body, file_body, folder_body, node_body, numbers, piece_body, profile_body
from lib.lying import Lying, refusing, replying
from lib.numbers import number_of
from lib.submissions import submit
from lib.trees import InFolder

NAME = "/home/ann/Übersicht".encode()
OF_NAME = 5_083_807_469_733_581_610
# the largest pieces of version 2
LARGE = 4 << 20
WHEN = 1_700_000_000


class Run(NamedTuple):
    """A tree, of each path the moment and, of a file, the content; and frames that have to be sent, of each the attempt,
    the kind, the body and the number."""

    tree: dict
    due: list
    words: tuple = ()
    piece: int = LARGE
    # the numbers of the profile and of its entries, in the order in which they are added
    profile: int = 1
    nodes: tuple = (1, 2)
    # the files that were abandoned, and the first piece that any other one lacks
    gone: tuple = ()
    lacks: int = 0


def file_run(number, when=WHEN, content=b"Hello", parent=3, piece=LARGE):
    """Adds one file in a folder of this number."""
    body = file_body(b"a.txt", len(content), piece, parent=parent, modified=when)
    tree = {b"/in": (0, None), b"/in/a.txt": (when, content)}
    return Run(tree, [(0, ADD_FILE, body, number)], piece=piece, nodes=(parent, 9))


RUNS = [
    # the number of CreateProfile depends on the name alone
    Run(
        {b"/data": (0, None), "/Übersicht".encode(): (0, None)},
        [
            (0, CREATE_PROFILE, profile_body(SCAN_LIMIT, 2, MD5, 0), OF_NAME),
            (0, ADD_FOLDER, folder_body(b"data"), 6_524_419_159_346_104_331),
            (0, ADD_FOLDER, folder_body("Übersicht".encode()), 8_769_593_997_408_634_530),
            (0, EXPORT, export_body(), 0),
        ],
    ),
    Run(
        {b"/data": (-1, None)},
        [
            (0, CREATE_PROFILE, profile_body(1, 2, NO_HASH, 1), OF_NAME),
            (0, ADD_FOLDER, folder_body(b"data", modified=-1), 5_069_905_933_868_161_603),
            (0, EXPORT, export_body(LARGEST_PART), 1),
        ],
        words=("--limit", "1", "--match-all", "--hash", "none"),
    ),
    Run(
        {b"/in": (0, None), b"/in/data": (0, None)},
        [(0, ADD_FOLDER, folder_body(b"data", parent=7), 8_231_732_894_983_967_938)],
        nodes=(7, 8),
    ),
    # the same file three times, of which the first two were abandoned: under another attempt it has another number
    Run(
        {b"/in": (0, None), b"/in/a.txt": (WHEN, b"Hello"), "/in/é.txt".encode(): (WHEN, b"Hello")},
        [
            (0, ADD_FILE, file_body(b"a.txt", 5, LARGE, parent=3, modified=WHEN), 9_133_631_392_447_796_102),
            (1, ADD_FILE, file_body(b"a.txt", 5, LARGE, parent=3, modified=WHEN), 7_045_701_259_542_580_876),
            (0, ADD_FILE, file_body("é.txt".encode(), 5, LARGE, parent=3, modified=WHEN), 6_789_302_984_653_089_706),
        ],
        nodes=(3, 9, 10, 11, 12),
        gone=(9, 10),
    ),
    file_run(8_783_940_593_864_547_460, parent=4),
    file_run(5_762_405_143_441_909_522, when=WHEN + 1),
    file_run(4_852_601_290_156_118_303, content=b"Hello!"),
    file_run(5_789_993_750_894_204_005, piece=1 << 20),
    # packed up to profile 64, file 131,071 and index 1,048,575
    Run(
        {b"/a": (0, b"abc")},
        [
            (0, PIECE, piece_body(1, 0, b"abc"), 35_184_373_137_408),
            (0, FINISH, node_body(1), 43_980_466_159_616),
            (0, ABANDON, node_body(1), 52_776_559_181_824),
        ],
    ),
    Run({b"/a": (0, b"a")}, [(0, PIECE, piece_body(1, 0, b"a", 64), 43_843_027_206_144)], profile=64),
    Run(
        {b"/a": (0, b"a"), b"/data": (0, None)},
        [
            (0, ADD_FOLDER, folder_body(b"data", profile=65), 8_973_450_768_886_830_258),
            (0, PIECE, piece_body(1, 0, b"a", 65), 5_060_500_176_758_785_713),
            (0, FINISH, node_body(1, 65), 5_743_939_653_272_763_678),
            (0, ABANDON, node_body(1, 65), 5_225_034_770_577_253_341),
            (0, EXPORT, export_body(profile=65), 5_360_063_315_265_708_155),
        ],
        profile=65,
    ),
    Run({b"/a": (0, b"a")}, [(0, PIECE, piece_body(1, 0, b"a", 0), 8_326_341_739_036_214_459)], profile=0),
    Run(
        {b"/a": (0, b"a"), b"/b": (0, b"a")},
        [
            (0, PIECE, piece_body(131_071, 0, b"a"), 35_321_809_993_728),
            (0, PIECE, piece_body(131_072, 0, b"a"), 6_697_768_088_903_746_434),
        ],
        nodes=(131_071, 131_072),
    ),
    Run(
        {b"/a": (0, b"a" * (MOST_PIECES + 1))},
        [
            (0, PIECE, piece_body(1, 1_048_575, b"a"), 35_184_374_185_983),
            (0, PIECE, piece_body(1, 1_048_576, b"a"), 7_353_747_142_271_176_648),
        ],
        piece=1,
        lacks=MOST_PIECES - 1,
    ),
    Run(
        {b"/a": (0, b"a" * MOST_PIECES)},
        [
            (0, PIECE, piece_body(131_071, 1_048_575, b"a", 64), 43_980_465_111_039),
            (0, FINISH, node_body(131_071, 64), 52_776_557_084_672),
            (0, ABANDON, node_body(131_071, 64), 61_572_650_106_880),
        ],
        piece=1,
        profile=64,
        nodes=(131_071,),
        lacks=MOST_PIECES - 1,
    ),
]


def answering(run):
    """Replies as a run says. Each piece is refused as another one, so its file is abandoned and skipped."""
    nodes = iter(run.nodes)

    def lie(service, request):
        reply = {
            CREATE_PROFILE: lambda: replying(MADE, numbers(run.profile)),
            ADD_FOLDER: lambda: replying(NODE, numbers(next(nodes))),
            ADD_FILE: lambda: replying(NODE, numbers(next(nodes))),
            PIECE: lambda: refusing(CAUSES["NumberReused"]),
            FINISH: lambda: finishing(run, request.body),
            ABANDON: lambda: replying(ABANDONED),
            EXPORT: lambda: exporting(request.body),
        }[request.kind]()
        return reply(service, request)

    return lie


def finishing(run, body):
    _, node = struct.unpack(">II", body)
    return refusing(CAUSES["NoSuchNode"]) if node in run.gone else refusing(CAUSES["Incomplete"], *numbers(run.lacks))


def exporting(body):
    """Sends a part of a text that is no profile. It has two parts, the second of one byte."""
    _, start = struct.unpack_from(">IQ", body)
    return replying(PART, struct.pack(">QQ", 0, LARGEST_PART + 1) + b"I" * (1 if start else LARGEST_PART))


class Known(InFolder):
    def make(self, place, tree):
        self.top = self.work + b"/%d" % place
        os.mkdir(self.top)
        for path, (when, content) in tree.items():
            if content is None:
                self.folder(path)
            else:
                self.file(path, content, when)
        for path in sorted(tree, reverse=True):
            os.utime(self.top + path, (tree[path][0], tree[path][0]))

    def test_definition(self):
        for run in RUNS:
            for attempt, kind, body, number in run.due:
                self.assertEqual(number_of(NAME, attempt, kind, body), number, (attempt, kind, body))

    def test_sent(self):
        for place, run in enumerate(RUNS):
            self.make(place, run.tree)
            with self.subTest(place=place), Lying(answering(run)) as service:
                status, err = submit(self.top, service.port, 7, "--name", NAME, *run.words, piece=run.piece)
                # what came is no profile
                self.assertEqual((status, b"fault: Reply\n" in err), (4, True), err)
                sent = {(frame.kind, frame.body, frame.number) for frame in service.frames}
                self.assertEqual({row[1:] for row in run.due} - sent, set())


if __name__ == "__main__":
    unittest.main()
