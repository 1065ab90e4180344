"""The frames that `submit` sends, each with its number, are those of the definition over Python's own walk."""
import os
import unittest
from unittest import mock

import service as model

from lib.frames import ABANDON, ADD_FILE, ADD_FOLDER, CREATE_PROFILE, EXPORT, FINISH, LARGEST_PART, MD5, PIECE, SCAN_LIMIT
from lib.frames import cut, export_body, file_body, folder_body, node_body, piece_body, profile_body
from lib.lying import Lying, first_of, make_profile, truth
from lib.numbers import number_of, numbered
from lib.program import Serve
from lib.submissions import PIECE as PIECE_SIZE
from lib.submissions import NO_PROFILE, Proxy, WithSmallTree, fault, submit
from lib.trees import walk

CREATE = (0, CREATE_PROFILE, profile_body(SCAN_LIMIT, 2, MD5, 0))
CLIENT = 7


def entry_requests(top, row, profile, before, is_new):
    """Yields the requests for a folder or a file of Python's walk, where the profile had this many entries before."""
    path, name, number = top + row["FILE_PATH"].encode(), row["NAME"].encode(), before + int(row["ID"])
    parent = before + int(row["PARENT_ID"]) if row["PARENT_ID"] else 0
    place = {"parent": parent, "profile": profile, "modified": int(os.stat(path).st_mtime // 1)}
    if row["TYPE"] == "Folder":
        yield 0, ADD_FOLDER, folder_body(name, **place)
        return
    with open(path, "rb") as file:
        content = file.read()
    yield 0, ADD_FILE, file_body(name, len(content), PIECE_SIZE, **place)
    yield 0, FINISH, node_body(number, profile)
    if is_new and content:
        for index, start in enumerate(range(0, len(content), PIECE_SIZE)):
            yield 0, PIECE, piece_body(number, index, content[start : start + PIECE_SIZE], profile)
        yield 0, FINISH, node_body(number, profile)


def tree_requests(top, profile=1, before=0, is_new=True):
    """Returns the requests of a first submission, or of a further one over the same tree."""
    requests = [CREATE]
    for row in walk(top)[0]:
        requests += entry_requests(top, row, profile, before, is_new)
    return [*requests, (0, EXPORT, export_body(profile=profile))]


def begun_with(count):
    """Makes a new profile as one in which this many entries were accepted and abandoned."""

    def lie(service, request):
        made = truth(service, request)
        service.model.profiles[max(service.model.profiles)].accepted = count
        return made

    return first_of(CREATE_PROFILE, lie)


class Definition(unittest.TestCase):
    def test_by_hand(self):
        """Fields of 6, 17 and 20 bits behind a code of 3."""
        self.assertEqual(number_of(b"", 0, PIECE, piece_body(2, 3, b"x")), 4 * 2**43 + 2 * 2**20 + 3)
        self.assertEqual(number_of(b"", 0, FINISH, node_body(1, 64)), 5 * 2**43 + 63 * 2**37 + 2**20)
        self.assertEqual(number_of(b"", 0, ABANDON, node_body(131_071)), 6 * 2**43 + 131_071 * 2**20)
        self.assertEqual(number_of(b"", 0, EXPORT, export_body(5 * LARGEST_PART, profile=2)), 2**37 + 5)

    def test_digests(self):
        """All other numbers are between 2^62 and 2^63, and differ by what is asked."""
        asked = [
            (b"a", 0, CREATE_PROFILE, b""),
            (b"b", 0, CREATE_PROFILE, b""),
            (b"a", 0, ADD_FILE, b"body"),
            (b"a", 1, ADD_FILE, b"body"),
            (b"a", 0, ADD_FOLDER, b"body"),
            (b"a", 0, FINISH, node_body(1, 65)),
            (b"a", 0, FINISH, node_body(131_072)),
            (b"a", 0, EXPORT, export_body(1)),
        ]
        found = {number_of(*request) for request in asked}
        self.assertEqual(len(found), len(asked))
        self.assertTrue(all(1 << 62 <= number < 1 << 63 for number in found), found)
        # the number of a profile depends on the name alone, that of a folder or file not on the name
        self.assertEqual(number_of(b"a", 0, CREATE_PROFILE, b"1"), number_of(b"a", 0, CREATE_PROFILE, b"2"))
        self.assertEqual(number_of(b"a", 0, ADD_FILE, b"body"), number_of(b"b", 0, ADD_FILE, b"body"))


class Sent(WithSmallTree):
    def sent(self, port, *words, due=0, **more):
        """Submits the tree, and returns the frames that went out."""
        with Proxy(port, iter([None])) as proxy:
            status, err = submit(self.top, proxy.port, CLIENT, *words, **more)
        self.assertEqual(status, due, err)
        return list(cut(proxy.sent))

    def due(self, requests, name=None):
        return numbered(CLIENT, os.path.realpath(self.top) if name is None else name, requests)

    def test_first_and_second_run(self):
        self.file(b"/empty.txt", b"")
        first, second = tree_requests(self.top), tree_requests(self.top, is_new=False)
        with Serve.lasting() as service:
            self.assertEqual(self.sent(service.port), self.due(first))
            self.assertEqual(self.sent(service.port), self.due(second))
            # another name makes another profile
            self.assertEqual(self.sent(service.port, "--name", "a deposit"), self.due(tree_requests(self.top, 2), b"a deposit"))

    def test_a_new_entry_shifts_no_number(self):
        with Serve.lasting() as service:
            before = {frame.number for frame in self.sent(service.port)}
            self.file(b"/a.aaa", b"the new first file")
            after = self.sent(service.port)
        content = b"the new first file"
        added = [
            (0, ADD_FILE, file_body(b"a.aaa", len(content), PIECE_SIZE, modified=1_600_000_000)),
            (0, FINISH, node_body(5)),
            (0, PIECE, piece_body(5, 0, content)),
            (0, FINISH, node_body(5)),
        ]
        new = [frame for frame in after if frame.number not in before]
        self.assertEqual(new, self.due(added))

    def test_attempts(self):
        """A file that could not be read was abandoned. It is added again under the next attempt, each time."""
        os.remove(self.top + b"/sub/b.txt")
        os.rmdir(self.top + b"/sub")
        os.remove(self.top + b"/z.bin")
        with open(self.top + b"/a.bin", "rb") as file:
            content = file.read()
        pieces = [content[start : start + PIECE_SIZE] for start in range(0, len(content), PIECE_SIZE)]
        body = file_body(b"a.bin", len(content), PIECE_SIZE, modified=1_000_000_000)
        export = (0, EXPORT, export_body())
        tried = [(0, ADD_FILE, body), (0, FINISH, node_body(1))]
        again = [(1, ADD_FILE, body), (0, FINISH, node_body(2))]
        third = [(2, ADD_FILE, body), (0, FINISH, node_body(3))]
        sent = [(0, PIECE, piece_body(3, index, piece)) for index, piece in enumerate(pieces)] + [(0, FINISH, node_body(3))]
        failing = {"env": os.environ | {"LD_PRELOAD": os.environ["PRELOAD_READS"], "PREAD_FAILS": "2"}}
        with Serve.lasting() as service:
            for requests, more in (
                ([*tried, (0, PIECE, piece_body(1, 0, pieces[0])), (0, ABANDON, node_body(1))], failing | {"due": 5}),
                ([*tried, *again, (0, PIECE, piece_body(2, 0, pieces[0])), (0, ABANDON, node_body(2))], failing | {"due": 5}),
                ([*tried, *again, *third, *sent], {}),
                ([*tried, *again, *third], {}),
            ):
                self.assertEqual(self.sent(service.port, **more), self.due([CREATE, *requests, export]))

    def test_numbers_that_do_not_fit(self):
        """The profile has number 65, or its entries have numbers from 131,072 on. Numbers above 100,000 are none of a profile:
        the CSV that has them is refused at its first row."""
        for profile, before in ((65, 0), (1, 131_071)):
            with mock.patch.multiple(model, MOST_PROFILES=100, MOST_NODES=200_000), Lying(begun_with(before)) as service:
                service.model.profiles = {number: make_profile() for number in range(1, profile)}
                due = (4, fault("Reply", NO_PROFILE % (service.port, 2, "ID"))) if before else (0, b"")
                self.assertEqual(submit(self.top, service.port, CLIENT), due)
                self.assertEqual(service.frames, self.due(tree_requests(self.top, profile, before)))


if __name__ == "__main__":
    unittest.main()
