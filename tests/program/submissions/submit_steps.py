"""At each request of a submission the connection breaks, or the submission ends and is resumed, or the service loses what it
had; and runs one after the other, of which all is counted. The frames on a new connection are those of a whole run: the
requests that are known, and what has no reply."""
import contextlib
import os
import select
import unittest
from concurrent.futures import ThreadPoolExecutor

from lib.connections import read_frame
from lib.frames import ABANDON, ADD_FILE, ADD_FOLDER, CAUSES, CREATE_PROFILE, EXPORT, FINISH, PIECE, REFUSED, UNFINISHED, Frame
from lib.frames import cut, numbers
from lib.lying import Close, Lying, at, closing, cutting, first_of, make_profile, refusing, truth
from lib.submissions import WithExport, submit
from lib.trees import SKIPPED, lines

# how many runs at a time
AT_ONCE = 6
# a client has at most this many requests without a reply, in pieces of this size
MOST, PIECE_SIZE = 16, 4
# nothing more has to come in this time
QUIET = 0.05

MANY = b"message digest of many a piece, each of four bytes, and more of them than are under way at once"
FIRST = {b"/d": None, b"/d/more": b"abcde", b"/z": b"z"}
# folders, and files with their content; all are of 1970
TREES = {
    # files of 0 bytes, 1 byte, one piece, and one byte more, and a file of many pieces in a folder
    "small": {b"/d": None, b"/d/more": b"abcde", b"/empty": b"", b"/one": b"a", b"/d/piece": b"abcd", b"/d/many": MANY},
    # a file of eighteen pieces: more than are in flight at once
    "eighteen": {b"/a": b"message digest, of more pieces than are under way at once, by four byte"},
    "first": FIRST,
    # with a longer file, and with two more files, before and behind the others
    "longer": FIRST | {b"/d/more": b"abcdefg"},
    "wider": FIRST | {b"/a": b"a", b"/d/new": b"n"},
    "two": {b"/a": b"a", b"/b": b"b"},
}
# what the files of the small tree have, in the order in which they are sent: a Finish follows the pieces
BATCHES = {"one": 2, "many": 16, "the rest of many": 9, "more": 3, "piece": 2}
OPTIONS = ("--name", "a deposit", "--hash", "sha256", "--limit", "65536")

HEAD = (
    b'"ID","PARENT_ID","URI","FILE_PATH","NAME","METHOD","STATUS","SIZE","TYPE","EXT","LAST_MODIFIED","EXTENSION_MISMATCH",'
    b'"SHA256_HASH","FORMAT_COUNT","PUID","MIME_TYPE","FORMAT_NAME","FORMAT_VERSION"\n'
)
SMALL_TEXT = HEAD + b"""\
"1","","file:/d/","/d","d","","Done","","Folder","","1970-01-01T00:00:00","false","","","","","",""
"2","","file:/empty","/empty","empty","","Done","0","File","","1970-01-01T00:00:00","false","e3b0c44298fc1c149afbf4c8996fb92427ae41e4649b934ca495991b7852b855","0","","","",""
"3","","file:/one","/one","one","","Done","1","File","","1970-01-01T00:00:00","false","ca978112ca1bbdcafac231b39a23dc4da786eff8147c4e72b9807785afee48bb","0","","","",""
"4","1","file:/d/many","/d/many","many","Signature","Done","95","File","","1970-01-01T00:00:00","false","c89f457dd54a5d84ccc3064b5eb7581ab5ac3878afe6df1ed6af4dcf1a6b9206","2","dev/1","","Message","1"
"4","1","file:/d/many","/d/many","many","Signature","Done","95","File","","1970-01-01T00:00:00","false","c89f457dd54a5d84ccc3064b5eb7581ab5ac3878afe6df1ed6af4dcf1a6b9206","2","dev/3","","Letters",""
"5","1","file:/d/more","/d/more","more","Signature","Done","5","File","","1970-01-01T00:00:00","false","36bbe50ed96841d10443bcb670d6554f0a34b761be67ec9c4a8ad2c0c44ca42c","1","dev/3","","Letters",""
"6","1","file:/d/piece","/d/piece","piece","Signature","Done","4","File","","1970-01-01T00:00:00","false","88d4266fd4e6338d13b845fcf289579d209c897823b9217da3e161936f031589","1","dev/3","","Letters",""
"""
EIGHTEEN_TEXT = HEAD + b"""\
"1","","file:/a","/a","a","Signature","Done","71","File","","1970-01-01T00:00:00","false","af167cab139e45a841241d794add92d0a310b6407921fbccb810d515743e84fa","2","dev/1","","Message","1"
"1","","file:/a","/a","a","Signature","Done","71","File","","1970-01-01T00:00:00","false","af167cab139e45a841241d794add92d0a310b6407921fbccb810d515743e84fa","2","dev/3","","Letters",""
"""
FIRST_TEXT = HEAD + b"""\
"1","","file:/d/","/d","d","","Done","","Folder","","1970-01-01T00:00:00","false","","","","","",""
"2","","file:/z","/z","z","","Done","1","File","","1970-01-01T00:00:00","false","594e519ae499312b29433b7dd8a97ff068defcba9755b6d5d00e84c524d67b06","0","","","",""
"4","1","file:/d/more","/d/more","more","Signature","Done","5","File","","1970-01-01T00:00:00","false","36bbe50ed96841d10443bcb670d6554f0a34b761be67ec9c4a8ad2c0c44ca42c","1","dev/3","","Letters",""
"""

# how many requests a submission of the small tree makes, with an export, and how many pieces are among them
REQUESTS, PIECES = 45, 28
# and one of the file of eighteen pieces
REQUESTS_OF_EIGHTEEN = 23

EMPTY, LAST = "a new service", "the service of the row before"
NO_PLACE = refusing(CAUSES["LimitReached"], UNFINISHED)
# A service, a lie or None, a tree, the file that can't be read, and options; and what comes of it: the status; how many
# requests came before the export, and how many of these were pieces; the connections, and the most requests without a
# reply; the folders and files that were taken, and the bytes that were read; what was skipped; the export, where it is
# looked at. The requests for a new profile: one for it, one for each folder, an AddFile and a Finish for each file, and if it
# is not empty one more Finish, which is Incomplete, and its pieces.
RUNS = [
    (EMPTY, None, "small", None, (), (0, 44, 28, 1, 16, 6, 105, []), SMALL_TEXT),
    # nothing that the service holds is read or sent again
    (LAST, None, "small", None, (), (0, 12, 0, 1, 1, 6, 0, []), SMALL_TEXT),
    (EMPTY, None, "first", None, (), (0, 11, 3, 1, 3, 3, 6, []), None),
    # another file of a name is skipped, and the walk goes on
    (LAST, None, "longer", None, (), (5, 5, 0, 1, 1, 2, 0, [b"/d/more: changed since it was submitted"]), None),
    # what is new is sent, and what was there is not
    (LAST, None, "wider", None, (), (0, 14, 2, 1, 2, 5, 2, []), None),
    # a file that can't be read is abandoned, and added again when it can be read
    (EMPTY, None, "first", "more", (), (5, 9, 1, 1, 2, 2, 1, [b"/d/more: it could not be opened or read"]), None),
    (LAST, None, "first", None, (), (0, 11, 2, 1, 3, 3, 5, []), FIRST_TEXT),
    # while it waits for a place, the client gives its connection up; on the new one the requests for the profile and the
    # folder come again first
    (EMPTY, first_of(ADD_FILE, NO_PLACE), "small", None, (), (0, 47, 28, 2, 16, 6, 105, []), SMALL_TEXT),
    # where no place comes free, there is a connection for each try: after 0, 0.05, 0.1, 0.2, 0.4 and 0.8 seconds
    (EMPTY, first_of(ADD_FILE, NO_PLACE, 1_000), "small", None, ("--wait", "1"), (4, 18, 0, 6, 1, 1, 0, []), None),
]


class Counting(Lying):
    """Reads all pieces that can be in flight, and the Finish behind them, before it replies: `most` has the greatest number
    of requests that were in flight at once."""

    def __init__(self, lie=None):
        super().__init__(lie)
        self.most = 0
        # where each batch begins in `frames`, and where not all of one gets a reply: its number, and how many replies
        self.batches = []
        self.cut = None

    def serve(self, stream):
        if self.cut and self.connections > 1:
            return super().serve(stream)
        try:
            while batch := self.batch(stream):
                self.frames += batch
                self.most = max(self.most, len(batch))
                replies = [self.lie(self, request) for request in batch]
                if len(batch) > 1:
                    self.batches.append(len(batch))
                is_cut = self.cut and len(batch) > 1 and len(self.batches) == self.cut[0]
                stream.sendall(b"".join(replies[: self.cut[1]] if is_cut else replies))
                if is_cut:
                    return
        except OSError:
            # the client is gone
            return

    def batch(self, stream):
        """Reads the next request, and all that can be in flight with it."""
        first = read_frame(stream, 2)
        found = [Frame(2, *first)] if first else []
        if found and found[0].kind == PIECE:
            _, file, index = (int.from_bytes(found[0].body[at : at + 4], "big") for at in (0, 4, 8))
            left = self.model.profiles[1].nodes[file].count() - index
            found += [Frame(2, *read_frame(stream, 2)) for _ in range(min(MOST - 1, left))]
            assert not select.select([stream], [], [], QUIET)[0], "too many are in flight"
        return found


class Steps(WithExport):
    def setUp(self):
        super().setUp()
        for name, tree in TREES.items():
            top = self.work + b"/" + name.encode()
            os.mkdir(top)
            for path, content in tree.items():
                if content is None:
                    os.mkdir(top + path)
                else:
                    with open(top + path, "wb") as file:
                        file.write(content)
            for path in sorted(tree, reverse=True):
                os.utime(top + path, (0, 0))

    def submit(self, service, tree, export, *words, **more):
        """Submits a tree: the status, standard error, and the export or None."""
        path = self.work + b"/%s.csv" % export.encode()
        ended = submit(self.work + b"/" + tree.encode(), service.port, 7, *OPTIONS, "--export", path, *words, piece=PIECE_SIZE, **more)
        if not os.path.exists(path):
            return *ended, None
        with open(path, "rb") as file:
            text = file.read()
        os.remove(path)
        return *ended, text

    def unbroken(self, tree, count):
        """Returns the frames of a whole run, and before each the last change of a node that has a reply, or None."""
        changes, last = [], None

        def noting(service, request):
            nonlocal last
            changes.append(last)
            reply = truth(service, request)
            if request.kind in (ADD_FOLDER, ADD_FILE, FINISH, ABANDON) and next(cut(reply)).kind != REFUSED:
                last = request
            return reply

        with Lying(noting) as service:
            self.assertEqual(self.submit(service, tree, tree)[:2], (0, b""))
        self.assertEqual(len(service.frames), count)
        return service.frames, changes

    def each(self, check, rows):
        with ThreadPoolExecutor(AT_ONCE) as pool:
            list(pool.map(lambda row: check(*row), rows))


def known(frames, changes, place):
    """Returns the requests that come first on a connection after a break at this place, counted from 1."""
    return [frame for frame in (frames[0] if place > 1 else None, changes[place - 1]) if frame]


def first_in_flight(frames, place):
    """Returns the first request that may be in flight with that at this place."""
    first = place
    while first > max(1, place - MOST + 1) and frames[first - 2].kind == PIECE:
        first -= 1
    return first


class Broken(Steps):
    def setUp(self):
        super().setUp()
        self.frames, self.changes = self.unbroken("small", REQUESTS)

    def due(self, place):
        """Returns what is sent on a connection after a break, where the request at this place has no reply."""
        return known(self.frames, self.changes, place) + self.frames[place - 1 :]

    def test_at_each_request(self):
        """Before the service does what is asked, and in the middle of its reply."""
        self.each(self.broken, [(lie, place) for lie in (closing, cutting) for place in range(1, REQUESTS + 1)])

    def broken(self, lie, place):
        with Lying(at(place, lie)) as service:
            ended = self.submit(service, "small", f"{lie.__name__}{place}")
        self.assertEqual((*ended, service.connections), (0, b"", SMALL_TEXT, 2), place)
        # of requests that are in flight together, earlier replies may be lost too
        due = [self.due(lost) for lost in range(first_in_flight(self.frames, place), place + 1)]
        self.assertIn(service.frames[place:], due, place)

    def test_replies_lost(self):
        """All requests in flight arrive, and some of their replies are lost: the first of many, or any of a few."""
        sizes = list(BATCHES.values())
        self.each(self.lost, [(batch, replies) for batch, size in enumerate(sizes, 1) for replies in range(size if size < MOST else 1)])

    def lost(self, batch, replies):
        with Counting() as service:
            service.cut = batch, replies
            ended = self.submit(service, "small", f"lost{batch}_{replies}")
        self.assertEqual((*ended, service.connections), (0, b"", SMALL_TEXT, 2), (batch, replies))
        self.assertEqual(service.batches, list(BATCHES.values())[:batch])
        again = service.frames[service.frames.index(self.frames[0], 1) :]
        place = len(service.frames) - len(again) - service.batches[-1] + 1 + replies
        self.assertEqual(again, self.due(place), (batch, replies))

    def test_short_connections(self):
        """Each connection breaks after some requests, before or after the next one arrives. Three are enough: two that are
        known, and one more, since a new connection begins with one frame alone."""
        self.each(self.short, [(count, arrives) for count in (3, 4, 5) for arrives in (False, True)])

    def short(self, count, arrives):
        came = []

        def lie(service, request):
            if len(came) < service.connections:
                came.append([])
            came[-1].append(request)
            if len(came[-1]) <= count:
                return truth(service, request)
            if arrives:
                truth(service, request)
            raise Close

        with Lying(lie) as service:
            ended = self.submit(service, "small", f"short{count}{arrives}")
        self.assertEqual(ended, (0, b"", SMALL_TEXT), (count, arrives))
        if count == 3:
            # each connection but the first one brings one reply that was not there before
            due = [self.due(place)[:4] for place in (1, *range(4, REQUESTS + 1))]
            self.assertEqual(came, due, arrives)

    def test_ended_and_resumed(self):
        """A submission that ends at each request is resumed. No piece that arrived is sent again."""
        self.each(self.resumed, [(place,) for place in range(1, REQUESTS)])

    def resumed(self, place):
        arrived = 0

        def gone(service, request):
            nonlocal arrived
            if len(service.frames) >= place:
                raise Close
            arrived += request.kind == PIECE
            return truth(service, request)

        with Lying(gone) as service:
            early = self.submit(service, "small", f"ended{place}", "--wait", "0")
            self.assertEqual((early[0], early[1].split(b"\n")[0], early[2]), (4, b"fault: Broken", None), place)
            service.lie, before = truth, len(service.frames)
            self.assertEqual(self.submit(service, "small", f"ended{place}"), (0, b"", SMALL_TEXT), place)
        sent = sum(frame.kind == PIECE for frame in service.frames[before:])
        self.assertEqual(arrived + sent, PIECES, place)


def forgetting(service, request):
    """Loses everything. Then the request arrives, and its reply is lost."""
    service.forget()
    truth(service, request)
    raise Close


class Forgotten(Steps):
    """(submit_restarted has more)"""

    def test_at_each_request(self):
        """It is noticed exactly if the run has done more than it does again: the profile and the first folder have the same
        numbers again, and the fourth request is for the second node."""
        self.frames, self.changes = self.unbroken("small", REQUESTS)
        self.each(self.forgotten, [(place,) for place in range(1, REQUESTS)])

    def forgotten(self, place):
        with Lying(at(place, forgetting)) as service:
            status, err, text = self.submit(service, "small", f"forgotten{place}")
        if place < 4:
            self.assertEqual((status, err, text), (0, b"", SMALL_TEXT), place)
            return
        self.assertEqual((status, err.split(b"\n")[0], text), (4, b"fault: Restarted", None), place)
        # the new service gets the requests that are known, and no other
        again = service.frames[place:]
        self.assertIn(again, [known(self.frames, self.changes, lost) for lost in range(first_in_flight(self.frames, place), place + 1)])

    def test_while_the_first_file_is_sent(self):
        """The loss of its pieces is noticed since one is too far ahead, or at Finish; or all are sent to the new service,
        which gives the profile and the file the same numbers. The next run sends what is missing."""
        self.each(self.lacking, [(place,) for place in range(1, REQUESTS_OF_EIGHTEEN)])

    def lacking(self, place):
        with Lying(at(place, forgetting)) as service:
            status, err, text = self.submit(service, "eighteen", f"lacking{place}")
            is_noticed = err.split(b"\n")[0] in (b"fault: Restarted", b"fault: Incomplete", b"fault: TooFarAhead")
            self.assertEqual((status, text), (4, None) if is_noticed else (0, EIGHTEEN_TEXT), (place, err))
            service.lie, before = truth, len(service.frames)
            self.assertEqual(self.submit(service, "eighteen", f"lacking{place}"), (0, b"", EIGHTEEN_TEXT), place)
        is_sent = any(frame.kind == PIECE for frame in service.frames[before:])
        self.assertTrue(is_noticed or not is_sent, place)


class Paused(Steps):
    """A file was abandoned, and there is no place for the next one: the client waits, without a connection. On the new one
    come the profile and the last change first, which vouch for the service."""

    def paused(self, change):
        """Submits where the service changes so in the pause: the lines on standard error, and the frames before it and after."""
        waiting = []

        def lie(service, request):
            if waiting or not (request.kind == ADD_FILE and request.body.endswith(b"b")):
                return truth(service, request)
            waiting.append(len(service.frames))
            reply = NO_PLACE(service, request)
            change(service)
            return reply

        failing = {"LD_PRELOAD": os.environ["PRELOAD_READS"], "PREAD_OF": "a", "PREAD_FAILS": "1"}
        with Lying(lie) as service:
            _, err, _ = self.submit(service, "two", "paused", env=os.environ | failing)
        self.assertEqual(service.connections, 2)
        return err.split(b"\n"), service.frames[: waiting[0]], service.frames[waiting[0] :]

    def test_the_service_is_the_same(self):
        err, before, after = self.paused(lambda service: None)
        self.assertEqual(err[0], b"skipped: /a: it could not be opened or read")
        self.assertEqual([frame.kind for frame in before], [CREATE_PROFILE, ADD_FILE, FINISH, ABANDON, ADD_FILE])
        self.assertEqual(after[:3], [before[0], before[3], before[4]])
        self.assertEqual([frame.kind for frame in after[3:]], [FINISH, PIECE, FINISH, EXPORT])

    def test_profile_lost(self):
        def lose(service):
            service.forget()
            service.model.profiles[1] = make_profile()

        err, before, after = self.paused(lose)
        self.assertIn(b"fault: Restarted", err)
        self.assertEqual(after, before[:1])

    def test_node_lost(self):
        err, before, after = self.paused(Lying.forget)
        self.assertIn(b"fault: Restarted", err)
        self.assertEqual(after, [before[0], before[3]])


class Counted(Steps):
    def test_each_run(self):
        with contextlib.ExitStack() as services:
            for number, (to, lie, tree, unread, words, due, text) in enumerate(RUNS):
                if to == EMPTY:
                    service = services.enter_context(Counting(lie))
                with self.subTest(number=number):
                    found, exported = self.counted(service, tree, unread, words)
                    self.assertEqual(found, due)
                    self.assertEqual(exported, text or exported)

    def counted(self, service, tree, unread, words):
        """Returns what comes of a run, as in RUNS, and the export."""
        service.frames, service.connections, service.most = [], 0, 0
        failing = {"LD_PRELOAD": os.environ["PRELOAD_READS"], "PREAD_OF": unread, "PREAD_FAILS": "1"} if unread else {}
        status, err, text = self.submit(service, tree, "counted", *words, quiet=False, env=os.environ | failing)
        kinds = [frame.kind for frame in service.frames if frame.kind != EXPORT]
        sums = [sum(map(int, lines(err, front))) for front in (b"folders and files: ", b"bytes read: ")]
        return (status, len(kinds), kinds.count(PIECE), service.connections, service.most, *sums, lines(err, SKIPPED)), text


if __name__ == "__main__":
    unittest.main()
