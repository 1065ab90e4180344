"""Random runs over a link that is cut at random bytes, both ways, to a service with or without a journal, which may be
killed and started again. Each submission is completed: its export has the rows of Python's own walk and those of the
model, no file stays unfinished, and whatever was sent under one number is the same. RUNS is how many runs there are (1,000),
FIRST_RUN the number of the first; a run's number is its seed."""
import os
import random
import shutil
import tempfile
import time
import unittest
from concurrent.futures import ThreadPoolExecutor

from lib.connections import connect, free_port, read_frame
from lib.frames import EXPORT, HEADER, NODE, create, cut, export, file
from lib.links import Link
from lib.program import Serve
from lib.submissions import PIECE, records, submit
from lib.trees import walk
from model_frames import reply_to, service_of_the_sample

RUNS = int(os.environ.get("RUNS", "1000"))
FIRST_RUN = int(os.environ.get("FIRST_RUN", "0"))
# how many services run at a time
SERVICES = 4
# one submission is run so often at most: a service that forgets all ends it, and a wait may be over
TRIES = 12
SIZES = (0, 1, 10, PIECE - 1, PIECE, PIECE + 1, 3 * PIECE, 20 * PIECE + 7)
MOST_UNFINISHED = 64
# a service without a journal that is started again may end a submission; what is printed then has this
FORGOTTEN = b": run the same command again"


def make(top, numbers):
    """Makes a random tree, and returns how many bytes it has."""
    folders, total = [b""], 0
    for place in range(numbers.randrange(4)):
        folders.append(numbers.choice(folders) + b"/%d" % place)
        os.makedirs(top + folders[-1])
    for place in range(numbers.randrange(1, 24)):
        size = numbers.choice(SIZES if place < 6 else SIZES[:6])
        with open(top + b"%s/%d.%s" % (numbers.choice(folders), place, numbers.choice((b"txt", b"abc", b"bin"))), "wb") as made:
            made.write(numbers.randbytes(size))
        total += size
    return total


def whole_frames(sent):
    """Cuts what was sent on one connection into frames; the last may be cut off."""
    place = 0
    while place + HEADER.size <= len(sent):
        end = place + HEADER.size + HEADER.unpack_from(sent, place)[4]
        if end > len(sent):
            return
        yield bytes(sent[place:end])
        place = end


class Desk:
    """A service on one port that may be killed and started again, with a journal or without."""

    def __init__(self, numbers, work):
        self.options = ["--at-once", str(numbers.choice((1, 2, 8))), "--forever"]
        self.journal = numbers.random() < 0.5
        if self.journal:
            self.options += ["--journal", os.fsdecode(work + b"/journal")]
        self.begin()

    def begin(self):
        """Starts on a free port. Another process may take that port before the service does: then on another one."""
        for left in reversed(range(8)):
            self.port = free_port()
            try:
                return self.start()
            except AssertionError as error:
                if not left or b" is in use" not in error.args[0][1]:
                    raise

    def start(self):
        self.service = Serve(None, self.options, port=self.port, killed=True)
        self.service.__enter__()

    def kill(self):
        self.service.__exit__(None, None, None)


class Cuts(unittest.TestCase):
    def test_random_runs(self):
        with ThreadPoolExecutor(SERVICES) as pool:
            cuts = list(pool.map(self.run_in_folder, range(FIRST_RUN, FIRST_RUN + RUNS)))
        self.assertGreater(sum(cuts), RUNS)

    def run_in_folder(self, seed):
        work = os.fsencode(tempfile.mkdtemp())
        try:
            return self.run_one(seed, random.Random(seed), work)
        finally:
            shutil.rmtree(work)

    def run_one(self, seed, numbers, work):
        """Submits until all is there, checks what came of it, and returns how often the link was cut."""
        os.mkdir(work + b"/tree")
        total = make(work + b"/tree", numbers)
        most = numbers.choice((200, 2_000, 2 * total + 4_000))
        left = [numbers.randrange(1, most) for _ in range(numbers.randrange(1, 9))]
        cuts = iter([*left, *[None] * 1_000])
        desk = Desk(numbers, work)
        try:
            with Link(desk.port, numbers.choice((0, 0, 0.002)), cuts) as link:
                first = self.submit_all(seed, numbers, work, desk, link)
                time.sleep(0.01)
                sent = [bytes(pair.sent) for pair in link.pairs]
            self.check(seed, work, desk, sent, first)
            return link.cut
        finally:
            desk.kill()

    def submit_all(self, seed, numbers, work, desk, link):
        """Runs `submit` until it ends well, and kills the service in between, or not. Returns how many connections came
        before a service that has nothing of them began."""
        kills = numbers.choice((0, 0, 1, 2))
        first = 0
        for turn in range(TRIES):
            forgot = False
            with ThreadPoolExecutor(1) as pool:
                running = pool.submit(submit, work + b"/tree", link.port, 7, "--export", work + b"/export.csv", "--timeout", "5")
                if kills:
                    kills -= 1
                    time.sleep(numbers.random() * 0.1)
                    desk.kill()
                    forgot = not desk.journal
                    if forgot:
                        first = len(link.pairs)
                    desk.start()
                status, said = running.result()
            if status == 0:
                # it may have ended just before the service forgot all
                if not forgot:
                    return first
                continue
            self.assertFalse(desk.journal, (seed, turn, status, said))
            self.assertTrue(status == 5 or FORGOTTEN in said, (seed, turn, status, said))
        self.fail((seed, "not completed"))

    def check(self, seed, work, desk, sent, first):
        with open(work + b"/export.csv", "rb") as text:
            found = records(text.read())
        rows, _ = walk(work + b"/tree")
        self.assertEqual(set(found), {row["FILE_PATH"] for row in rows}, seed)
        for row in rows:
            due = {name: row[name] for name in row if name not in ("ID", "PARENT_ID")}
            self.assertEqual({name: found[row["FILE_PATH"]][name] for name in due}, due, seed)
        frames = [one for bytes_sent in sent[first:] for one in whole_frames(bytes_sent)]
        self.one_for_each_number(seed, frames)
        self.assertEqual(found, records(self.text_of_model(frames)), seed)
        self.nothing_unfinished(seed, desk)

    def one_for_each_number(self, seed, frames):
        """A query may be asked anew; every other number has one frame."""
        asked = {}
        for one in frames:
            number = HEADER.unpack_from(one)[3]
            self.assertEqual(asked.setdefault(number, one), one, seed)

    def text_of_model(self, frames):
        """The export of the model after all these requests, in their order."""
        model = service_of_the_sample()
        for one in frames:
            version, kind, client, number, _ = HEADER.unpack_from(one)
            reply_to(model, version, kind, client, number, one[HEADER.size :])
        [reply] = cut(reply_to(model, 1, EXPORT, 99, 1, export(1)[HEADER.size :]))
        return reply.body[16:]

    def nothing_unfinished(self, seed, desk):
        """Another client can have as many unfinished files as there may be."""
        with connect(desk.port) as stream:
            stream.sendall(create(1, client=8))
            profile = int.from_bytes(read_frame(stream)[3], "big")
            for place in range(MOST_UNFINISHED):
                stream.sendall(file(2 + place, b"%d" % place, 1, 1, profile=profile, client=8))
                self.assertEqual(read_frame(stream)[0], NODE, (seed, place))


if __name__ == "__main__":
    unittest.main()
