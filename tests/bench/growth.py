"""Measures whether the last of many commands take longer than the first, and what a repeat costs whose reply is
cached, or only in the store.

Usage: growth.py, with the program's path in DROID_DESK and tests/ on Python's path. Prints the microseconds of a
processor that `run` takes for each request, beside the limit.
"""
from lib.frames import ADD_FILE, ADD_FOLDER, HEADER, MOST_NODES, MOST_PIECES, NODE, PIECE, TAKEN
from lib.frames import file_body, folder_body, frame, piece_body
from lib.connections import read_exactly
from lib.processes import processor_milliseconds
from loads import turned
from measured_run import MeasuredRun

FOLDERS, FEW_FOLDERS = 50_000, 1_000
# nearly the most pieces of a file, each of a byte
PIECES, FEW_PIECES = MOST_PIECES, 1 << 16
# the replies to the last 256 requests are cached. Repeats go in turn over the last 1, 256, 257 and 100,000 numbers;
# of 257 none is cached, since each comes again after the 256 others.
CACHED, SPREADS = 256, [1, 256, 257, MOST_NODES]
# (`run` answers a million requests in all)
REPEATS = 50_000
# it has no factor in common with 256, 257 and 100,000, so all numbers come in turn
STEP = 61_803
BATCH = 1_000
ROUNDS = 3
# how long a cached repeat takes of one from the store, at most
LIMIT = 0.33


def folder_name(number):
    return b"folder %d" % number


def microseconds(service, requests):
    """Sends requests in batches, each with a reply of four bytes or one, and returns the microseconds of each."""
    before = processor_milliseconds(service.process)
    for start in range(0, len(requests), BATCH):
        batch = requests[start : start + BATCH]
        service.near.sendall(b"".join(request for request, _ in batch))
        read_exactly(service.near, sum(size for _, size in batch))
    return (processor_milliseconds(service.process) - before) * 1_000 / len(requests)


def measure_growth(what, service, kind, bodies, due, few):
    """Prints the microseconds of the first few commands, of the last few and of all. Returns those of all."""
    before = processor_milliseconds(service.process)
    service.ask_all(kind, bodies[:few], due)
    first = processor_milliseconds(service.process)
    service.ask_all(kind, bodies[few:-few], due)
    middle = processor_milliseconds(service.process)
    service.ask_all(kind, bodies[-few:], due)
    last = processor_milliseconds(service.process)
    each = (last - before) * 1_000 / len(bodies)
    begins, ends = ((after - earlier) * 1_000 / few for earlier, after in ((before, first), (middle, last)))
    print(f"service: {what}, each in {each:.2f} microseconds")
    print(f"  of the first each in {begins:.2f}, of the last in {ends:.2f}: {ends / begins:.2f} times as long", flush=True)
    return each


def measure_pieces(what, order):
    """Returns the microseconds of a piece of a byte, in this order."""
    with MeasuredRun() as service:
        service.ask(ADD_FILE, file_body(b"large.bin", PIECES, 1), NODE)
        bodies = [piece_body(1, index, b"a") for index in order(PIECES - FEW_PIECES)]
        return measure_growth(f"{len(bodies)} pieces of a byte, {what}", service, PIECE, bodies, TAKEN, FEW_PIECES)


def repeats(spread):
    """Returns repeats that go in turn over the last numbers, with the lengths of their replies."""
    places = [MOST_NODES - spread + turn * STEP % spread for turn in range(REPEATS)]
    return [(frame(ADD_FOLDER, 1, 2 + place, folder_body(folder_name(place))), HEADER.size + 4) for place in places]


def measure_repeats():
    """A request of no kind is read and answered without the service: a repeat's cost is what it takes more."""
    with MeasuredRun() as service:
        service.ask_all(ADD_FOLDER, [folder_body(folder_name(place)) for place in range(MOST_NODES)], NODE)
        unknown = frame(9, 1, 1, folder_body(folder_name(MOST_NODES)))
        bare = min(microseconds(service, [(unknown, HEADER.size + 1)] * REPEATS) for _ in range(ROUNDS))
        print(f"repeats: a request of no kind in {bare:.2f} microseconds")
        cached, stored = [], []
        for spread in SPREADS:
            each = min(microseconds(service, repeats(spread)) for _ in range(ROUNDS)) - bare
            print(f"repeats: {REPEATS} spread over the last {spread} numbers of {MOST_NODES}, each {each:.2f} microseconds more", flush=True)
            (stored if spread > CACHED else cached).append(each)
    print(f"  a cached one takes {max(cached) / min(stored):.2f} of one from the store, limit {LIMIT}", flush=True)


def main():
    with MeasuredRun() as service:
        bodies = [folder_body(folder_name(place)) for place in range(FOLDERS)]
        measure_growth(f"{FOLDERS} folders of one profile", service, ADD_FOLDER, bodies, NODE, FEW_FOLDERS)
    in_order = measure_pieces("in order", range)
    waiting = measure_pieces("the last of each sixteen first", turned)
    print(f"  {waiting / in_order:.2f} times as long as in order", flush=True)
    measure_repeats()


main()
