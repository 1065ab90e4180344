"""Exports files by the largest filter that a request holds, and without a filter, through the program's `run`.

Usage: compare_filters.py [ROUNDS], with the program's path in DROID_DESK and tests/ on Python's path. The filter
has 255 lists of 255 extensions each. Every file meets all lists by the last extension of each, or meets none. All
exports come in turn in each round, so that the service has no text from the one before. Prints the milliseconds to
the reply, and those of a processor, the median of all rounds (five by default), beside the limits.
"""
import statistics
import sys
import tempfile

from attacks import ALIKE, unmet
from lib.frames import ADD_FILE, EXPORT, FINISH, FINISHED, MOST_NODES, MOST_UNFINISHED, PART, export_body, file_body
from lib.frames import node_body
from measured_run import MeasuredRun, registry_in

ROUNDS = 5
FEW = 3_000
# the limits: milliseconds with few files, and how many times as long as without a filter with the most files
MILLISECONDS = 200
TIMES = 2


def met():
    """Returns an export of a byte with 255 lists of 255 extensions, of which each file meets the last one of each
    list."""
    lists = b""
    for place in range(255):
        texts = [b"%015d" % (254 * place + at) for at in range(254)] + [ALIKE]
        lists += bytes([3, len(texts)]) + b"".join(bytes([len(text)]) + text for text in texts)
    return export_body(most=1, criteria=bytes([1, 255]) + lists)


EXPORTS = {
    "without a filter": export_body(most=1),
    "by the largest filter, met by all": met(),
    "by the largest filter, met by none": unmet(3),
}


def fill(service, count):
    """Adds this many empty files with one extension."""
    for start in range(0, count, MOST_UNFINISHED):
        numbered = range(start, min(start + MOST_UNFINISHED, count))
        nodes = service.nodes_of(ADD_FILE, [file_body(b"%d.%s" % (at, ALIKE), 0, 1) for at in numbered])
        service.ask_all(FINISH, [node_body(node) for node in nodes], FINISHED)


def medians(service, rounds):
    """Measures each export: the milliseconds to the reply, and those of a processor."""
    costs = {name: [] for name in EXPORTS}
    for _ in range(rounds):
        for name, body in EXPORTS.items():
            costs[name].append(service.cost(EXPORT, body, PART))
    return {name: [*map(statistics.median, zip(*found))] for name, found in costs.items()}


def compare(count, place, rounds):
    """Prints what the exports of this many files cost."""
    with MeasuredRun(*registry_in(place, b"F,%s,A,,,\nE,%s,%s,,,\n" % (ALIKE, ALIKE, ALIKE))) as service:
        fill(service, count)
        found = medians(service, rounds)
    for name, (took, used) in found.items():
        print(f"filters: {count} files exported {name} in {took:.1f} milliseconds, {used:.1f} of a processor")
    plain, *filtered = found.values()
    most = [max(times) for times in zip(*filtered)]
    if count == FEW:
        print(f"  at most {most[0]:.1f} milliseconds by it, {most[1]:.1f} of a processor, limit {MILLISECONDS}")
    else:
        took, used = most[0] / plain[0], most[1] / plain[1]
        print(f"  {took:.2f} times as long as without a filter, {used:.2f} of a processor's time, limit {TIMES}")


def main():
    rounds = int(sys.argv[1]) if sys.argv[1:] else ROUNDS
    with tempfile.TemporaryDirectory() as place:
        for count in (FEW, MOST_NODES):
            compare(count, place, rounds)


main()
