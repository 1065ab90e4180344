"""The program's `run`, with the cost of a request: the milliseconds from its last byte to the reply's, and those of a
processor."""

import os
import time

from lib.frames import ADD_FILE, ADD_FOLDER, LIMITS, MD5, NODE, PIECE, TAKEN, file_body, folder_body, node_body
from lib.frames import piece_body
from lib.processes import processor_milliseconds
from lib.program import Run

# a reply may take this many seconds
SECONDS = 600
DEPTH = 16


class MeasuredRun(Run):
    """`run` with a profile."""

    def __init__(self, *options, version=1, hash=MD5):
        super().__init__(*options, version=version, seconds=SECONDS)
        self.create(hash)

    def nodes_of(self, kind, bodies):
        """Adds nodes, and returns their numbers."""
        return [int.from_bytes(body, "big") for body in self.ask_all(kind, bodies, NODE)]

    def deep(self, name):
        """Adds folders, each in the one before, and returns the last. A name of 255 bytes below it makes the
        longest path."""
        parent = 0
        for _ in range(DEPTH - 1):
            (parent,) = self.nodes_of(ADD_FOLDER, [folder_body(name, parent)])
        return parent

    def unfinished_file(self, name, content):
        """Adds a file with all its pieces, and returns the body of its Finish."""
        (node,) = self.nodes_of(ADD_FILE, [file_body(name, len(content), LIMITS[1].piece)])
        self.ask(PIECE, piece_body(node, 0, content), TAKEN)
        return node_body(node)

    def cost(self, kind, body, due):
        """Sends a request, and returns the milliseconds to its reply, and those of a processor."""
        (request,) = self.requests(kind, [body])
        self.near.sendall(request[:-1])
        time.sleep(0.01)
        start, used = time.perf_counter(), processor_milliseconds(self.process)
        self.near.sendall(request[-1:])
        self.reply(due)
        return 1_000 * (time.perf_counter() - start), processor_milliseconds(self.process) - used

    def measure(self, what, kind, bodies, due):
        """Sends requests one by one, and prints what they cost."""
        took, used = map(span, zip(*(self.cost(kind, body, due) for body in bodies)))
        print(f"attacks: {what} in {took} milliseconds, {used} of a processor", flush=True)


def span(times):
    """Formats the least and the greatest of some times."""
    least, most = f"{min(times):.1f}", f"{max(times):.1f}"
    return most if least == most else f"{least} to {most}"


def registry_in(folder, text):
    """Writes a registry of this text, and returns the options that name it."""
    path = os.path.join(folder, "registry.csv")
    with open(path, "wb") as registry:
        registry.write(text)
    return "--registry", path
