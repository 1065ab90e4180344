"""`submit` over links of this machine that delay each way, beside rsync over the same link, and beside its own frames sent
at once, which shows what the link and the service allow.

Usage: compare_links.py [PART ..], with the program's path in DROID_DESK and tests/ on Python's path. The parts are `few`,
`many`, `deep`, `direct`, `journal`, `memory` and `two`; each prints its figures with their limits. FILES is the number of
files of `many`, `deep` and `direct`, 10,000 if it is not set, and SMALL that of `journal`, 96,096. Limits in seconds are for
these numbers. Ends with status 1 if a figure is over its limit.
"""
import os
import shutil
import subprocess
import sys
import tempfile
import threading
import time

from lib.connections import connect, free_port, read_exactly
from lib.frames import HEADER
from lib.links import Link
from lib.processes import measured
from lib.program import EVERYDAY, PROGRAM, Serve

FILES = int(os.environ.get("FILES", "10000"))
SMALL = int(os.environ.get("SMALL", "96096"))
# half a round trip of 50 and of 200 milliseconds
SHORT, LONG = 0.025, 0.1
AHEAD = 8 << 20
SLOW_SYNC = 2_000


# ---- folders


def make(top, count, size, folders=0):
    """Makes this many files of this size, each with bytes of its own, in one folder or in so many."""
    for place in range(folders):
        os.makedirs(f"{top}/{place:05d}")
    os.makedirs(top, exist_ok=True)
    for place in range(count):
        where = f"{top}/{place % folders:05d}" if folders else top
        with open(f"{where}/{place:06d}.txt", "wb") as file:
            file.write((b"%08d " % place * (size // 9 + 1))[:size])
    return top


# ---- what is measured


def submit(top, port, client=1, *words):
    """Submits a folder: the seconds, and the largest memory."""
    return measured(
        [PROGRAM, "submit", top, "--port", str(port), "--client", str(client), "--quiet", *words], (0,), stdout=subprocess.DEVNULL
    )


def many(*options, env=None):
    return Serve(None, ["--at-once", "8", "--forever", "--registry", EVERYDAY, *options], killed=True, env=env)


def replies(stream, count, done):
    """Reads this many replies, and notes the moment."""
    for _ in range(count):
        _, _, _, _, length = HEADER.unpack(read_exactly(stream, HEADER.size))
        read_exactly(stream, length)
    done.append(time.perf_counter())


def count_of(frames):
    count = place = 0
    while place < len(frames):
        place += HEADER.size + HEADER.unpack_from(frames, place)[4]
        count += 1
    return count


def at_once(frames, delay):
    """The seconds in which a fresh service answers all these frames over such a link, sent without a wait."""
    with many() as service, Link(service.port, delay) as link, connect(link.port) as stream:
        stream.settimeout(None)
        done = []
        start = time.perf_counter()
        reader = threading.Thread(target=replies, args=(stream, count_of(frames), done))
        reader.start()
        stream.sendall(frames)
        reader.join()
        return done[0] - start


def over(top, delay, runs=1):
    """The seconds of so many submissions of a folder over a link, one after the other, the frames of the first, and
    the largest memory."""
    with many() as service, Link(service.port, delay) as link:
        found = [submit(top, link.port) for _ in range(runs)]
        return [seconds for seconds, _ in found], bytes(link.pairs[0].sent), found[0][1]


def rsync(top, delay, work):
    """The seconds of rsync of the same folder over such a link, to a daemon of this machine, or None without rsync."""
    if not shutil.which("rsync"):
        return None
    there = tempfile.mkdtemp(dir=work)
    port = free_port()
    with open(f"{there}/conf", "w", encoding="ascii") as file:
        file.write(f"use chroot = no\n[there]\npath = {there}/copy\nread only = no\n")
    os.mkdir(f"{there}/copy")
    words = ["rsync", "--daemon", "--no-detach", f"--port={port}", "--address=127.0.0.1", f"--config={there}/conf"]
    with subprocess.Popen(words, stderr=subprocess.DEVNULL) as daemon:
        try:
            while True:
                try:
                    connect(port).close()
                    break
                except OSError:
                    time.sleep(0.02)
            with Link(port, delay) as link:
                start = time.perf_counter()
                subprocess.run(["rsync", "-r", "-t", f"{top}/", f"rsync://127.0.0.1:{link.port}/there/"], check=True)
                return time.perf_counter() - start
        finally:
            daemon.terminate()
            shutil.rmtree(there)


def said(name, figure, limit, unit="s", more=""):
    """Prints a figure with its limit, and returns whether it is within it."""
    print(f"links: {name}: {figure:.2f} {unit}, limit {limit}{more}", flush=True)
    return figure <= limit


def beside(top, frames, delay, work):
    """Says what the link allows."""
    copied = rsync(top, delay, work)
    named = "no rsync here" if copied is None else f"rsync {copied:.2f} s"
    return f"; {named}, all frames at once {at_once(frames, delay):.2f} s"


# ---- the parts


def few(work):
    """200 files of 10 bytes, new and again."""
    top = make(f"{work}/few", 200, 10)
    (new, again), frames, _ = over(top, SHORT, 2)
    first = said("200 files of 10 bytes, 50 ms", new, 1.5, more=beside(top, frames, SHORT, work))
    return said("  again", again, 0.6) and first


def in_folders(work):
    top = f"{work}/many"
    return top if os.path.exists(top) else make(top, FILES, 1_000, 100)


def files(work):
    """Files of 1 KB in 100 folders, over two links."""
    top = in_folders(work)
    fits = True
    for delay, limit in ((SHORT, 15), (LONG, 55)):
        (took,), frames, _ = over(top, delay)
        name = f"{FILES} files of 1 KB in 100 folders, {2000 * delay:.0f} ms"
        fits = said(name, took, limit, more=beside(top, frames, delay, work)) and fits
    return fits


def deep(work):
    """One file in each of as many folders, beside the same files in 100."""
    top = make(f"{work}/deep", FILES, 1_000, FILES)
    (one,), _, _ = over(in_folders(work), SHORT)
    (took,), _, _ = over(top, SHORT)
    return said(f"one file in each of {FILES} folders, to as many in 100", took / one, 1.5, "times", f" ({took:.2f} to {one:.2f} s)")


def direct(work):
    """Without a delay, beside `run` over the same frames."""
    top = in_folders(work)
    _, frames, _ = over(top, 0)
    with many() as service:
        took, _ = submit(top, service.port)
    with open(f"{work}/frames", "wb") as file:
        file.write(frames)
    with open(f"{work}/frames", "rb") as asked:
        alone, _ = measured([PROGRAM, "run", "--registry", EVERYDAY], (0,), stdin=asked, stdout=subprocess.DEVNULL)
    return said(f"{FILES} files of 1 KB without a delay, to `run` over the same frames", took / alone, 1.2, "times", f" ({took:.2f} to {alone:.2f} s)")


def journal(work):
    """Small files to a service whose syncs take two milliseconds, beside one without a journal."""
    top = make(f"{work}/small", SMALL, 100, 100)
    library = f"{work}/slow_sync.so"
    here = os.path.dirname(os.path.abspath(__file__))
    subprocess.run(["cc", "-O2", "-shared", "-fPIC", "-o", library, f"{here}/slow_sync.c", "-ldl"], check=True)
    slow = os.environ | {"LD_PRELOAD": library, "SYNC_MICROSECONDS": str(SLOW_SYNC)}
    with many() as service:
        without, _ = submit(top, service.port)
    with many("--journal", f"{work}/journal", env=slow) as service:
        took, _ = submit(top, service.port)
    return said(f"{SMALL} small files with a journal whose syncs take 2 ms, to without", took / without, 2.0, "times", f" ({took:.2f} to {without:.2f} s)")


def memory(work):
    """The memory of `submit` beside what may be ahead."""
    _, _, most = over(in_folders(work), SHORT)
    return said("memory of `submit` beside 8 MiB ahead", max(0, most - AHEAD) / 1e6, 24, "MB", f" ({most / 1e6:.1f} MB in all)")


def two(work):
    """Two submissions of 1,000 files side by side, beside one of 2,000."""
    halves = [make(f"{work}/half{place}", 1_000, 1_000) for place in (1, 2)]
    (alone,), _, _ = over(make(f"{work}/whole", 2_000, 1_000), SHORT)
    with many() as service, Link(service.port, SHORT) as link:
        start = time.perf_counter()
        begun = [threading.Thread(target=submit, args=(top, link.port, 1 + place)) for place, top in enumerate(halves)]
        for one in begun:
            one.start()
        for one in begun:
            one.join()
        both = time.perf_counter() - start
    return said("two submissions of 1,000 files side by side, to one of 2,000", both / alone, 1.1, "times", f" ({both:.2f} to {alone:.2f} s)")


PARTS = {"few": few, "many": files, "deep": deep, "direct": direct, "journal": journal, "memory": memory, "two": two}


def main():
    work = tempfile.mkdtemp()
    try:
        return 0 if all([PARTS[name](work) for name in sys.argv[1:] or PARTS]) else 1
    finally:
        shutil.rmtree(work)


sys.exit(main())
