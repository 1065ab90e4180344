"""Calls the toolchain's `rattle` over the libraries that stand in each crate's out/rlib, as `rt` does.

`rt` knows a library by a stamp beside it, which `rt ci` doesn't leave: over its libraries `rt check` and `rt lib` would
first prove all of them anew. `rattle` takes them as they are. It refuses a library that was built over another one than
the one that stands below it, or by another `rattle`; standing.py says whether they are the ones that were proved.
"""
import contextlib
import fcntl
import os
import re
import shutil
import sys
import tempfile

from crates import below, folder, is_program, listed, named
from lanes import EACH, ONE_JOB, memory, run_in
from standing import kit_folder, library_of

# lines of a check that say only what it loaded, and which functions are proved
NOISE = re.compile(r"(statements|logic|by-macro|checked) |.*: proved$")
TARGET = "x86_64-unknown-linux-gnu"
# where `rt` keeps what checks of a crate have checked, below its folder; and `rt ci` leaves that there
KEPT = os.path.join("out", "incremental")


def of_kit(crate):
    """Returns the libraries of the kit that a crate's line names."""
    return ["std", *(it for it in listed()[crate] if it not in listed())]


def words_of(crate, sources=()):
    """Returns the words that name a crate, the libraries that it stands on and the program logic. Of these libraries below
    it, which with each have those that stand on it, it names the sources: they are checked with the crate."""
    kit, readers = kit_folder(), [crate, *sources]
    rlibs = os.path.join(kit, "rlibs")
    words = ["--crate-name", crate, os.path.join("src", "main.rt" if is_program(crate) else "lib.rt")]
    for name in dict.fromkeys([*["core"] * bool(sources), *(name for it in readers for name in of_kit(it))]):
        words += ["--extern", f"{name}={os.path.join(rlibs, name)}.rlib"]
    built = [it for it in below(crate) if it not in sources]
    for low in [it for it in built if any(it in named()[reader] for reader in readers)]:
        words += ["--extern", f"{low}={library_of(low)}"]
    for at in [rlibs, *(os.path.dirname(library_of(low)) for low in built)]:
        words += ["-L", f"dependency={at}"]
    for low in sources:
        uses = ["core", *of_kit(low), *named()[low]]
        words += ["--lib", f"{low}:{','.join(uses)}={os.path.join(folder(low), 'src', 'lib.rt')}"]
    words += ["--antt-project", os.path.join(kit, "rattle", "logic", "antt-project.json")]
    return [*words, "--logic-built", os.path.join(kit, "logic_built"), "--links", f"{crate}="]


def call(place, verb, words):
    """Runs rattle there; returns the same as `run_in`."""
    return run_in(place, [os.path.join(kit_folder(), "bin", "rattle"), verb, *words])


def check(crate, flags, place=None, kept=KEPT, sources=()):
    """Checks a crate, or a copy of it in this place, over what checks of it kept, with the sources of these libraries;
    returns the same as `run_in`."""
    return call(place or folder(crate), "check", [*words_of(crate, sources), "--incremental", kept, *flags])


def jobs():
    """Returns the flag for a check that others wait for: it may use all processors, if memory allows."""
    return ["--jobs", str(min(4, len(os.sched_getaffinity(0))) if memory() > 2 * EACH else 1)]


def what_matters(said):
    """Returns the lines of a check that a reader needs."""
    return "\n".join(line for line in said.split("\n") if not NOISE.match(line))


def only(names):
    """Returns the flags for a check of these functions and of those that they call."""
    return [word for name in names for word in ("--only", name)]


def unfit(status, said, names):
    """Returns the first of these names of `only` that is that of no function or of several, so that the check didn't
    begin, or None."""
    errors = [line for line in said.split("\n") if status == 2 and line.startswith("rattle: error")]
    return next((it for it in names if any(f"`{it}`" in line for line in errors)), None)


def build_library(crate):
    """Proves and builds a library. It takes its place when it is whole. Returns the same as `run_in`."""
    at, place = os.path.dirname(library_of(crate)), os.path.join(folder(crate), "out")
    os.makedirs(place, exist_ok=True)
    room = tempfile.mkdtemp(prefix="rlib-", dir=place)
    try:
        made = os.path.join(room, os.path.basename(library_of(crate)))
        # what is above it then loads its statements and not its proofs
        result = call(folder(crate), "build", [*words_of(crate), "--incremental", KEPT, *ONE_JOB, "--statements", "-o", made])
        if result[0] == 0:
            os.chmod(room, 0o755)
            shutil.rmtree(at, ignore_errors=True)
            os.rename(room, at)
        return result
    finally:
        shutil.rmtree(room, ignore_errors=True)


def link(place, objects, program):
    """Links object files into a program; returns the same as `run_in`."""
    kit = kit_folder()
    words = [os.path.join(kit, "bin", "rattle-link"), "--target", TARGET, "--toolchain", os.path.join(kit, "toolchain")]
    of_kit = [os.path.join(kit, "c", it) for it in ("libos_c.a", "liblibc_c.a")]
    return run_in(place, [*words, "-o", program, *objects, *of_kit])


def build_program(crate, cpu):
    """Proves and builds a program, for this kind of processor, if any. It takes its place when it is whole. Returns the
    status, the output and the seconds of a processor."""
    place = os.path.join(folder(crate), "out")
    os.makedirs(place, exist_ok=True)
    with tempfile.TemporaryDirectory(prefix="build-", dir=place) as room:
        made = os.path.join(room, crate)
        flags = ["--toolchain", os.path.join(kit_folder(), "toolchain"), "--backend", "llvm", *[f"--cpu={cpu}"] * bool(cpu)]
        status, said, used = call(folder(crate), "build", [*words_of(crate), "--incremental", KEPT, *jobs(), *flags, "-o", made + ".o"])
        if status == 0:
            status, said, _ = link(folder(crate), [made + ".o"], made)
        if status == 0:
            os.replace(made, os.path.join(place, crate))
    return status, what_matters(said), used


@contextlib.contextmanager
def kept_from_rt(crates):
    """Waits until no `rt` works in the folders of these crates, and keeps it out until the end of the `with`."""
    with contextlib.ExitStack() as held:
        for crate in sorted(crates):
            at = os.open(folder(crate), os.O_RDONLY)
            held.callback(os.close, at)
            try:
                fcntl.flock(at, fcntl.LOCK_EX | fcntl.LOCK_NB)
            except BlockingIOError:
                print(f"waiting for an rt that works in {folder(crate)} ..", file=sys.stderr, flush=True)
                fcntl.flock(at, fcntl.LOCK_EX)
        yield
