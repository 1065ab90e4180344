"""Says by checksums, without a call of `rt`, which crates are proved and built from their sources and toolchain as
they are now, and which wrong bodies of them the prover has refused.

Of a program and of wrong bodies the checksums leave out the lines that have only a comment: nothing of these is proved
or built, and a program has no numbers of lines in it. Which lines these are, the toolchain's lexer says, since in a
clause `//` begins no comment, and since a macro may read the doc comments of a type that derives it. The checksums of
a library have each byte of it: so have those of `rt`, which would else prove all libraries below another one anew.

A library that `rt ci` left has no stamp of `rt`, and no `rt` reads it (rattle.py does). `make prove` notes it by the
checksum of all its files, and by that of its code too, so that a changed comment leaves it standing.
"""
import concurrent.futures
import functools
import hashlib
import os
import re
import shutil
import subprocess
import sys

import crates
import kit
from crates import TOP, below, folder, is_program, listed, named, read, write

RT = os.environ.get("RT", "rt")


def kit_folder():
    """Returns the folder of the Rattle kit. If there is none, this ends the program."""
    return kit.folder() or sys.exit(f"{RT} is missing: install the Rattle kit and put its bin folder on the PATH")


def toolchain():
    """Returns a text that identifies the toolchain and its crates, read from its files."""
    rt = os.path.realpath(shutil.which(RT))
    found = [os.path.join(kit_folder(), it) for it in ("WHAT", "WHAT-crates")]
    return "".join(read(it) for it in found if os.path.isfile(it)) or f"{rt} {os.path.getmtime(rt)}"


def bytes_of(path):
    with open(path, "rb") as file:
        return file.read()


class Sums:
    """A checksum for each crate: of the toolchain, its sources, its line, and the checksums of the crates below it. `chosen`
    are the crates that are asked for, or all."""

    def __init__(self, chosen=()):
        self.chosen = chosen or listed()
        self.toolchain = toolchain()
        self.known = {}

    def text_of(self, path):
        return bytes_of(path)

    def of(self, crate):
        if crate not in self.known:
            sum = hashlib.sha256(repr((self.toolchain, listed()[crate])).encode())
            for path in crates.files_of(crate):
                sum.update(repr((path[len(TOP) :], self.text_of(path))).encode())
            sum.update(repr([self.of(low) for low in named()[crate]]).encode())
            self.known[crate] = sum.hexdigest()
        return self.known[crate]

    @functools.lru_cache(None)
    def of_code(self):
        """Returns such checksums of the code of the chosen crates and all below them."""
        return CodeSums(self.chosen)


class CodeSums(Sums):
    """The same for these crates and all below them, of the code alone: of the lines that have more than a comment."""

    def __init__(self, chosen):
        super().__init__(chosen)
        paths = [path for crate in crates.with_below(chosen) for path in crates.files_of(crate)]
        self.code = {path: code_of(bytes_of(path), tokens) for path, tokens in zip(paths, tokens_of(paths))}

    def text_of(self, path):
        return self.code.get(path) or bytes_of(path)


def tokens_of(paths):
    """Returns for each file the rows of its tokens, LINE START END KIND TEXT, as the toolchain's lexer prints them, or
    nothing if it can't read all files."""
    lexer = os.path.join(kit_folder(), "bin", "rattle")
    run = os.path.isfile(lexer) and subprocess.run([lexer, "fmt", "--tokens", *paths], capture_output=True)
    return re.split(rb"(?m)^file \d+\n", run.stdout)[1:] if run and run.returncode == 0 else []


def code_of(text, tokens):
    """Returns the lines of a text on which a token begins, or that a token of several lines has."""
    rows = tokens.splitlines()
    lines = {row[: row.index(b" ")] for row in rows}
    for row in [it for it in rows if b"\\n" in it]:
        line, begin, end = map(int, row.split(b" ", 3)[:3])
        lines.update(b"%d" % it for it in range(line, line + text[begin:end].count(b"\n") + 1))
    return b"\n".join(line for number, line in enumerate(text.split(b"\n"), 1) if b"%d" % number in lines)


def library_of(crate):
    return os.path.join(folder(crate), "out", "rlib", f"{crate}.rlib")


def stamp_of(crate):
    """Returns the file by which `rt` knows a library that `rt lib` built."""
    return os.path.join(folder(crate), "out", "rlib", "stamp")


def is_for_rt(libraries):
    """Returns whether `rt` takes all these libraries as they stand."""
    return all(os.path.isfile(stamp_of(it)) for it in libraries)


def built_file(crate):
    """Returns a file that changes with every build of the crate, or with most."""
    if is_program(crate):
        return os.path.join(folder(crate), "out", crate)
    return stamp_of(crate) if os.path.isfile(stamp_of(crate)) else os.path.join(library_of(crate), "format")


@functools.lru_cache(None)
def sum_of_files(at, _):
    """Returns a checksum of all files below a folder. (The other argument tells them from those that were there before.)"""
    found = sorted(os.path.join(place, name) for place, _, names in os.walk(at) for name in names)
    with concurrent.futures.ThreadPoolExecutor(len(os.sched_getaffinity(0))) as lanes:
        sums = lanes.map(lambda path: hashlib.sha256(bytes_of(path)).hexdigest(), found)
        return hashlib.sha256(repr([(path[len(at) :], sum) for path, sum in zip(found, sums)]).encode()).hexdigest()


def sum_of_library(crate):
    """Returns the checksum of a library's files."""
    is_now = os.stat(os.path.join(library_of(crate), "format"))
    return sum_of_files(library_of(crate), (is_now.st_ino, is_now.st_mtime_ns, is_now.st_ctime_ns))


def sum_of_built(crate):
    """Returns the checksum of what was built: of a library without a stamp, all files of it and of those below it, since
    it fits only the very libraries that it was built over."""
    if is_program(crate) or os.path.isfile(stamp_of(crate)):
        return hashlib.sha256(bytes_of(built_file(crate))).hexdigest()
    return hashlib.sha256(repr([sum_of_library(it) for it in [*below(crate), crate]]).encode()).hexdigest()


def mark_of(crate, sums, cpu):
    """Returns the note of a build: the checksum of its sources, that of what was built, and the processor, if any."""
    return f"{sums.of(crate)} {sum_of_built(crate)} {cpu}".rstrip()


def note_of(crate):
    """Returns the path of the crate's note. It is outside of the crate's own out/, of which `rt ci` restores only
    a part."""
    return os.path.join(TOP, "out", "stands", crate)


def stands(crate, sums, cpu=""):
    """Returns whether a crate was proved and built from its sources as they are now, and what was built is there."""
    try:
        lines = read(note_of(crate)).split("\n")
        # (a library's files are read only where its sources are those of the note)
        return any(it.startswith(sums.of(crate)) for it in lines) and mark_of(crate, sums, cpu) in lines
    except (OSError, UnicodeDecodeError):
        return False


def is_proved(crate, sums):
    """Returns whether a library stands. Without a stamp it also stands where only comments changed since it was noted."""
    return stands(crate, sums) or not os.path.isfile(stamp_of(crate)) and stands(crate, sums.of_code())


def note(crate, all_sums, cpu=""):
    """Notes a build, with a line for each of these kinds of checksums."""
    write(note_of(crate), "".join(mark_of(crate, sums, cpu) + "\n" for sums in all_sums))


def refusal_of(edit):
    """Returns the path of the note that a wrong body was refused."""
    return os.path.join(TOP, "out", "refused", os.path.relpath(edit.name, "crates"))


def mark_of_edit(edit, sums):
    """Returns the checksum of what it changes, and of its own text."""
    return f"{sums.of(edit.crate)} {hashlib.sha256(bytes_of(os.path.join(TOP, edit.name))).hexdigest()}\n"


def was_refused(edit, sums):
    return os.path.isfile(refusal_of(edit)) and read(refusal_of(edit)) == mark_of_edit(edit, sums)


def note_refusal(edit, sums):
    write(refusal_of(edit), mark_of_edit(edit, sums))
