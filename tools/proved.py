#!/usr/bin/env python3
"""Notes the libraries and the program that `make prove` has proved and built, so that other commands take them as they
stand and prove nothing anew:

proved.py begin   the first step of `make prove`: removes the libraries of earlier runs, and what was noted of them
proved.py note    its step after `rt ci`: notes what this run has left

The notes are those of standing.py. One counts only while the sources of the crate and of all below it, what was built
of them, and the kit are as they were. Nothing is noted if the run was interrupted, or if a source changed meanwhile.
"""
import os
import shutil
import sys

import crates
from crates import TOP, below, folder, is_program, listed, read, write
from lanes import alone
from standing import CodeSums, Sums, built_file, library_of, note, note_of, stamp_of

# the sources that the run proves, and when it began
BEGUN = os.path.join(TOP, "out", "proving")


def state_of_sources():
    """Returns a text that changes with every file that the run reads, also where a file was changed and changed back."""
    found = [os.path.join(TOP, name) for name in ("crates.txt", "HANDLES")]
    found += [path for crate in listed() for path in crates.files_of(crate)]
    states = [(path, os.stat(path)) for path in found]
    return "".join(f"{path[len(TOP) :]} {it.st_ino} {it.st_size} {it.st_mtime_ns} {it.st_ctime_ns}\n" for path, it in states)


def begin():
    for crate in listed():
        # (first the note, so that an interrupt leaves none of a library that is gone)
        if os.path.isfile(note_of(crate)):
            os.remove(note_of(crate))
        if not is_program(crate):
            shutil.rmtree(os.path.join(folder(crate), "out", "rlib"), ignore_errors=True)
    write(BEGUN, state_of_sources())


def is_of_this_run(crate):
    """Returns whether the run has built it. (`rt ci` gives a crate back what stood there before, if it could.)"""
    made = built_file(crate) if is_program(crate) else library_of(crate)
    return not os.path.isfile(stamp_of(crate)) and os.path.exists(made) and os.stat(made).st_mtime_ns >= os.stat(BEGUN).st_mtime_ns


def note_all():
    if not os.path.isfile(BEGUN) or read(BEGUN) != state_of_sources():
        return print("sources changed while they were proved, so nothing is noted: make quick, make wrong and make build prove the libraries anew")
    made = [it for it in listed() if all(map(is_of_this_run, [*below(it), it]))]
    all_sums = [Sums(), CodeSums(made)]
    for crate in made:
        note(crate, all_sums)
    os.remove(BEGUN)
    print(f"{len(made)} libraries and programs are noted as proved: make quick, make wrong and make build take them as they stand")


def main():
    call = {"begin": begin, "note": note_all}[sys.argv[1]]
    with alone():
        call()


if __name__ == "__main__":
    main()
