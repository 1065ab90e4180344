#!/usr/bin/env python3
"""Proves and builds a program as crates/CRATE/out/CRATE: build.py CRATE [CPU]. CPU names the kind of processor that it is
built for, as `rattle check --help` lists them.

It proves libraries side by side, each as soon as the libraries below it are built, and the program last. A checksum of
the sources and the toolchain says what is up to date, so if nothing has changed, it calls no `rt`. After an interrupt
the next call resumes the work.
"""
import os
import shutil
import statistics
import sys

import crates
import rattle
from crates import TOP, below, folder, is_program, listed, named, read
from lanes import ONE_JOB, Clock, alone, run_in, side_by_side
from standing import RT, Sums, is_for_rt, is_proved, note, stands

SECONDS = os.path.join(TOP, "tools", "seconds.txt")
# the disk in bytes that a library and the work that `rt` keeps of it take
KEPT = 250 << 20


def tree_of(crate):
    return os.path.join(TOP, "out", "build", crate)


def move_kept(crate, one, other):
    """Moves the files that `rt` kept of the crate from one tree to another."""
    here, there = os.path.join(folder(crate, one), "out"), os.path.join(folder(crate, other), "out")
    if os.path.isdir(here):
        shutil.rmtree(there, ignore_errors=True)
        os.rename(here, there)


def bring_back(crate):
    """Removes the crate's own tree, and keeps what was proved in it, also after an interrupt."""
    move_kept(crate, tree_of(crate), TOP)
    shutil.rmtree(tree_of(crate), ignore_errors=True)


def prove_library(crate):
    """Proves and builds a library; returns the same as `run_in`."""
    return prove_by_rt(crate) if is_for_rt(below(crate)) else rattle.build_library(crate)


def prove_by_rt(crate):
    """Proves and builds a library in a tree of its own, by `rt`, which takes no library below it that has no stamp."""
    crates.lay_out(tree_of(crate), crate)
    move_kept(crate, TOP, tree_of(crate))
    try:
        # what is above a library then loads its statements and not its proofs
        return run_in(folder(crate, tree_of(crate)), [RT, "lib", "--statements", *ONE_JOB])
    finally:
        bring_back(crate)


def seconds_of(names):
    """Estimates the seconds of a processor that each crate takes from nothing."""
    lines = [line.split() for line in read(SECONDS).split("\n") if line and not line.startswith("#")]
    known = {name: int(seconds) for name, seconds in lines}
    return {crate: known.get(crate, statistics.median(known.values())) for crate in names}


class Build:
    """The libraries that wait, and those in work."""

    def __init__(self, libraries, sums):
        self.sums, self.all = sums, len(libraries)
        self.waiting = [it for it in libraries if not is_proved(it, sums)]
        # (of the sources as they are before they are proved)
        self.all_sums = [sums, sums.of_code()] if self.waiting else []
        self.work, self.failed, self.clock = [], None, Clock()
        self.chains = self.chains_of(libraries)

    def chains_of(self, libraries):
        """Returns for each library the seconds of the longest chain of libraries that begins with it and goes up."""
        seconds, chains = seconds_of(libraries), {}
        for crate in reversed(crates.lowest_first(libraries)):
            above = [chains[it] for it in chains if crate in named()[it]]
            chains[crate] = seconds[crate] + max(above, default=0)
        return chains

    def announce(self, what):
        """Says what it takes to build the libraries that wait, if nothing of them is kept."""
        seconds, cores = seconds_of(self.waiting), len(os.sched_getaffinity(0))
        total, longest = sum(seconds.values()), max(self.chains[it] for it in self.waiting)
        minutes = f"{total / 60:.0f} minutes of a processor, some {max(longest, total / cores) / 60:.0f} minutes with {cores} of them"
        print(f"proving {len(self.waiting)} libraries {what}: if nothing of them is kept, {minutes}, and {len(self.waiting) * KEPT / (1 << 30):.1f} GB of disk", file=sys.stderr, flush=True)

    def next(self):
        """Returns the job for the next library of which all below are built, or None. The longest chain comes first."""
        unbuilt = {*self.waiting, *self.work}
        ready = [it for it in self.waiting if not self.failed and not unbuilt.intersection(below(it))]
        if not ready:
            return None
        crate = max(ready, key=lambda it: self.chains[it])
        self.waiting.remove(crate)
        self.work.append(crate)
        done = self.all - len(self.waiting) - len(self.work)
        self.clock.report(f"{done} of {self.all} libraries proved; in work: {', '.join(self.work)}")
        return self.run, crate

    def run(self, crate):
        clock = Clock()
        status, said, used = prove_library(crate)
        if status == 0 and Sums().of(crate) == self.sums.of(crate):
            note(crate, self.all_sums)
        what = "took" if status == 0 else "failed after"
        return crate, status, said, f"{crate} {what} {clock.seconds():.0f} s, and {used:.0f} s of a processor"

    def end(self, result):
        crate, status, said, took = result
        self.work.remove(crate)
        self.clock.report(took)
        if status:
            self.failed = self.failed or (crate, said)


def fail(crate, said):
    print(f"{crate} could not be proved or built:\n{said}", file=sys.stderr)
    return 1


def build_program(program, cpu):
    minutes = seconds_of([program])[program] / 60
    print(f"  proving and building the program {program}: if nothing of it is kept, {minutes:.0f} minutes ..", file=sys.stderr, flush=True)
    clock, flags = Clock(), [f"--cpu={cpu}"] if cpu else []
    if is_for_rt(below(program)):
        status, said, used = run_in(folder(program), [RT, "run", *ONE_JOB, *flags, "--", "--help"])
    else:
        with rattle.kept_from_rt([*below(program), program]):
            status, said, used = rattle.build_program(program, cpu)
    print(f"  {program} took {clock.seconds():.0f} s, and {used:.0f} s of a processor", file=sys.stderr, flush=True)
    return (program, said) if status else None


def prove(libraries, sums, what):
    """Proves and builds those of these libraries, such as all below a program, that are not yet built; returns the first
    that failed with its output, or None."""
    for crate in libraries:
        bring_back(crate)
    work = Build(libraries, sums)
    if work.waiting:
        work.announce(what)
        with rattle.kept_from_rt(libraries):
            side_by_side(work.next, work.end)
    return work.failed


def build(program, cpu, sums):
    """Proves and builds the libraries below a program or a library, and then itself."""
    libraries = below(program) if is_program(program) else [*below(program), program]
    failed = prove(libraries, sums, f"for {program}")
    if is_program(program) and not failed:
        failed = build_program(program, cpu)
    return fail(*failed) if failed else 0


def main():
    if len(sys.argv) < 2 or sys.argv[1] not in listed():
        sys.exit("usage: build.py CRATE [CPU], with a crate of crates.txt")
    program, cpu = sys.argv[1], "".join(sys.argv[2:3])
    sums = Sums([program])
    if stands(program, sums, cpu):
        return 0
    all_sums = [sums, sums.of_code()]
    with alone():
        if not stands(program, all_sums[-1], cpu) and build(program, cpu, sums):
            return 1
        note(program, all_sums, cpu)
    return 0


if __name__ == "__main__":
    sys.exit(main())
