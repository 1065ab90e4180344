#!/usr/bin/env python3
"""Checks a change before a commit: `make quick`. The gate is `make prove`.

It looks at the crates that differ from a commit, the last one or BASE, and reports each step as soon as it is done:
- whether the map fits the crates' files (map.py);
- each crate that changed is laid out;
- the functions of it that changed are proved, and those that read a changed file of specs/ or proofs/. That shows
  nothing of the rest of the crate;
- the whole crate is proved, over what earlier checks of it kept;
- its wrong bodies still apply (each old text occurs once in its file), and compile, as many at once as fit together.
  `make wrong` and the gate check that the prover refuses them;
- meanwhile, the tests of its family pass, without a proof. They are in the lowest crate of tests that names the crate,
  or else in the lowest that stands on it.
The libraries below are those that `make prove` has left. Where sources of them changed since then, or it has not run
here, it builds them first, as `make build` does. It does not prove the crates above those that changed, unless --above
is given: they stay proved if no contract changed.
"""
import argparse
import os
import sys

import build
import crates
import map as the_map
import rattle
from changes import functions_touched
from crates import EDITS, SOURCES, below, edits_of, folder, has_tests, is_program, listed, lowest_first, named, read, touched, with_below, write
from edits import Edit, Texts, all_applied
from lanes import Clock, alone, run_in, side_by_side
from standing import RT, Sums, is_for_rt, is_proved, stands

# the seconds that one test may take without a proof, when it is slow
MOST_SECONDS = "600"
# the names of functions that one line has at most, and of how many a first answer is given
SHOWN, MOST = 8, 60

CLOCK = Clock()


def rt(place, *words):
    """Runs rt there; returns whether it succeeded, and its output."""
    status, said, _ = run_in(place, [RT, *words])
    return status == 0, said


def tests_of(crate):
    """Returns the crate with the tests of a crate's family, or None."""
    found = [it for it in lowest_first(listed()) if it.endswith("_tests") and crate in [it, *below(it)]]
    naming = [it for it in found if crate in [it, *named()[it]]]
    return next(iter(naming + found), None)


def problems_of_layout(crate):
    works, said = rt(folder(crate), "fmt")
    if works:
        files = said.count("rt: formatted ")
        CLOCK.report(f"{crate} is laid out" + f": {files} files changed" * bool(files))
    else:
        yield f"{crate} cannot be laid out:\n{said}"


def checked(crate, names=(), sources=()):
    """Checks a crate, or these functions of it, with the sources of these libraries below it; returns the status and the
    output."""
    flags = [*rattle.only(names), *["--test"] * has_tests(crate)]
    if is_for_rt(below(crate)) and not sources:
        return run_in(folder(crate), [RT, "check", *flags])[:2]
    with rattle.kept_from_rt([*below(crate), crate]):
        status, said, _ = rattle.check(crate, [*flags, *rattle.jobs()], sources=sources)
    return status, rattle.what_matters(said)


def checked_alone(crate, functions, sources):
    """Checks these functions of a crate, and those that they call; returns the status and the output. Where a check doesn't
    know a function's name, all of its module is checked."""
    asked = {name: name for name in functions}
    while True:
        status, said = checked(crate, sorted({*asked.values()}), sources)
        unfit = rattle.unfit(status, said, [it for it in asked if asked[it] == it])
        if not unfit:
            return status, said
        asked[unfit] = functions[unfit]


def problems_of_functions(crate, functions, sources):
    """Proves the functions that a change touches."""
    clock = Clock()
    status, said = checked_alone(crate, functions, sources)
    what = f"the {len(functions)} function{'s' * (len(functions) > 1)} of {crate} with a changed text, proof or definition"
    over = f", over the sources of {', '.join(sources)}" * bool(sources)
    if status == 0:
        names = ", ".join(it.split(f"{crate}::")[-1] for it in sorted(functions)[:SHOWN]) + ", .." * (len(functions) > SHOWN)
        CLOCK.report(f"proved{over}, in {clock.seconds():.0f} s: {what}: {names}. THE CRATE IS NOT YET PROVED")
    elif status == 2:
        CLOCK.report(f"not checked ahead of the whole crate: {what}")
    else:
        yield f"not all proved{over}: {what}:\n{said}"


def first_problems(change, sums):
    """Gives a first answer: proves the functions that the change touches. It reads sources of libraries that aren't built;
    where none is, that would take too long."""
    for crate in change.sources:
        sources = [it for it in below(crate) if not is_proved(it, sums)]
        functions = {} if is_proved(crate, sums) else functions_touched(crate, change.base)
        if len(functions) > MOST:
            CLOCK.report(f"{crate} is checked as a whole at once: {len(functions)} functions have a changed text, proof or definition")
        elif functions and (not sources or len(sources) < len(below(crate))):
            for problem in problems_of_functions(crate, functions, sources):
                change.unproved.add(crate)
                yield problem


def problems_of_proof(crate):
    clock = Clock()
    status, said = checked(crate)
    if status == 0:
        more = "; it has imports that nothing uses: run `rt tidy` in its folder" if "--fix-imports removes" in said else ""
        CLOCK.report(f"{crate} is proved, in {clock.seconds():.0f} s{more}")
    else:
        yield f"{crate} is not proved:\n{said}"


def compiles(crate, at, edits):
    """Returns whether the crate compiles with these edits, and the output. `at` has a copy of it, which is restored."""
    files = set().union(*[edit.files() for edit in edits])
    before, made = {file: read(os.path.join(at, file)) for file in files}, all_applied(edits, Texts(at))
    for file in files:
        write(os.path.join(at, file), made[file])
    status, said, _ = rattle.check(crate, rattle.only([""]), at)
    for file in files:
        write(os.path.join(at, file), before[file])
    return status == 0, rattle.what_matters(said)


def batches_of(at, edits):
    """Puts the edits into batches of edits that apply one after the other."""
    batches = []
    for edit in edits:
        for batch in batches:
            texts = edit.applied(batch[1])
            if texts is not None:
                batch[0].append(edit)
                batch[1] = texts
                break
        else:
            batches.append([[edit], edit.applied(Texts(at))])
    return [edits for edits, _ in batches]


def edits_that_do_not_compile(crate, at, edits):
    """Tries each batch at once, and its edits one by one if the batch doesn't compile."""
    for batch in batches_of(at, edits):
        if compiles(crate, at, batch)[0]:
            continue
        for edit in batch:
            works, said = compiles(crate, at, [edit])
            if not works:
                yield edit, said


def not_applied(crate, edits):
    names = [os.path.basename(edit.name) for edit in edits]
    for edit, name in zip(edits, names):
        if names.count(name) > 1:
            yield f"{edit.name}: another wrong body of the crate has the same name"
        if edit.applied(Texts(folder(crate))) is None:
            yield f"{edit.name}: an old text doesn't occur exactly once in its file"


def not_compiled(crate, edits):
    with crates.room("quick") as at:
        crates.copy_sources(crate, at)
        for edit, said in edits_that_do_not_compile(crate, at, edits):
            yield f"{edit.name} does not compile:\n{said}"


def problems_of_edits(crate):
    edits, clock = [Edit(path) for path in edits_of(crate)], Clock()
    found = list(not_applied(crate, edits)) or (list(not_compiled(crate, edits)) if edits else [])
    if edits and not found:
        CLOCK.report(f"the {len(edits)} wrong bodies of {crate} apply and compile, in {clock.seconds():.0f} s")
    return found


def problems_of_tests(crate):
    clock = Clock()
    works, said = rt(folder(crate), "try", "--test", "--seconds", MOST_SECONDS)
    if works:
        CLOCK.report(f"{crate} passes its tests, without a proof, in {clock.seconds():.0f} s")
    else:
        yield f"{crate} does not pass its tests:\n{said}"


class Change:
    """The crates that differ from a commit: by their sources, or also by their wrong bodies; their families' crates of
    tests; and the crates above. `unproved` gets those of which a proof failed."""

    def __init__(self, base):
        self.base, self.unproved = base, set()
        self.sources = lowest_first(crates.changed(base, SOURCES))
        self.edited = lowest_first(crates.changed(base, SOURCES + EDITS))
        self.tests = list(dict.fromkeys(filter(None, map(tests_of, self.sources))))
        self.above = [it for it in touched(base, SOURCES) if it not in self.sources]


def problems_below(change, sums):
    """Builds the libraries below the crates that changed, where they are not built."""
    libraries = lowest_first({low for crate in change.edited for low in below(crate)})
    if not all(is_proved(it, sums) for it in libraries):
        failed = build.prove(libraries, sums, "below the crates that changed")
        if failed:
            yield "{} could not be proved or built:\n{}".format(*failed)


def problems_of_bodies(change, sums):
    """Proves the crates that changed, and then tries their wrong bodies."""
    for crate in [it for it in change.sources if it not in change.unproved]:
        if stands(crate, sums):
            CLOCK.report(f"{crate} is proved, by a build of it as it is")
        elif is_proved(crate, sums):
            CLOCK.report(f"{crate} is proved: since `make prove` or a build only comments changed in it and below it")
        else:
            for problem in problems_of_proof(crate):
                change.unproved.add(crate)
                yield problem
    for crate in change.edited:
        if crate not in change.unproved:
            yield from problems_of_edits(crate)


def problems_above(change, sums):
    """Proves the crates above those that changed: libraries side by side, and then programs and tests."""
    last = [it for it in change.above if is_program(it) or has_tests(it)]
    failed = build.prove(with_below([it for it in change.above if it not in last]), sums, "above the crates that changed")
    if failed:
        yield "{} could not be proved or built:\n{}".format(*failed)
    else:
        for crate in last:
            yield from problems_of_proof(crate)


def tell(problems):
    """Prints problems as they come; returns their number."""
    number = 0
    for problem in problems:
        print(problem, flush=True)
        number += 1
    return number


def problems_of(change, is_above):
    """Does all steps; returns the number of problems."""
    number = tell(the_map.problems())
    CLOCK.report(f"the map is checked: {number} problems")
    stopping = sum(tell(problems_of_layout(crate)) for crate in change.sources)
    sums = Sums([*change.edited, *change.above] if is_above else change.edited)
    found = [0 if stopping else tell(first_problems(change, sums))]
    stopping = stopping or tell(problems_below(change, sums))
    if stopping:
        return number + stopping + found[0]
    jobs = [(tell, problems_of_bodies(change, sums)), *((tell, problems_of_tests(crate)) for crate in change.tests)]
    side_by_side(lambda: jobs.pop(0) if jobs else None, found.append)
    if is_above and not any(found):
        found.append(tell(problems_above(change, sums)))
    return number + sum(found)


def asked():
    """Reads the command line: the commit to compare with, and whether to prove the crates above."""
    parser = argparse.ArgumentParser(description=__doc__, formatter_class=argparse.RawDescriptionHelpFormatter)
    parser.add_argument("base", metavar="COMMIT", nargs="?", default="HEAD")
    parser.add_argument("--above", action="store_true")
    given = parser.parse_args()
    return given.base, given.above


def main():
    base, is_above = asked()
    with alone():
        change = Change(base)
        number = problems_of(change, is_above)
    print(f"crates checked: {len(change.edited)}; problems: {number}")
    if change.above and not is_above:
        print(f"The {len(change.above)} crates above them are not proved: if a contract changed, `make quick ABOVE=1` proves them. `make prove` proves all.")
    return 1 if number else 0


if __name__ == "__main__":
    sys.exit(main())
