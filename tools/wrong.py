#!/usr/bin/env python3
"""Tries wrong bodies, those of must-fail/ and of wrong-bodies/: `make wrong`. The prover has to refuse each.

It tries those of all crates, or of the named ones; with a base, of the crates that changed since that commit and
of the crates above. The libraries are those that `make prove` has left; where sources changed since then, it first
proves them as `make build` does. Then it checks each crate in copies with many wrong bodies at once, at most one for
each function: a proof uses only the contract of another function, and the check reports for each function whether it
is refused by itself. It checks the functions that change and those that they call alone. It tries alone the wrong
bodies that such a check leaves open, and checks the whole crate for changes outside of functions, and before it says
that one is not refused. It prints each wrong body that no clause refuses, and ends with status 0 if there is none.

It notes below out/refused/ which were refused, with checksums of the code of the crate and of all below it, and of the
edit. After an interrupt or a change it tries only the rest, and what no longer applies; with --anew it tries all. The
trials of a crate run one after the other over what the former ones kept of it, in out/wrong/ until all are done.
"""
import argparse
import collections
import os
import re
import shutil
import sys

import build
import crates
import rattle
from crates import EDITS, SOURCES, TOP, edits_of, folder, listed, touched, write
from edits import Edit, Texts
from functions import OF_NAMES, Said, function_of, name_of, names_of
from lanes import ONE_JOB, Clock, alone, side_by_side
from standing import CodeSums, Sums, note_refusal, was_refused

REFUSED, BY_NAME, BY_LIMIT, MISSED, BAD = range(5)
# the most in one check: more would leave processors idle at the end
MOST = 24
# the prover's messages about its own limits
LIMITS = re.compile(r"antt ran out of|outgrew the memory limit|stopped at the step limit|could not tell")


class Trial:
    """Wrong bodies of one crate that are tried in one copy of it. Each has the patterns of its functions' names by
    function, or none if it has to be tried alone. `is_whole` says that the whole crate is checked."""

    def __init__(self, crate, is_whole=False):
        self.crate, self.is_whole, self.edits, self.texts = crate, is_whole, {}, Texts(folder(crate))

    def names(self):
        """Returns the names of the functions to check, or none if the whole crate has to be."""
        if self.is_whole or not all(self.edits.values()):
            return []
        return [name_of(self.crate, *function) for places in self.edits.values() for function in places]

    def takes(self, edit, places):
        """Adds the edit if it fits to the others, and returns whether it does."""
        others = [it for known in self.edits.values() for it in known or [None]]
        if self.edits and (len(self.edits) >= MOST or not places or None in others or set(places) & set(others)):
            return False
        made = edit.applied(self.texts)
        if made is None and self.edits:
            return False
        self.edits[edit] = places
        self.texts = made or self.texts
        return True


def places_of(crate, edit):
    """Returns the functions that it changes, or none if it changes anything else."""
    texts, found = Texts(folder(crate)), {}
    for file, old, new in edit.changes:
        place = texts[file].find(old)
        function = function_of(texts[file], place) if place >= 0 else None
        if not function:
            return {}
        found[file, *function] = names_of(crate, file, *function)
        texts[file] = texts[file].replace(old, new)
    return found


def trials_with(crate, places, is_whole=False):
    """Distributes these wrong bodies over trials."""
    trials = []
    for edit, of in places.items():
        if not any(trial.takes(edit, of) for trial in trials):
            trials.append(Trial(crate, is_whole))
            trials[-1].takes(edit, of)
    return trials


def trials_of(crate, edits):
    return trials_with(crate, {edit: places_of(crate, edit) for edit in edits})


def parts_of(trial, left):
    """Yields trials of the wrong bodies that a trial left open: each alone, or two halves if it left all open, as when one
    of them doesn't compile. One that was alone is tried by a check of the whole crate."""
    size = (len(left) + 1) // 2 if len(left) == len(trial.edits) else 1
    for at in range(0, len(left), size):
        yield from trials_with(trial.crate, {edit: trial.edits[edit] for edit in left[at : at + size]}, len(trial.edits) == 1)


def link_kept(one, other):
    """Copies a file that an earlier check kept. A check replaces the file of a proved module and never changes it, so that
    a link is enough."""
    is_proved = one.endswith(".oantt")
    return os.link(one, other) if is_proved else shutil.copy2(one, other)


def kept_for(crate):
    """Returns the folder of what the trials of a crate keep. The first begins with what checks of the crate itself kept."""
    kept, own = os.path.join(TOP, "out", "wrong", crate), os.path.join(folder(crate), rattle.KEPT)
    if not os.path.isdir(kept) and os.path.isdir(own):
        shutil.rmtree(kept + ".new", ignore_errors=True)
        shutil.copytree(own, kept + ".new", copy_function=link_kept)
        os.rename(kept + ".new", kept)
    return kept


def checked(trial, tree):
    """Checks the crate with these wrong bodies in a folder of its own; returns the status and the output."""
    kept, names = kept_for(trial.crate), trial.names()
    try:
        crates.copy_sources(trial.crate, tree)
        for file, text in trial.texts.items():
            write(os.path.join(tree, file), text)
        status, said, _ = rattle.check(trial.crate, [*ONE_JOB, *rattle.only(names)], tree, kept)
        if rattle.unfit(status, said, names):
            status, said, _ = rattle.check(trial.crate, ONE_JOB, tree, kept)
        return status, said
    finally:
        shutil.rmtree(tree, ignore_errors=True)


def found_among_others(trial, said):
    """Returns the wrong bodies of which a function that no other changes is refused by itself, with the cause."""
    result, found = Said(said), {}
    for edit, places in trial.edits.items():
        paths = [[it for it in result.functions if names.fullmatch(it)] for names in (places or {}).values()]
        reasons = [result.refused(them[0]) for them in paths if len(them) == 1]
        reason = next(filter(None, reasons), None)
        if reason:
            found[edit] = REFUSED, reason
    return found


def found_alone(status, said):
    """Returns the result of a trial with one wrong body, and the output about it."""
    lines = said.rstrip("\n").split("\n")
    errors = [it for it in lines if re.match(r"(note: )?\S+:\d+:\d+:", it) and (": error" in it or it.startswith("note: "))]
    by_clause = [it for it in errors if not OF_NAMES.search(it)]
    if status == 0:
        return MISSED, "NOT REFUSED"
    if status == 3 and any(map(LIMITS.search, lines)):
        return BY_LIMIT, "refused only by a limit of the prover"
    if not any(it.startswith(("logic=not-proved", "only=")) for it in lines):
        return BAD, "NOT TRIED:\n    " + "\n    ".join(lines[:12])
    if errors and not by_clause:
        return BY_NAME, f"refused only because a proof file uses a name that it removed: {errors[0]}"
    return REFUSED, (by_clause or [""])[0]


class Trials:
    """The trials that wait, and the results. It notes refusals."""

    def __init__(self, trials, room, code):
        self.room, self.code, self.clock = room, code, Clock()
        self.number, self.found, self.waiting, self.work = 0, {}, list(trials), set()

    def next(self):
        """Returns the job for the next trial, or None: one of a crate that no other trial is in work of."""
        trial = next((it for it in self.waiting if it.crate not in self.work), None)
        if not trial:
            return None
        self.number += 1
        self.waiting.remove(trial)
        self.work.add(trial.crate)
        return self.run, trial, self.number

    def run(self, trial, number):
        edits = list(trial.edits)
        if edits[0].applied(Texts(folder(trial.crate))) is None:
            return trial, {edits[0]: (BAD, "NOT TRIED: an old text doesn't occur in its file exactly once")}
        status, said = checked(trial, os.path.join(self.room, str(number)))
        found = found_among_others(trial, said)
        alone = found_alone(status, said) if len(edits) == 1 and not found else None
        if alone and (alone[0] == REFUSED or not trial.names()):
            found = {edits[0]: alone}
        return trial, found

    def end(self, result):
        """Collects the results, and queues the rest again in smaller trials."""
        trial, found = result
        self.found.update(found)
        for edit in [it for it in found if found[it][0] == REFUSED]:
            note_refusal(edit, self.code)
        left = [edit for edit in trial.edits if edit not in found]
        self.clock.report(f"{trial.crate}: {len(found)} of {len(trial.edits)} settled" + f"; {len(left)} to be tried again" * bool(left))
        self.waiting[:0] = parts_of(trial, left)
        self.work.remove(trial.crate)
        if trial.crate not in [it.crate for it in self.waiting]:
            shutil.rmtree(os.path.join(TOP, "out", "wrong", trial.crate), ignore_errors=True)


def asked():
    """Reads the command line: the crates with wrong bodies, and whether to try all anew."""
    parser = argparse.ArgumentParser(description=__doc__, formatter_class=argparse.RawDescriptionHelpFormatter)
    parser.add_argument("--base", metavar="COMMIT")
    parser.add_argument("--anew", action="store_true")
    parser.add_argument("crates", metavar="CRATE", nargs="*")
    given = parser.parse_args()
    unknown = [crate for crate in given.crates if crate not in listed()]
    if unknown:
        parser.error(f"crates.txt has no line for {', '.join(unknown)}")
    found = touched(given.base, SOURCES + EDITS) if given.base else listed()
    return [crate for crate in found if edits_of(crate) and (not given.crates or crate in given.crates)], given.anew


def is_settled(edit, code):
    """Returns whether an earlier run has refused it and its old texts still stand: one may be a comment, and a changed
    comment leaves the checksums of the code as they were."""
    return was_refused(edit, code) and edit.applied(Texts(folder(edit.crate))) is not None


def tried(edits, code):
    """Proves the crates of these wrong bodies, and tries them; returns the result of each."""
    chosen = list(dict.fromkeys(edit.crate for edit in edits))
    failed = build.prove(crates.with_below(chosen), Sums(chosen), "with wrong bodies, and those below them")
    if failed:
        sys.exit(build.fail(*failed))
    trials = [trial for crate in chosen for trial in trials_of(crate, [it for it in edits if it.crate == crate])]
    # (the trials of a crate run one after the other, so the crate with most work comes first)
    seconds = build.seconds_of(chosen)
    work = {crate: seconds[crate] * sum(3 + len(it.edits) for it in trials if it.crate == crate) for crate in chosen}
    trials.sort(key=lambda trial: (-work[trial.crate], trial.crate, -len(trial.edits)))
    with crates.room("wrong") as room, rattle.kept_from_rt(crates.with_below(chosen)):
        work = Trials(trials, room, code)
        side_by_side(work.next, work.end)
        return work.found


def report(edits, found, kept):
    """Prints each that was not refused, and the last line; returns whether all were."""
    counts = collections.Counter({REFUSED: kept})
    for edit in edits:
        kind, text = found.get(edit, (BAD, "NOT TRIED"))
        counts[kind] += 1
        if kind != REFUSED:
            print(f"{edit.name}: {text}")
    by_earlier = f" ({kept} of them by an earlier run)" * bool(kept)
    by_limit = f", {counts[BY_LIMIT]} by a limit alone" * bool(counts[BY_LIMIT])
    print(f"{sum(counts.values())} wrong bodies: {counts[REFUSED]} refused{by_earlier}, {counts[BY_NAME]} refused for a name alone{by_limit}, {counts[MISSED]} not refused, {counts[BAD]} bad")
    return counts[REFUSED] == sum(counts.values())


def main():
    chosen, is_anew = asked()
    with alone():
        code = CodeSums(chosen)
        all_edits = [Edit(path) for crate in chosen for path in edits_of(crate)]
        edits = [it for it in all_edits if is_anew or not is_settled(it, code)]
        found = tried(edits, code) if edits else {}
    return 0 if report(edits, found, len(all_edits) - len(edits)) else 1


if __name__ == "__main__":
    sys.exit(main())
