#!/bin/sh
# Tests a built program, by default the released one, by its command line and its streams alone: run.sh [PROGRAM]
#   cases.sh      cases, each with its input, its replies and its status
#   example       the script in examples/
#   registry.sh   registry files, good and bad
#   streams.sh    streams that are interrupted or fail
#   endings.sh    without memory for a service, that is reported before a fault of the input
#   model.sh      a model in Python, on the same cases
#   random.sh     the program and the model on random scripts
#   sizes.sh      and on scripts that go past usual sizes
#   pieces.py     files assembled from pieces: messages of the standards, a million letters, the largest files
#   repeats.py    requests of the cases that come again, beside the model
#   wire/run.sh   frames on standard streams and on connections, in Python
#   folders/run.sh   profiles of folders of this machine, in Python
#   journal/run.sh   `run` and `serve` with a journal: kills, power cuts, damage, a full disk, in Python
#   submissions/run.sh   folders submitted to a port, through connections that are cut, in Python
#   identify/run.sh  files in each form, beside a search by brute force, in Python
#   report/run.sh    pages of profiles, beside the same numbers computed in Python, and in a browser
#   signatures/run.sh   registries made of signature files, beside a model in Python
#   identification.py   a file of each shape by random registries, beside the model
#   install.py    the manual page, the completions and what `make install` writes
#   release.py    the released program: `make run` and `make install` without the kit, damaged releases, other machines
#   wrong.py      which wrong bodies `make wrong` tries again after a change, with an invented kit
#   quick.py      what `make quick` and `make build` take from `make prove`, with the same kit
#   readme.sh     the commands of README.md and of the crates' pages that have some, pasted into a shell
set -u
top=$(cd "$(dirname "$0")/../.." && pwd)
tests=$top/tests/program
program=${1:-$(python3 -B "$top/tools/release.py" path)} || exit 1
case $program in
    /*) ;;
    *) program=$PWD/$program ;;
esac
work=$(mktemp -d) || exit 1
trap 'rm -rf "$work"' EXIT

# Runs one part, shows its output when it has ended, and notes whether it failed.
part() {
    said=$(mktemp -p "$work")
    if "$@" >"$said" 2>&1; then
        ended=passed
    else
        ended=failed
        echo "$(basename "$2"): failed" >>"$said"
    fi
    cat "$said"
    echo "$ended" >>"$work/ended"
}

# compares the replies of the example with those of a program
example() {
    "$2" script <"$1/deposit.script" | cmp - "$1/deposit.replies"
}

# tests that use ports run one after the other, so that none takes another's port; the rest runs beside them
{
    part sh "$tests/wire/run.sh" "$program"
    part sh "$tests/journal/run.sh" "$program"
    part sh "$tests/submissions/run.sh" "$program"
    part sh "$tests/readme.sh" "$program"
    for page in $(grep -lx '    P=out/release/droid_desk' "$top"/crates/*/README.md); do
        part sh "$tests/readme.sh" "$program" "$page"
    done
} &
part sh "$tests/cases.sh" "$program"
part example "$top/examples" "$program"
part example "$top/examples" "$tests/model/main.py"
part sh "$tests/registry.sh" "$program"
part sh "$tests/streams.sh" "$program"
part sh "$tests/endings.sh" "$program"
part sh "$tests/model.sh"
part sh "$tests/random.sh" "$program"
part sh "$tests/sizes.sh" "$program"
part python3 "$tests/pieces.py" "$program"
part python3 "$tests/repeats.py" "$program"
part sh "$tests/folders/run.sh" "$program"
part sh "$tests/identify/run.sh" "$program"
part sh "$tests/report/run.sh" "$program"
part sh "$tests/signatures/run.sh" "$program"
part python3 "$tests/identification.py" "$program"
part python3 "$tests/install.py" "$program"
part python3 "$tests/release.py"
part python3 "$tests/wrong.py"
part python3 "$tests/quick.py"
# (0 unless it was ended)
wait "$!" || echo failed >>"$work/ended"
failed=$(grep -c failed "$work/ended")
echo "$(grep -c passed "$work/ended") passed, $failed failed"
[ "$failed" -eq 0 ]
