#!/bin/sh
# Runs the program and the model (model/main.py) on random scripts with fixed seeds, and compares their output byte for
# byte, and their status: random.sh PROGRAM. Each script has every reply and every refusal from 1 to 17; the scripts of
# both versions have files with each hash and with none.
set -u
program=$1
tests=$(cd "$(dirname "$0")" && pwd)
model=$tests/model
work=$(mktemp -d) || exit 1
trap 'rm -rf "$work"' EXIT

# the beginnings of lines that have to occur in scripts of the first version, and in those of both
cat >"$work/kinds.first" <<'END_OF_KINDS'
made
node
taken
finished Signature true
finished Signature false
finished Extension false
finished none false
abandoned
progress
part
bad line
refused 17 profiles
refused 17 unfinished
END_OF_KINDS
seq 1 17 | sed 's/^/refused /' >>"$work/kinds.first"
{
    cat "$work/kinds.first"
    echo 'finished [A-Za-z]* [a-z]* -'
    echo 'finished [A-Za-z]* [a-z]* [0-9a-f]{32}'
    echo 'finished [A-Za-z]* [a-z]* [0-9a-f]{64}'
} >"$work/kinds.both"

passed=0
failed=0
# SEED COUNT REGISTRY VERSIONS ORDER
compare() {
    "$model/random_script.py" "$@" >"$work/in"
    "$model/main.py" script --registry "$3" <"$work/in" >"$work/expected"
    expected=$?
    "$program" script --registry "$3" <"$work/in" >"$work/out"
    status=$?
    problem=
    while read -r kind; do
        grep -qaE "^$kind( |\$)" "$work/expected" || problem="$problem no reply says $kind;"
    done <"$work/kinds.$4"
    [ "$status" = "$expected" ] || problem="$problem ended with status $status;"
    cmp -s "$work/expected" "$work/out" || problem="$problem other replies;"
    if [ -z "$problem" ]; then
        passed=$((passed + 1))
    else
        failed=$((failed + 1))
        echo "random script $*:$problem"
        diff -a "$work/expected" "$work/out" | head -n 10
    fi
}

"$model/random_registry.py" 3 12 >"$work/registry.csv"
compare 1 5000 "$tests/sample_registry.csv" first steady
compare 2 5000 "$work/registry.csv" first jumbled
compare 4 5000 "$tests/sample_registry.csv" both steady
compare 3 5000 "$work/registry.csv" both jumbled
echo "random scripts: $passed passed, $failed failed"
[ "$failed" -eq 0 ]
