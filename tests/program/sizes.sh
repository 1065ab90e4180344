#!/bin/sh
# Runs the program and the model (model/main.py) on scripts that go past usual sizes, and compares their output byte for
# byte, and their status: sizes.sh PROGRAM. There is memory for all of it, so nothing is refused for memory.
set -u
program=$1
tests=$(cd "$(dirname "$0")" && pwd)
model=$tests/model
work=$(mktemp -d) || exit 1
trap 'rm -rf "$work"' EXIT

passed=0
failed=0
# NAME REGISTRY LINE..: the lines have to occur, so that the script goes as far as it has to
compare() {
    name=$1
    registry=$2
    shift 2
    "$model/large_script.py" "$name" >"$work/in"
    "$model/main.py" script --registry "$registry" <"$work/in" >"$work/expected"
    expected=$?
    "$program" script --registry "$registry" <"$work/in" >"$work/out"
    status=$?
    problem=
    for line in "$@"; do
        grep -qaE "^$line\$" "$work/expected" || problem="$problem no reply says $line;"
    done
    [ "$status" = "$expected" ] || problem="$problem ended with status $status;"
    cmp -s "$work/expected" "$work/out" || problem="$problem other replies;"
    if [ -z "$problem" ]; then
        passed=$((passed + 1))
    else
        failed=$((failed + 1))
        echo "script $name:$problem"
        diff -a "$work/expected" "$work/out" | cut -c1-200 | head -n 10
    fi
}

sample=$tests/sample_registry.csv
"$model/large_script.py" registry >"$work/registry.csv"
compare pieces "$sample" "taken 1001" "taken 4097" "taken 4200" "finished none false [0-9a-f]* -" "progress 4200 4200"
compare orders "$sample" "refused 13" "refused 14" "refused 15 0" "refused 15 7" "refused 16 5" "taken 58" "progress 30 [0-9]*" \
    "finished Signature false - .*" "finished Signature false [0-9a-f]{32} .*" "finished Signature false [0-9a-f]{64} .*" \
    "finished none false - -" "finished none false [0-9a-f]{32} -" "finished none false [0-9a-f]{64} -" "refused 12"
compare nodes "$sample" "node 1000" "node 3000" "abandoned" "part [0-9]* [0-9]* 1048576"
all_puids="dev/0{27}1,.*,dev/0{24}4096"
compare formats "$work/registry.csv" "finished Signature false [0-9a-f]* $all_puids" \
    "finished Extension false [0-9a-f]* $all_puids" "part 14 [0-9]{7} 1048576" "part 14 [0-9]{7} 0"
compare clients "$sample" "node 2000" "made 4"
compare filters "$sample" "part 5 193 193" "part 5 368 368"
echo "sizes: $passed passed, $failed failed"
[ "$failed" -eq 0 ]
