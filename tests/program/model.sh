#!/bin/sh
# Runs the model (model/main.py) on the cases and on registry files, as the program is run. It has to agree with their
# expectations, which were not taken from the program. Skips the cases of the command line's own text and of an input
# that is no file.
set -u
tests=$(cd "$(dirname "$0")" && pwd)
model=$tests/model/main.py

names=
for case in "$tests"/cases/*/; do
    grep -qs '^script' "$case/args" || continue
    [ "$(cat "$case/status" 2>/dev/null)" = 2 ] && continue
    grep -q -- --help "$case/args" || [ -f "$case/from" ] || names="$names $(basename "$case")"
done
echo "the model:"
failed=0
# both at once, since most of the time is Python's start; the names are words without spaces
# shellcheck disable=SC2086
sh "$tests/cases.sh" "$model" $names &
cases=$!
sh "$tests/registry.sh" "$model" &
registries=$!
wait "$cases" || failed=1
wait "$registries" || failed=1
[ "$failed" -eq 0 ]
