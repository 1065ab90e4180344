#!/bin/sh
# Tests a built program, by default the released one: run.sh [PROGRAM]. `make test` runs it.
#   program    its command line and its streams; folders, submissions, journals, pages
#   registry   the registry of everyday formats
#   memory     allocations refused and counted
# It needs Python 3 and a C compiler, names what else is missing, and leaves out what needs that. With INSTALL=1, as root, it
# installs what is missing by apt-get.
set -u
top=$(cd "$(dirname "$0")/.." && pwd)
program=${1:-}
if [ -z "$program" ]; then
    program=$(python3 -B "$top/tools/release.py" path) || exit 1
fi
case $program in
    /*) ;;
    *) program=$PWD/$program ;;
esac
python3 -B "$top/tools/release.py" which "$program" || exit 1
python3 -B "$top/tests/needs.py" || exit 1
work=$(mktemp -d) || exit 1
trap 'rm -rf "$work"' EXIT

status=0
for part in program registry memory; do
    begun=$(date +%s)
    sh "$top/tests/$part/run.sh" "$program" >"$work/said" 2>&1 || status=1
    cat "$work/said"
    echo "tests/$part took $(($(date +%s) - begun)) s"
    tail -n 1 "$work/said" >>"$work/counts"
done
# (a part that broke off before its last line has counted nothing)
awk '/^[0-9]+ passed, [0-9]+ failed$/ { counted++; passed += $1; failed += $3 }
     END { failed += 3 - counted; print passed + 0 " passed, " failed + 0 " failed" }' "$work/counts"
[ "$status" -eq 0 ]
