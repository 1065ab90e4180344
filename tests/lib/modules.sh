# Sourced by the runners of tests in Python, `run.sh [PROGRAM]` (by default the released program), which set $tests, the folder tests/. It goes to the
# runner's folder, exports the program's path as DROID_DESK and the folder tests/ as PYTHONPATH, and makes a folder $work
# that it removes when the runner ends.
DROID_DESK=${1:-$(python3 -B "$tests/../tools/release.py" path)} || exit 1
case $DROID_DESK in
    /*) ;;
    *) DROID_DESK=$PWD/$DROID_DESK ;;
esac
export DROID_DESK PYTHONPATH="$tests"
cd "$(dirname "$0")" || exit 1
work=$(mktemp -d) || exit 1
trap 'rm -rf "$work"' EXIT

# Builds a library for LD_PRELOAD: SOURCE LIBRARY
build_library() {
    ${CC:-cc} -shared -fPIC -o "$2" "$1" -ldl || exit 1
}

# Runs modules of tests, each in a process of its own, and shows the output of those that fail.
run_modules() {
    passed=0
    failed=0
    for module in "$@"; do
        if python3 -S -B -m unittest -q "$module" 2>"$work/err"; then
            passed=$((passed + 1))
            echo "$module: $(tail -n 1 "$work/err")"
        else
            failed=$((failed + 1))
            cat "$work/err"
        fi
    done
    echo "$passed passed, $failed failed"
    [ "$failed" -eq 0 ]
}
