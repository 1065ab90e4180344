#!/bin/sh
# Runs a program on the cases of tests/program/cases and compares what it writes and how it ends.
#   cases.sh PROGRAM [CASE ..]     all cases, where none is named
# A case is a folder with any of these files; what is missing is empty, and the status 0:
#   args    the arguments, in one line; a file among them is one of the case's folder
#   in      standard input          in.sh  or a script that writes it   from  or a path that is opened
#   out     wanted standard output  out.sh or a script that writes it   to  or a path that it goes to
#   err     wanted standard error   err.sh or a script that writes it   err.has or a text that has to be in it
#   status  wanted exit status
set -u
cases=$(cd "$(dirname "$0")" && pwd)/cases
program=$1
shift
[ $# -gt 0 ] || set -- $(ls "$cases")
work=$(mktemp -d) || exit 1
trap 'rm -rf "$work"' EXIT

# where the case's standard input is; it is made where a script writes it
input_of() {
    if [ -f "$1/in.sh" ]; then
        sh "$1/in.sh" >"$work/in"
        echo "$work/in"
    elif [ -f "$1/from" ]; then
        cat "$1/from"
    elif [ -f "$1/in" ]; then
        echo "$1/in"
    else
        echo /dev/null
    fi
}

# what is wrong with what was written to standard output
wrong_output() {
    wanted=$1/out
    if [ -f "$1/out.sh" ]; then
        sh "$1/out.sh" >"$work/wanted"
        wanted=$work/wanted
    fi
    if [ -f "$wanted" ]; then
        cmp -s "$wanted" "$work/out" || echo "wrote something else"
    elif [ -s "$work/out" ]; then
        echo "wrote something"
    fi
}

# what is wrong with what was written to standard error
wrong_error() {
    if [ -f "$1/err.has" ]; then
        grep -qF -- "$(cat "$1/err.has")" "$work/err" || echo "did not say what it has to on standard error"
    elif [ -f "$1/err.sh" ]; then
        sh "$1/err.sh" >"$work/said"
        cmp -s "$work/said" "$work/err" || echo "said something else on standard error"
    elif [ -f "$1/err" ]; then
        cmp -s "$1/err" "$work/err" || echo "said something else on standard error"
    elif [ -s "$work/err" ]; then
        echo "said something on standard error"
    fi
}

passed=0
failed=0
for name in "$@"; do
    case=$cases/$name
    input=$(input_of "$case")
    output=$work/out
    [ -f "$case/to" ] && output=$(cat "$case/to")
    : >"$work/out"
    arguments=$(cat "$case/args" 2>/dev/null)
    # the arguments are words without spaces
    # shellcheck disable=SC2086
    (cd "$case" && exec "$program" $arguments) <"$input" >"$output" 2>"$work/err"
    status=$?
    problem=$(
        [ "$status" = "$(cat "$case/status" 2>/dev/null || echo 0)" ] || echo "ended with status $status"
        wrong_output "$case"
        wrong_error "$case"
    )
    if [ -z "$problem" ]; then
        passed=$((passed + 1))
    else
        failed=$((failed + 1))
        echo "$name: $problem"
        [ ! -f "$case/out" ] || diff -a "$case/out" "$work/out" | head -n 10
        head -n 10 "$work/err"
    fi
done
echo "cases: $passed passed, $failed failed"
[ "$failed" -eq 0 ] && [ "$passed" -gt 0 ]
