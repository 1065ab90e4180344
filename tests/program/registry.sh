#!/bin/sh
# Runs the program with registry files, good and bad: registry.sh PROGRAM. With a bad one it writes nothing, prints
# the first fault and the number of its record, and on the next line a sentence that begins with the file's path and,
# for a record, its number; it ends with status 3, whatever its input is. With one that has no formats it prints a note.
set -u
program=$1
tests=$(cd "$(dirname "$0")" && pwd)
work=$(mktemp -d) || exit 1
trap 'rm -rf "$work"' EXIT
echo "1 1 create 65536 0" >"$work/in"
input=$work/in
echo "made 1" >"$work/made"
: >"$work/nothing"

passed=0
failed=0
# NAME FILE FAULT: the fault that the file comes to, or `-` for none, or `empty` for none and no formats
check() {
    status=3
    wanted=$work/nothing
    lines=2
    first="fault: $3"
    second="$2: "
    case $3 in
        *" at "*) second="$2: record ${3##* }: " ;;
        -) status=0 wanted=$work/made lines=0 first='' second='' ;;
        empty) status=0 wanted=$work/made lines=1 first="registry: $2 has no formats, so no file will be identified" second='' ;;
    esac
    "$program" script --registry "$2" <"$input" >"$work/out" 2>"$work/err"
    ended=$?
    said=$(sed -n 2p "$work/err")
    if [ "$ended" = "$status" ] && cmp -s "$wanted" "$work/out" && [ "$(wc -l <"$work/err")" -eq $lines ] &&
        [ "$(head -n 1 "$work/err")" = "$first" ] && { [ -z "$second" ] || [ "${said#"$second"}" != "$said" ]; }; then
        passed=$((passed + 1))
    else
        failed=$((failed + 1))
        echo "$1: ended with status $ended"
        head -n 5 "$work/out" "$work/err"
    fi
}

check sample "$tests/sample_registry.csv" -
check not_there "$work/not_there.csv" Read
check not_there_in_a_file "$work/in/registry.csv" Read
check a_folder "$work" Read
check empty "$work/nothing" empty
check no_file /dev/null empty

# a bad registry is reported before anything about the input
echo "hello" >"$work/hello"
head -c 67108865 /dev/zero >"$work/long"
printf 'X\n' >"$work/bad.csv"
input=$work/hello
check bad_before_a_bad_line "$work/bad.csv" "BadRecord at 1"
input=$work/long
check bad_before_a_long_input "$work/bad.csv" "BadRecord at 1"
input=$work/in

# NAME FAULT AT RECORDS, with escapes as printf has them; AT is the number of the faulty record
while read -r name fault at records; do
    printf '%b' "$records" >"$work/registry.csv"
    [ "$at" = - ] || fault="$fault at $at"
    check "$name" "$work/registry.csv" "$fault"
done <"$tests/registry_rows"

# each limit, met and passed by one: NAME FRONT LIMIT RECORD LAST AT
limit() {
    {
        printf '%b' "$2"
        awk -v count="$3" -v record="$4" 'BEGIN {
            for (n = 1; n <= count; n++) { line = record; gsub("#", n, line); printf "%s", line }
        }'
    } >"$work/registry.csv"
    check "$1" "$work/registry.csv" -
    printf '%b' "$5" >>"$work/registry.csv"
    check "$1_passed" "$work/registry.csv" "TooMany at $6"
}
limit formats '' 4096 'F,dev/#,A,,,\n' 'F,dev/4097,A,,,\n' 4097
limit extensions 'F,dev/1,A,,,\n' 16384 'E,dev/1,x,,,\n' 'E,dev/1,x,,,\n' 16386
limit priorities 'F,a,A,,,\nF,b,B,,,\n' 16384 'P,a,b,,,\n' 'P,a,b,,,\n' 16387
limit signatures 'F,a,A,,,\n' 16384 'S,a,BOF,0,0,61\n' 'S,a,BOF,0,0,61\n' 16386
limit sequences 'F,a,A,,,\n' 16384 'S,a,BOF,0,0,61\nB,a,BOF,0,0,61\n' 'B,a,BOF,0,0,61\n' 32770

{ printf 'F,a,A,,,\nS,a,BOF,0,0,'; yes 61 | head -n 2048 | tr -d '\n'; } >"$work/registry.csv"
check longest_pattern "$work/registry.csv" -
printf 61 >>"$work/registry.csv"
check pattern_too_long "$work/registry.csv" "BadPattern at 2"

yes '' | head -c 16777216 >"$work/registry.csv"
check longest_file "$work/registry.csv" empty
yes '' | head -c 16777217 >"$work/registry.csv"
check file_too_long "$work/registry.csv" TooLong
{ printf 'X\n'; yes '' | head -c 16777215; } >"$work/registry.csv"
check file_too_long_before_its_records "$work/registry.csv" TooLong

# the sample is what the program has without a registry
"$program" script <"$tests/../../examples/deposit.script" >"$work/without" 2>&1
"$program" script --registry "$tests/sample_registry.csv" <"$tests/../../examples/deposit.script" >"$work/with" 2>&1
if [ -s "$work/with" ] && cmp -s "$work/without" "$work/with"; then
    passed=$((passed + 1))
else
    failed=$((failed + 1))
    echo "the sample given as a file is answered otherwise than without a file"
fi
echo "registries: $passed passed, $failed failed"
[ "$failed" -eq 0 ]
