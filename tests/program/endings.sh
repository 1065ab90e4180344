#!/bin/sh
# Runs `script` over an input that can't be read, with one of its allocations refused in each run
# (tests/memory/refuse.c): endings.sh PROGRAM. Running out of memory for the command line, the registry or the service is
# reported before anything about the input. So from the first allocation to the last the statuses begin with 6, 3 and 6,
# and 3 does not come again; 4 comes if the service was made all the same. Behind each fault stands one sentence.
set -u
program=$1
top=$(cd "$(dirname "$0")/../.." && pwd)
work=$(mktemp -d) || exit 1
trap 'rm -rf "$work"' EXIT
${CC:-cc} -shared -fPIC -o "$work/refuse.so" "$top/tests/memory/refuse.c" -ldl || exit 1

# the end with this allocation refused: the status, and the fault if one sentence stands behind it
end_with_refused() {
    REFUSE=$1 ALLOCATIONS=$work/count LD_PRELOAD=$work/refuse.so "$program" script </ >"$work/out" 2>"$work/err"
    end="$? $(head -n 1 "$work/err")"
    [ "$(wc -l <"$work/err")" -eq 2 ] || end="$end, and not one sentence behind it"
}

passed=0
failed=0
statuses=
check() {
    if [ -s "$work/out" ]; then
        end="$end, and something was written"
    fi
    case $end in
        "6 fault: Memory" | "3 fault: Memory" | "4 fault: Memory" | "4 fault: Read") passed=$((passed + 1)) ;;
        *)
            failed=$((failed + 1))
            echo "with allocation $1 refused: $end"
            ;;
    esac
    status=${end%% *}
    case $statuses in
        *" $status") ;;
        *) statuses="$statuses $status" ;;
    esac
}

end_with_refused 0
check 0
unrefused=$end
count=$(cat "$work/count" 2>/dev/null || echo 0)
statuses=
# every third is enough to meet them all
number=1
while [ "$number" -le "$count" ]; do
    end_with_refused "$number"
    check "$number"
    number=$((number + 3))
done
if [ "$unrefused" = "4 fault: Read" ] && echo "$statuses" | grep -qE '^ 6 3 6( [46])*$'; then
    passed=$((passed + 1))
else
    failed=$((failed + 1))
    echo "with an allocation refused the statuses are$statuses, and with none the end is '$unrefused'"
fi
echo "endings: $passed passed, $failed failed"
[ "$failed" -eq 0 ]
