#!/bin/sh
# Tests `report`: run.sh PROGRAM
#   check_report.py   each number and each letter of the page, computed from the CSV in Python; faults; 100,000 rows
#   browser.py        the page in headless Chromium, if it is installed or can be
set -u
tests=$(cd "$(dirname "$0")" && pwd)
passed=0
failed=0
for test in check_report browser; do
    if python3 -B "$tests/$test.py" "$1"; then
        passed=$((passed + 1))
    else
        echo "$test: failed"
        failed=$((failed + 1))
    fi
done
echo "$passed passed, $failed failed"
[ "$failed" -eq 0 ]
