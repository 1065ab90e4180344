#!/bin/sh
# Refuses memory to a built program, by default the released one, and counts allocations: run.sh [PROGRAM]
#   commands_refused      `script` in both versions, `profile`, `verify` and `registry`, in the same way
#   requests_refused      streams of frames, in the same way
#   submissions_refused   `submit`, in the same way
#   submissions_bounded   `submit` to services that send without end
#   reports_refused       `report`, in the same way
#   journals_refused      `run` with a journal and `compact`, in the same way
#   journal_room          `run` with a journal, whose service goes on
#   large_allocations     every allocation above a limit refused
#   long_bodies           allocations for a body whose length is past the limit, and for one that comes in part
#   costs_of_requests     allocations for a request of each kind, by the table costs_of_requests
#   lasting_memory        memory that is held after long streams
# MODULES names some of them alone, or with a kit, as `make prove` does:
#   growths               the tests of crates that `rt ci` or `rt test` left in their out/, with each allocation refused in turn
set -u
tests=$(cd "$(dirname "$0")/.." && pwd)
. "$tests/lib/modules.sh"
export REFUSING="$work/refuse.so"
build_library refuse.c "$REFUSING"
# (the modules are words without spaces)
# shellcheck disable=SC2086
run_modules ${MODULES:-commands_refused requests_refused submissions_refused reports_refused journals_refused journal_room \
    large_allocations long_bodies costs_of_requests lasting_memory submissions_bounded}
