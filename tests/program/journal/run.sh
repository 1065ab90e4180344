#!/bin/sh
# Tests `run` and `serve` with a journal: run.sh PROGRAM
# KILLS is how often the service is killed (of journal_kills; 300 for all) and `compact` (of journal_compact), STEP of how many
# bytes one is changed (of journal_damage; 1 for all), BITS of how many bits (of journal_bits and journal_before; 1 for all).
set -u
tests=$(cd "$(dirname "$0")/../.." && pwd)
. "$tests/lib/modules.sh"
export PRELOAD_SYNCED="$work/synced.so" PRELOAD_PACED="$work/paced.so" PRELOAD_NOTED="$work/noted.so"
export PYTHONPATH="$tests:$tests/program/model:$tests/program/wire"
build_library synced.c "$PRELOAD_SYNCED"
build_library paced.c "$PRELOAD_PACED"
build_library noted.c "$PRELOAD_NOTED"
run_modules journal_format journal_files journal_calls journal_rows journal_smaller journal_compact journal_pieces journal_damage journal_bits \
    journal_before journal_places journal_repeats journal_full journal_operation journal_kills shared_syncs
