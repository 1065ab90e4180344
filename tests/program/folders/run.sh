#!/bin/sh
# Tests the program's `profile` and `verify` over folders of this machine: run.sh PROGRAM. The expected rows are those of Python's
# own walk, with hashlib's digests.
set -u
tests=$(cd "$(dirname "$0")/../.." && pwd)
. "$tests/lib/modules.sh"
export PRELOAD_READS="$work/reads.so" PRELOAD_CHANGES="$work/changes.so" PRELOAD_CALLS="$work/calls.so" PRELOAD_CLOCK="$work/clock.so"
export PRELOAD_CHDIRS="$work/chdirs.so" PRELOAD_STREAMS="$work/streams.so" PRELOAD_STATES="$work/states.so" PRELOAD_OUTPUTS="$work/outputs.so"
build_library reads.c "$PRELOAD_READS"
build_library changes.c "$PRELOAD_CHANGES"
build_library calls.c "$PRELOAD_CALLS"
build_library clock.c "$PRELOAD_CLOCK"
build_library chdirs.c "$PRELOAD_CHDIRS"
build_library ../streams.c "$PRELOAD_STREAMS"
build_library states.c "$PRELOAD_STATES"
build_library outputs.c "$PRELOAD_OUTPUTS"
run_modules profile_trees profile_names profile_random profile_skipped profile_reads profile_states profile_hashes profile_exchanged \
    profile_output profile_manifest profile_report profile_model profile_many profile_progress profile_arguments verify_lists \
    verify_unchecked verify_contradictions verify_steps verify_rows checksum_lists folder_calls working_folder long_paths \
    unfinished_files output_calls
