#!/bin/sh
# Tests the program's `submit`, over folders of this machine and 127.0.0.1 alone, and examples/client.py: run.sh PROGRAM
# The expected rows are those of Python's own walk, as for `profile`. Services that lie stand on the model in ../model.
set -u
tests=$(cd "$(dirname "$0")/../.." && pwd)
. "$tests/lib/modules.sh"
export PRELOAD_READS="$work/reads.so" PYTHONPATH="$tests:$tests/program/model:$tests/program/wire"
build_library ../folders/reads.c "$PRELOAD_READS"
run_modules submit_whole submit_numbers submit_known_numbers submit_states submit_names submit_begun submit_outputs \
    submit_options submit_check submit_texts submit_broken submit_cuts submit_steps submit_resumed submit_restarted submit_waits submit_timeout submit_refused submit_lies submit_disturbed \
    submit_at_once example_client
