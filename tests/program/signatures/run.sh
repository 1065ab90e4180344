#!/bin/sh
# Tests `registry`: run.sh PROGRAM
#   registry_sample      the sample: its registry, and the files that it identifies
#   registry_forms       the texts of sequences, what may be written in several ways, documents that are no signature files
#   registry_limits      signature files at each limit, and one past it; why something is left out
#   registry_random      random signature files, beside a model in Python
#   registry_documents   XML, beside Python's expat
#   registry_command     statuses, outputs and faults
#   registry_large       files of PRONOM's size and hostile ones, with the time and the memory that they may cost
# Most can do more than they do here: RANDOM_FILES=2000 DOCUMENTS=5000 PLACES=1.
set -u
tests=$(cd "$(dirname "$0")/../.." && pwd)
. "$tests/lib/modules.sh"
# the model, and samples of common formats
export PYTHONPATH="$tests:$tests/program/model:$tests/registry"
run_modules registry_sample registry_forms registry_limits registry_random registry_documents registry_command registry_large
