#!/bin/sh
# Measures what docs/COSTS.md lists, and prints it beside Python's figures and the limits: `make bench`. DROID_DESK has
# the program's path.
set -u
cd "$(dirname "$0")" || exit 1
export PYTHONPATH="$PWD/.."
failed=0
for part in registries growth compare_export compare_folders_export compare_filters compare_store compare_run \
    compare_versions compare_profile compare_identify compare_verify signature_files memory_of_run compare_submit \
    compare_many compare_journal compare_links attacks; do
    python3 "$part.py" || failed=1
done
[ "$failed" -eq 0 ]
