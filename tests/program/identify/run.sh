#!/bin/sh
# Tests the program's `identify`: run.sh PROGRAM
#   bases      the bytes of each match, cut out of the files, beside a search by brute force
#   texts      plain text and what is none, beside Python's own decoders
#   sf_shape   the document of --json-sf, by a checker of its shape
#   forms      one file in each form, with PUIDs that PRONOM made public, and beside `profile`
#   names      lists, standard input, folders, links, and what can't be read
#   changing   files that change while they are read, and the folder in which the program is meanwhile
set -u
tests=$(cd "$(dirname "$0")/../.." && pwd)
. "$tests/lib/modules.sh"
export PRELOAD_STATES="$work/states.so" PRELOAD_CHANGES="$work/changes.so" PRELOAD_CHDIRS="$work/chdirs.so"
build_library ../folders/states.c "$PRELOAD_STATES"
build_library ../folders/changes.c "$PRELOAD_CHANGES"
build_library ../folders/chdirs.c "$PRELOAD_CHDIRS"
run_modules bases texts sf_shape forms names changing
