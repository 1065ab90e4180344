#!/bin/sh
# Tests the registries of everyday formats with the built program: run.sh [PROGRAM]
#   samples       the program identifies a file of each signature as its format, and a file that nearly has a format not
#   rows          some file needs each signature, priority and extension
#   names         formats by the extension
#   page          docs/COMMON_REGISTRY.md has the formats of the file
#   former        a journal goes on with a former registry
#   media_types   `file`, where it is installed, gives the same media types
# Python's library and other tools make the files, or they are written from their specifications.
set -u
tests=$(cd "$(dirname "$0")/.." && pwd)
. "$tests/lib/modules.sh"
run_modules samples rows names page former media_types
