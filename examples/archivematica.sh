#!/bin/sh
# A format identification command for Archivematica: it prints the PUID of the file $1, and fails where there is none.
# (Archivematica takes one PUID for a file: of several the first.)
puids=$(droid_desk identify --puid -- "$1") || exit 1
printf '%s\n' "$puids" | head -n 1
