#!/bin/sh
# Makes the files of a release, of what is proved: scripts/release.sh [OPTION..] FOLDER; --help says more.
exec python3 -B "$(dirname "$0")/release.py" "$@"
