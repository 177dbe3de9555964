#!/bin/sh
# Runs what is run before a release, and then makes it: scripts/releasing.sh [OPTION..] FOLDER; --help says more.
exec python3 -B "$(dirname "$0")/releasing.py" "$@"
