#!/bin/sh
# Runs the checks that are named, or all of the gate: scripts/check.sh --help tells how.
exec python3 -B "$(dirname "$0")/check.py" "$@"
