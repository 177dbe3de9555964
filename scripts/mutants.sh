#!/bin/sh
# Tries mutants, each of which the prover has to reject: scripts/mutants.sh --help tells how.
exec python3 -B "$(dirname "$0")/mutants.py" "$@"
