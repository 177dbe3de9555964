#!/bin/sh
# Measures the typed messages of each language against what its users would pick: bench/languages.sh [--no-install]
exec python3 -B "$(dirname "$0")/languages.py" "$@"
