#!/bin/sh
# Compares the library, prost and the rules, on the test vectors and on random ones: bench/vectors.sh [OPTION..]
exec python3 -B "$(dirname "$0")/vectors.py" "$@"
