#!/bin/sh
# Makes a Debian package of the programs and the library for C: scripts/package.sh [--arm64] [FOLDER]
exec python3 -B "$(dirname "$0")/package.py" "$@"
