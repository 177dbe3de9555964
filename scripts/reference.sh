#!/bin/sh
# Makes the reference pages of every package: scripts/reference.sh [--only LANGUAGE].. FOLDER; --help says more.
exec python3 -B "$(dirname "$0")/reference/languages.py" "$@"
