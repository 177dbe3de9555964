#!/bin/sh
# Takes the numbers of a runtime's own .proto file, on a copy: scripts/adopt.sh [OPTION..] THEIR.proto [OUT]; --help
# says more.
exec python3 -B "$(dirname "$0")/../tools/adopt.py" "$@"
