#!/bin/sh
# Measures the structs of messages in C against protobuf-c and libprotobuf: bench/messages.sh [--no-install]
exec python3 -B "$(dirname "$0")/messages.py" "$@"
