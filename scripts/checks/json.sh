#!/bin/sh
# JSON read as payloads: its test vectors; literal, free and damaged texts compared with protobuf's own parser.
#
# It takes the library for C by the package for Python, over the proved static library. It needs a C compiler, protoc
# and Python's protobuf.
set -u
cd "$(dirname "$0")/../.." || exit 1
. scripts/checks/lib.sh

judge=
for python in python3 /usr/bin/python3; do
  if command -v "$python" > /dev/null && "$python" -c 'import google.protobuf' 2> "$err"; then
    judge=$python
  fi
done
[ -n "$judge" ] || not_run 'there is no protobuf for python3; the Debian package python3-protobuf has it'
lacks=$(PYTHONPATH=tools python3 -B -c 'from generators import proto; print(proto.without_protoc() or "")')
[ -z "$lacks" ] || not_run "$lacks"
installed_library
PYTHONPATH=python
PYTHONDONTWRITEBYTECODE=1
export PYTHONPATH PYTHONDONTWRITEBYTECODE
counted 'test vectors' python3 scripts/checks/conformance_calls.py < conformance/json/readings.txt
counts_lines conformance/json/readings.txt
counted 'json_judge.py' "$judge" scripts/checks/json_judge.py 1 100 < conformance/json/records.txt
sed -n 's/^damaged texts: /json: damaged texts: /p' "$work/log"

finish
