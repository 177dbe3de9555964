#!/bin/sh
# Large inputs: millions of reads, streams of 320 MB, payloads of 120 MB, in the programs and in the library for C.
#
# It takes the proved programs, and the proved static library as scripts/checks/c.sh does. scripts/checks/sweep.py tells
# how it is run over others.
set -u
cd "$(dirname "$0")/../.." || exit 1
. scripts/checks/lib.sh

needs python3 python3
PYTHONDONTWRITEBYTECODE=1
export PYTHONDONTWRITEBYTECODE
set --
for name in journal_list journal_diff journal_dump journal_make; do
  program_of $name
  [ -n "$program" ] || not_run "$why"
  set -- "$@" "$program"
done
counted 'the programs' python3 scripts/checks/sweep.py "$@"
installed_library
PYTHONPATH=python
export PYTHONPATH
counted 'the library for C' python3 scripts/checks/sweep.py -

finish
