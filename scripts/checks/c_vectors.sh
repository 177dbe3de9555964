#!/bin/sh
# The C calls over the proved library give the results of the test vectors on the standard input, except lines of
# the kind record, which no call has.
set -u
cd "$(dirname "$0")/../.." || exit 1
. scripts/checks/lib.sh
. scripts/checks/c_library.sh

cat > "$work/given" || exit
installed_library
tools=
emulator=
test_vectors "$work/given"
finish
