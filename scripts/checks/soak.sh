#!/bin/sh
# A client and a server on the loopback interface: ten million messages, read as they were sent, in memory that stays.
#
# tests/c/soak.c reads them by journal_next_within of the static library, in chunks of random sizes, from connections
# that end whole, within an item, after a message that is too long, and by a reset. soak.sh [MESSAGES] takes another
# number.
set -u
cd "$(dirname "$0")/../.." || exit 1
. scripts/checks/lib.sh

messages=${1:-10000000}
installed_library
sed -n 's/^frame [A-Za-z]* 9 .*= \([0-9a-f]\{16,\}\)$/\1/p' conformance/frames.txt conformance/random_frames.txt \
  > "$work/frames"
case_of 'soak.c' cc -O2 -std=gnu99 -Wall -Wextra -Werror -I "$prefix/include" tests/c/soak.c \
  "$prefix/lib/libpendratsoa.a" -o "$work/soak"
[ "$failed" -eq 0 ] || finish
case_of "$messages messages" within 300 "$work/soak" "$messages" < "$work/frames"
finish
