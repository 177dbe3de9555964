#!/bin/sh
# The library gives the results of the test vectors that are not random, by the program of tests/vectors.
#
# With the word '-' it is the lines on standard input that are checked, and not those of conformance/*.txt. The program
# is built without proofs, with checks of each access to memory, and needs a minute for some ten thousand lines. All
# lines but `record`, the random ones too, are checked by the C calls over the proved library (scripts/checks/c.sh)
# and by each package. Each line that fails is shown with the result of the library instead. That the program finds
# wrong results is shown first, by a wrong line of each kind.
set -u
cd "$(dirname "$0")/../.." || exit 1
. scripts/checks/lib.sh
. scripts/keeping_kit.sh

case $#:${1-} in
  0:) lines='' ;;
  1:-) lines=- ;;
  *) echo "usage: conformance.sh [-]" >&2; exit 2 ;;
esac

# input: the lines to be checked
input() {
  if [ "$lines" = - ]; then cat; return; fi
  find conformance conformance/replays -maxdepth 1 -name '*.txt' ! -name 'random_*' -exec cat {} +
}

input > "$work/lines" 2> "$err"
outcome 'the lines of the test vectors' $?
unproved_crate vectors \
  shared_core shared_core_canonical shared_core_fields shared_core_fields_writer shared_core_codec shared_core_base \
  replay_bench bytes hex
sources tests/vectors "$crate/src"
keeping_kit "$work"
# the program is kept; here it is run without input
(cd "$crate" && "$work/kit/bin/rt" try --steps 1 < /dev/null) > "$out" 2> "$err"
if [ ! -x "$work/program" ]; then
  outcome 'the program of tests/vectors does not compile' 1
  finish
fi
"$work/program" < tests/vectors/wrong_lines.txt > "$out" 2> "$err"
status=$?
[ "$status" -eq 1 ] && cmp -s "$out" tests/vectors/wrong_lines.found
outcome 'wrong lines are found' $?
counted 'the test vectors' "$work/program" < "$work/lines"
counts_lines "$work/lines"
finish
