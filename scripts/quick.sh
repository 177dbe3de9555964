#!/bin/sh
# What can be known within three minutes, without a proof: sh scripts/test.sh --quick [FOLDER..] calls it.
#
# It checks the tables, the pages and the generated files, the test vectors that are not random, and the tests of the
# folders of tests/ that are named, else those of the library; by programs that are built without proofs. The last line
# is 'N passed, M failed'.
set -u
cd "$(dirname "$0")/.." || exit 1

echo 'quick.sh: built without the proofs; sh scripts/test.sh proves all of it, runs every test and every test vector'
# those of programs and of the C calls need more libraries, and those of sizes and of memory minutes to run
[ $# -gt 0 ] || set -- $(ls tests/*/mod.rt.in | cut -d/ -f2 | grep -vxE 'ffi|list|measures|out_of_memory|sizes')
for name in "$@"; do
  if [ ! -e "tests/$name/mod.rt.in" ]; then
    echo "quick.sh: there are no tests tests/$name" >&2
    exit 2
  fi
done
. scripts/checks/lib.sh

# shown NAME STATUS: shows what is in $work/NAME, which a check printed that ended with this status, and adds its counts
shown() {
  sed '/^[0-9]* passed, [0-9]* failed$/d' "$work/$1"
  counts=$(sed -n '$p' "$work/$1")
  if ! tallied "$2" "$work/$1"; then
    echo "failed: $1, status $2"
    failed=$((failed + 1))
  fi
}

# two at a time; a signal from the terminal does not reach what is not waited for
sh scripts/checks/tests.sh "$@" > "$work/tests" 2>&1 &
tests=$!
trap 'kill $tests 2> /dev/null; rm -rf "$work"' EXIT
for check in layout planted table calls pages words generated description conformance; do
  if [ -e "scripts/checks/$check.py" ]; then
    python3 -B "scripts/checks/$check.py"
  else
    sh "scripts/checks/$check.sh"
  fi > "$work/$check" 2>&1
  shown "$check" $?
done
wait $tests
shown tests $?
tests=
finish
