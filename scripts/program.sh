#!/bin/sh
# Builds a program if it is not up to date, and prints where it is: scripts/program.sh [--unproved] CRATE
#
# The proved program is crates/CRATE/out/CRATE; to prove every crate below it takes more than an hour of CPU time.
# With --unproved it takes that one if it is up to date, and otherwise builds crates/CRATE/out/unproved/CRATE without
# the proofs, in one to three minutes of CPU time: half of them for the program, and half for a check next to it of
# what the compiler refuses. That program has an address sanitizer, which stops it at a bad access, and is hundreds
# of times slower. The toolchain has no other way: rt try takes no option that leaves these checks out, and rattle
# build, which optimises, makes nothing of what is not proved. The status is 2 where there is no rt.
set -eu
cd "$(dirname "$0")/.."
. scripts/keeping_kit.sh
. scripts/up_to_date.sh

is_unproved=no
if [ "${1-}" = --unproved ]; then
  is_unproved=yes
  shift
fi
if [ $# -ne 1 ] || [ ! -e "crates/$1/src/main.rt" ]; then
  echo 'usage: program.sh [--unproved] CRATE' >&2
  exit 1
fi
crate=$1
proved=crates/$crate/out/$crate
unproved=crates/$crate/out/unproved/$crate

# take PROGRAM: prints where an up-to-date program is, and ends
take() {
  if is_up_to_date "$1" "$crate"; then
    echo "$PWD/$1"
    exit 0
  fi
}

take "$proved"
[ "$is_unproved" = no ] || take "$unproved"
if ! command -v rt > /dev/null; then
  echo 'program.sh: nothing is built, since there is no rt, the command of the Rattle toolchain' >&2
  exit 2
fi

# tell_time: says every 15 seconds how long it has taken, as long as the script runs
tell_time() {
  seconds=0
  # anyone who reads what the script prints does not wait for this sleep
  while sleep 15 > /dev/null 2>&1 && kill -0 $$ 2> /dev/null; do
    seconds=$((seconds + 15))
    echo "program.sh: $seconds seconds" >&2
  done
}

work=$(mktemp -d)
tell_time > /dev/null &
trap 'kill $! 2> /dev/null || :; rm -rf "$work"' EXIT
trap 'exit 143' HUP INT TERM
# In both cases it is run, without input and arguments, and may fail then.
if [ "$is_unproved" = yes ]; then
  echo "program.sh: building $crate without the proofs, once, in one to three minutes of processor time; it is slow," \
    'since the toolchain optimises only what is proved' >&2
  keeping_kit "$work"
  (cd "crates/$crate" && "$work/kit/bin/rt" try --steps 1 < /dev/null) > "$work/log" 2>&1 || :
  if [ -e "$work/program" ]; then
    mkdir -p "${unproved%/*}"
    mv "$work/program" "$unproved"
  fi
  take "$unproved"
else
  echo "program.sh: proving $crate and what is not proved yet below it, which can take more than an hour" >&2
  (cd "crates/$crate" && rt run < /dev/null) > "$work/log" 2>&1 || :
  take "$proved"
fi
cat "$work/log" >&2
exit 1
