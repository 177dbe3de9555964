#!/bin/sh
# On arm64, under qemu: what the programs print; the library for C, by its constants, vectors, tests, adversarial calls.
#
# It is run before a release, and not by the gate. scripts/install.sh --target builds them over the libraries that rt ci
# or rt lib has proved, and proves the crates of the programs for that processor, in some eight minutes of CPU time; of
# the proof of journal_ffi it takes what scripts/build.py has kept for x86-64.
set -u
cd "$(dirname "$0")/../.." || exit 1
. scripts/checks/lib.sh
. scripts/checks/c_library.sh
. scripts/up_to_date.sh

target=aarch64-unknown-linux-gnu
tools=aarch64-linux-gnu-
emulator='qemu-aarch64 -L /usr/aarch64-linux-gnu'
prefix=$work/prefix

command -v rt > /dev/null || not_run 'there is no rt'
needs ${tools}gcc gcc-aarch64-linux-gnu
needs qemu-aarch64 qemu-user
[ -e /usr/aarch64-linux-gnu/include/stdlib.h ] ||
  not_run 'there is no C library for arm64; the Debian package libc6-dev-arm64-cross has it'
for name in $(below journal_ffi) $(below journal) $(below journal_list); do
  is_newer "crates/$name/out/rlib/$name.rlib" "$name" ||
    not_run "crates/$name/out/rlib is not there or older than a source; sh scripts/install.sh proves it"
done

case_of 'install.sh --target' sh scripts/install.sh --target $target "$prefix"
[ "$failed" -eq 0 ] || finish
exported_names
constants
test_vectors conformance/*.txt conformance/json/*.txt conformance/replays/*.txt
package_cases
numbering_cases
compile_hostile_calls
# shellcheck disable=SC2086 # the words are split
case_of 'adversarial calls' $emulator "$work/hostile" 1 20000
# shellcheck disable=SC2086 # the words are split
case_of 'adversarial calls in two threads' $emulator "$work/hostile" 2 5000 2
message_structs 20000
later_library
stream_reader
message_example "$prefix/lib/libpendratsoa.a"
replay_example "$prefix/lib/libpendratsoa.a"

# printed EMULATOR.. PROGRAM WORD..: all that a program prints, and its status on a line of its own
printed() {
  (cd examples/streams && "$@" 2>&1 < /dev/null)
  printf '\nstatus %s\n' $?
}

# alike STATUS NAME WORD..: a program ends with this status on both processors, and prints the same, on the standard
# error too
alike() {
  wanted=$1
  name=$2
  shift 2
  printed "$PWD/crates/$name/out/$name" "$@" > "$work/wanted"
  # shellcheck disable=SC2086 # the words are split
  printed $emulator "$prefix/bin/$name" "$@" > "$out"
  same "$name $*" "$work/wanted" "$out"
  [ "$(sed -n '$p' "$out")" = "status $wanted" ]
  outcome "the status of $name $*" $?
}

alike 0 journal_list replay
alike 0 journal_list replay 7 v9
alike 2 journal_list ./nothing
alike 1 journal_list --max-message 3 replay
alike 0 journal_list --help
alike 0 journal dump --strict replay
for file in cut_short unknown_type three_unknown_types; do
  alike 2 journal dump --strict $file
done
alike 0 journal show recorded
alike 0 journal show --failures cut_short
alike 0 journal make replay.dump
alike 1 journal diff recorded replayed_other_handler
alike 1 journal diff --all --json recorded replayed_other_handler
alike 2 journal diff recorded ./nothing
NO_COLOR=1 alike 1 journal diff --color always recorded replayed_other_payload
# shellcheck disable=SC2086 # the words are split
prints 'journal_dump of the replay' examples/streams/replay.dump $emulator "$prefix/bin/journal_dump" \
  examples/streams/replay

# The example, with each library
for listing in static shared; do
  case $listing in
    static) library=$prefix/lib/libpendratsoa.a ;;
    shared) library=$prefix/lib/libpendratsoa.so ;;
  esac
  compiled "the listing with the $listing library" -std=c99 -Wpedantic -Wconversion examples/c/listing.c "$library" \
    -o "$work/$listing"
  # shellcheck disable=SC2086 # the words are split
  prints "what the listing with the $listing library prints" examples/streams/replay.stdout \
    $emulator -E LD_LIBRARY_PATH="$prefix/lib" "$work/$listing" < examples/streams/replay
done

finish
