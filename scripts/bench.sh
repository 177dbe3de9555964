#!/bin/sh
# Measures the library and its programs, and a baseline in Rust over prost, and compares the results of the two.
#
#   scripts/bench.sh speed [ARGUMENT..]       streams, messages, frames, comparisons and adversarial messages: items or
#                                             frames a second, and allocations
#   scripts/bench.sh programs [LENGTH]        journal_dump, journal_list and journal_make, in MB a second
#   scripts/bench.sh journals [LENGTH ..]     journal_diff on two equal journals of up to 100 MB
#   scripts/bench.sh aligned [COMMANDS]       journal_diff --all on two journals of 100,000 commands, and diff -u of
#                                             their dumps
#   scripts/bench.sh messages                 the structs of messages in C, protobuf-c and libprotobuf
#   scripts/bench.sh languages                the typed messages of each language and protobuf's own packages
#   scripts/bench.sh agree [SEED [COUNT]]     whether both agree on random payloads and streams, by the C calls
#   scripts/bench.sh vectors [SEED [COUNT]]   whether prost agrees with the test vectors of conformance/, and the
#                                             library with random ones that prost has read
#
# It needs a C compiler, cargo and Debian packages, which it installs; where something is missing it says 'not run' and
# why. bench/README.md has the arguments of each.
set -eu

usage() {
  sed -n '2,18s/^# \{0,1\}//p' "$0"
}

command=${1---help}
[ $# -eq 0 ] || shift
case $command in
  speed | programs | journals | messages | languages | agree | vectors)
    exec sh "$(dirname "$0")/../bench/$command.sh" "$@"
    ;;
  aligned) exec python3 "$(dirname "$0")/../bench/aligned.py" "$@" ;;
  --help) usage ;;
  *)
    usage >&2
    exit 2
    ;;
esac
