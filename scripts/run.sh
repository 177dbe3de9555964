#!/bin/sh
# Runs a program of this repository: the proved one if it is up to date, otherwise one that is built without the proofs.
#
#   scripts/run.sh [--proved] journal show [ARGUMENT]..
#       a stream in readable lines
#   scripts/run.sh [--proved] journal dump [ARGUMENT]..
#       a stream as JSON
#   scripts/run.sh [--proved] journal make [ARGUMENT]..
#       a stream of JSON lines
#   scripts/run.sh [--proved] journal diff [ARGUMENT]..
#       where two journals differ
#   scripts/run.sh [--proved] journal view [ARGUMENT]..
#       a page that shows a journal, or two side by side
#   scripts/run.sh [--proved] journal_list [ARGUMENT]..
#       the listing of a stream, of examples/streams/replay without arguments
#
# Before show, dump, make, diff and view, journal may be left out; list is journal_list. docs/PROGRAMS.md tells what
# arguments a program takes, and so does the program with --help.
#
# The first run without the proofs builds the program, in one to three minutes of CPU time, and keeps it; it is
# hundreds of times slower than the proved one. With --proved every crate below the program is proved first, which takes
# more than an hour of CPU time. The status is the program's own, and 2 if it is not run.
set -eu

top=$(cd "$(dirname "$0")/.." && pwd)

usage() {
  sed -n '2,23s/^# \{0,1\}//p' "$top/scripts/run.sh"
}

# Arguments are given to the program as they are: a parser here would have to follow each of its options.
how=--unproved
if [ "${1-}" = --proved ]; then
  how=
  shift
fi
crate=journal
case ${1-} in
  journal) shift ;;
  show | dump | make | diff | view) ;;
  journal_list | list)
    crate=journal_list
    shift
    ;;
  -h | --help | '')
    usage
    exit 0
    ;;
  *)
    usage >&2
    exit 2
    ;;
esac
if [ "$crate ${1-}" = 'journal view' ]; then
  shift
  if ! command -v python3 > /dev/null; then
    echo 'run.sh: view: there is no python3' >&2
    exit 2
  fi
  exec python3 "$top/view/make_page.py" $how "$@"
fi
[ "$crate $#" != 'journal_list 0' ] || set -- "$top/examples/streams/replay"
program=$(sh "$top/scripts/program.sh" $how "$crate") || exit 2
case $program in
  */unproved/*)
    echo 'run.sh: built without the proofs: it checks each access, and is hundreds of times slower than with --proved' \
      >&2
    ;;
esac
exec "$program" "$@"
