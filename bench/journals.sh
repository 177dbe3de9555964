#!/bin/sh
# Measures the program journal_diff against the baseline's comparison, on two long journals that are the same, and
# prints a table in Markdown: journals.sh [--replay] [LENGTH ..]; README.md says more
#
# It takes the proved program that rt ci leaves in out/, and proves and builds it where it is not there. With --replay
# it measures replay.c instead, which checks one journal by the other as it comes, over the C library that build.sh
# makes. If the tools are missing it says 'not run: ..'.
set -u
cd "$(dirname "$0")" || exit 1

if [ "${1-}" = --replay ]; then
  shift
  # where a tool is absent it says so with status 77
  sh build.sh || exit $(($? != 77))
  work=$(mktemp -d) || exit 1
  trap 'rm -rf "$work"' EXIT
  trap 'exit 143' HUP INT TERM
  "${CC:-cc}" -O2 -Wall -Wextra -Werror -I target/pendratsoa/include replay.c target/pendratsoa/lib/libpendratsoa.a \
    -o "$work/replay" || exit 1
  target/release/journals "$work/replay" "$work" "$@"
  exit
fi
# where a tool is absent it says so with status 77
sh install.sh || exit $(($? != 77))
journal=$PWD/../crates/journal/out/journal
if [ ! -x "$journal" ]; then
  if ! command -v rt > /dev/null; then
    echo 'not run: there is no crates/journal/out/journal, and no rt'
    exit 0
  fi
  sh ../scripts/program.sh journal > /dev/null || exit 1
fi
work=$(mktemp -d) || exit 1
trap 'rm -rf "$work"' EXIT
trap 'exit 143' HUP INT TERM
ln -s "$journal" "$work/journal_diff"
if ! cargo build --release --bin journals > "$work/log" 2>&1; then
  cat "$work/log"
  exit 1
fi
target/release/journals "$work/journal_diff" "$work" "$@"
