#!/bin/sh
# Measures the programs journal_dump, journal_list and journal_make against the baseline's, which have to write the same
# bytes, and prints a table in Markdown: programs.sh [LENGTH]; README.md says more
#
# It takes the proved programs that rt ci leaves in out/, and proves and builds one where it is not there. If the
# tools are missing it says 'not run: ..'.
set -u
cd "$(dirname "$0")" || exit 1

# where a tool is absent it says so with status 77
sh install.sh || exit $(($? != 77))
for name in journal journal_list; do
  [ ! -x "../crates/$name/out/$name" ] || continue
  if ! command -v rt > /dev/null; then
    echo "not run: there is no crates/$name/out/$name, and no rt"
    exit 0
  fi
  sh ../scripts/program.sh $name > /dev/null || exit 1
done
work=$(mktemp -d) || exit 1
trap 'rm -rf "$work"' EXIT
trap 'exit 143' HUP INT TERM
if ! cargo build --release --features json --bin programs --bin dump --bin list --bin make > "$work/log" 2>&1; then
  cat "$work/log"
  exit 1
fi
set -- "$work" "$@"
for name in journal_make journal_dump; do
  ln -s "$PWD/../crates/journal/out/journal" "$work/$name"
done
set -- "$work/journal_dump" ../crates/journal_list/out/journal_list "$work/journal_make" "$@"
target/release/programs "$@"
