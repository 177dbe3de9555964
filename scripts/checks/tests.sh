#!/bin/sh
# The tests of tests/, compiled and run without proofs; also only of the folders that are named.
#
# They check the public API by its types, and what calls return and print where no contract says it. `rt try --test`
# compiles all of them as one crate, in a temporary copy of the sources, and stops at each fault of memory. Each test
# counts as one, and each folder has a line. Then each test of tests/out_of_memory runs once for each allocation that it
# makes, with that one failing (tests/c/refuse.c), and has to pass; each such run counts as one. At last each test of
# tests/waiting runs by itself, and what it holds is compared with a bound.
set -u
cd "$(dirname "$0")/../.." || exit 1
. scripts/checks/lib.sh
. scripts/keeping_kit.sh

if [ $# -eq 0 ]; then
  for folder in tests/*/mod.rt.in; do
    folder=${folder%/mod.rt.in}
    set -- "$@" "${folder#tests/}"
  done
fi
for folder in "$@"; do
  if [ ! -e "tests/$folder/mod.rt.in" ]; then
    echo "tests.sh: there are no tests tests/$folder" >&2
    exit 2
  fi
done

unproved_crate tests edit_script encoded_input shared_core_frames replay_bench shared_core_fields \
  shared_core_fields_writer shared_core_renumber stream_renumbering shared_core_json json_table \
  shared_core_json_reader stream_lines shared_core \
  shared_core_io shared_core_stream shared_core_base shared_core_wire shared_core_codec shared_core_message \
  shared_core_parts shared_core_runtime shared_core_state_commands shared_core_call_commands \
  shared_core_notifications bytes hex json
{
  echo '//! Tests.'
  echo '#![tactic(auto)]'
  for folder in "$@"; do
    printf '\n#[cfg(test)]\nmod %s;\n' "$folder"
  done
} > "$crate/src/lib.rt"
for folder in "$@"; do
  sources "tests/$folder" "$crate/src/$folder"
done

# as_library CRATE FOLDER [LIBRARY]: in the copy, a crate that no other can use is a library of public modules, which
# the tests of this folder use, and this other library
as_library() {
  [ -d "$crate/src/$2" ] || return 0
  top=$work/tree/crates/$1/src
  [ ! -e "$top/main.rt" ] || mv "$top/main.rt" "$top/lib.rt"
  sed -i 's/^mod /pub mod /' "$top/lib.rt"
  sed -i "s/^$1 staticlib:/$1:/; s/^tests: .*/& $1${3:+ $3}/" "$work/tree/crates.txt"
}

as_library readme_example streams anyhow
as_library journal_ffi ffi journal_c_api
as_library bench_ffi measures
as_library journal_list list

# the program is kept, and its allocations can be made to fail
can_refuse=no
if ! command -v cc > /dev/null; then
  keeping_kit "$work"
elif cc -O2 -fPIE -DWRAPPED -c -o "$work/refuse.o" tests/c/refuse.c; then
  can_refuse=yes
  keeping_kit "$work" --wrap=malloc --wrap=realloc --wrap=free "$work/refuse.o"
else
  outcome 'cc tests/c/refuse.c' 1
  finish
fi
(cd "$crate" && "$work/kit/bin/rt" try --test --steps 1 --seconds 3600) > "$out" 2> "$err"
status=$?
if ! grep -q '^test result: ' "$out"; then
  outcome 'the tests of tests/ do not compile' 1
  finish
fi
for folder in "$@"; do
  ok=$(grep -c "^test $folder::.* \.\.\. ok\$" "$out")
  all=$(grep -c "^test $folder::" "$out")
  passed=$((passed + ok))
  failed=$((failed + all - ok))
  [ "$all" -gt 0 ] || failed=$((failed + 1))
  echo "$folder: $ok of $all tests passed"
done
# a test that failed, with the lines after it
awk '/^test / { shown = / \.\.\. / && !/ \.\.\. ok$/ && !/^test result: / } shown' "$out"
[ "$status" -eq 0 ] || [ "$failed" -gt 0 ] || outcome 'rt try --test' 1

# nothing is looked for after the end of a run
ASAN_OPTIONS=detect_leaks=0
export ASAN_OPTIONS
# `alone` NAME FOLDER FILE LINES: a check that runs each test of a folder by itself, and its lines that end so are shown
alone() {
  if [ ! -d "$crate/src/$2" ]; then
    return
  elif [ "$can_refuse" = no ]; then
    without "$1" cc
    return
  fi
  sed -n "s/^test \($2::.*\) \.\.\. ok\$/\1/p" "$out" > "$work/names"
  counted "$1" python3 -B "scripts/checks/$3" "$work/program" < "$work/names"
  grep "$4\$" "$work/log"
}

alone 'each allocation failing' out_of_memory failing_allocations.py ' failed in turn'
alone 'what waits in a decoder' waiting waiting_memory.py ' bytes are held'
finish
