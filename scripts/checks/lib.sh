# What the checks share. A check goes to the top of the repository and says '. scripts/checks/lib.sh'; it has then a
# temporary folder, $work, a tally, and ends with 'finish', whose last line is 'N passed, M failed'. $out and $err are
# what a command printed, and $status, where it is set, is its status.

check=${0##*/}
check=${check%.sh}
passed=0
failed=0
work=$(mktemp -d) || exit 1
trap 'rm -rf "$work"' EXIT
# a signal that is not trapped leaves the folder there
trap 'exit 143' HUP INT TERM
out=$work/out
err=$work/err
status=
: > "$out"
: > "$err"

# finish: the last line, and the status of the check
finish() {
  echo "$passed passed, $failed failed"
  [ "$failed" -eq 0 ]
  exit
}

# not_run WHY: ends the check: nothing more of it can be run
not_run() {
  echo "$check: not run, since $1"
  finish
}

# needs TOOL PACKAGE: ends the check where there is no such tool, which is in this Debian package
needs() {
  command -v "$1" > /dev/null || not_run "there is no $1; the Debian package $2 has it"
}

# left_out WHAT WHY: says that a part is not run
left_out() {
  echo "$check: $1: not run, since $2"
}

# without WHAT TOOL: says that a part is not run, since a tool is missing
without() {
  left_out "$1" "there is no $2"
}

# outcome NAME STATUS: counts a case, which passed where the status is 0, and else shows how the command ended
outcome() {
  if [ "$2" -eq 0 ]; then
    passed=$((passed + 1))
  else
    failed=$((failed + 1))
    echo "failed: $1: ${status:+status $status, }standard output and standard error:"
    cut -c1-300 "$out" | head -n 20
    head -n 20 "$err"
  fi
}

# same NAME FILE FILE: counts a case, which passed where two files are the same and not empty
same() {
  if [ -s "$2" ] && cmp -s "$2" "$3"; then
    passed=$((passed + 1))
  else
    failed=$((failed + 1))
    echo "failed: $1"
    diff "$2" "$3" | head -n 20
  fi
}

# prints NAME FILE COMMAND..: counts a case that is a command, which passed where its status is 0 and it prints what is
# in a file, which is not empty
prints() {
  name=$1
  expected=$2
  shift 2
  "$@" > "$out" 2> "$err"
  status=$?
  if [ $status -eq 0 ]; then
    same "$name" "$expected" "$out"
  else
    outcome "$name" 1
  fi
  status=
}

# inside FOLDER COMMAND..: runs a command in a folder
inside() (
  cd "$1" || exit
  shift
  "$@"
)

# case_of NAME COMMAND..: counts a case that is a command, which passed where its status is 0
case_of() {
  name=$1
  shift
  "$@" > "$work/log" 2> "$err"
  ended=$?
  [ $ended -eq 0 ] || head -n 20 "$work/log"
  outcome "$name" $ended
}

# within SECONDS COMMAND..: ends a command after this many seconds. The command stays in the check's process group, so
# that a signal to the group reaches it.
within() {
  timeout --foreground "$@"
}

# counted NAME COMMAND..: a command whose last line is 'N passed, M failed', which are added to the tally as `tallied`
# does; lines that say what is not run are shown
counted() {
  name=$1
  shift
  "$@" > "$work/log" 2> "$err"
  ended=$?
  sed -n '/: not run, since /p' "$work/log"
  counts=$(sed -n '$p' "$work/log")
  if ! tallied $ended "$work/log"; then
    head -n 20 "$work/log"
    outcome "$name" 1
  elif [ "${counts##*, }" != '0 failed' ]; then
    head -n 20 "$work/log"
  fi
}

# counts_lines FILE [KINDS]: the command that was counted last has passed on each line of a file, except comments and
# the lines of these other kinds, as 'record|fields'
counts_lines() {
  echo "$(grep -cvE "^(#|\$${2:+|($2) })" "$1") passed, 0 failed" > "$work/wanted"
  echo "$counts" > "$out"
  same "$name: how many lines there are" "$work/wanted" "$out"
}

# static_library: the proved static library for C is crates/journal_ffi/out/libjournal_ffi.a; where it cannot be built
# the check ends with 'not run'
static_library() {
  needs cc gcc
  for tool in ld objcopy ar nm; do
    needs $tool binutils
  done
  python3 -B scripts/build.py journal_ffi
  case $? in
    0) ;;
    2) not_run 'there is no static library' ;;
    *) failed=1; finish ;;
  esac
}

# installed_library: the library for C is installed below $prefix, a folder in $work, where PKG_CONFIG_PATH,
# PENDRATSOA_LIBRARY (the shared library) and LD_LIBRARY_PATH lead; where it cannot be built the check ends with 'not
# run'
installed_library() {
  static_library
  prefix=$work/prefix
  case_of 'install.sh' sh scripts/install.sh --library "$prefix"
  [ "$failed" -eq 0 ] || finish
  PKG_CONFIG_PATH=$prefix/lib/pkgconfig
  PENDRATSOA_LIBRARY=$prefix/lib/libpendratsoa.so
  LD_LIBRARY_PATH=$prefix/lib
  export PKG_CONFIG_PATH PENDRATSOA_LIBRARY LD_LIBRARY_PATH
}

# wasm_module: $module is the WebAssembly module over the proved library; where it cannot be built it is empty
wasm_module() {
  module=$PWD/crates/journal_ffi/out/wasm/pendratsoa.wasm
  python3 -B scripts/wasm.py
  case $? in
    0) ;;
    2) module= ;;
    *) failed=$((failed + 1)); finish ;;
  esac
}

# program_of NAME: $program is a proved program, which rt ci or scripts/run.sh --proved leaves in out/ of its crate, or
# a link of this name to it; where there is none, or a source is newer, $program is empty and $why says so
program_of() {
  . scripts/up_to_date.sh
  crate=$(crate_of "$1")
  built=crates/$crate/out/$crate
  program=
  why=
  if [ ! -x "$built" ]; then
    why="there is no $built"
  elif ! is_up_to_date "$built" "$crate"; then
    why="$built is older than a source"
  else
    mkdir -p "$work/programs"
    program=$work/programs/$1
    ln -sfn "$PWD/$built" "$program"
  fi
  [ -z "$why" ] || why="$why; sh scripts/run.sh --proved $crate builds it"
}

# said STATUS [LINE]: the run ended with this status, and printed this line, or nothing, on the standard error
said() {
  : > "$work/line"
  [ $# -eq 1 ] || printf '%s\n' "$2" > "$work/line"
  [ "$status" -eq "$1" ] && cmp -s "$err" "$work/line"
}

# tallied STATUS FILE: adds $counts to the tally, the 'N passed, M failed' of a command that ended with this status and
# printed this file. The status is 1 where it has failed and has not counted that: where it counts nothing and does not
# say what is not run, too.
tallied() {
  add "$counts" || return 1
  case $counts in
    *', 0 failed') [ "$1" -eq 0 ] || return 1 ;;
  esac
  [ "$counts" != '0 passed, 0 failed' ] || grep -qE ': not (run|made), since ' "$2"
}

# add COUNTS: adds 'N passed, M failed' to the tally; the status is 1 where that is not what it is
add() {
  case $1 in
    [0-9]*' passed, '[0-9]*' failed') ;;
    *) return 1 ;;
  esac
  passed=$((passed + ${1%% *}))
  set -- "${1#*, }"
  failed=$((failed + ${1%% *}))
}

# unproved_crate NAME LIBRARY..: makes a copy of the crates' sources with one more crate, which uses these libraries;
# $crate is its folder, whose src/ is empty
unproved_crate() {
  for crate in crates/*; do
    for part in src specs proofs; do
      [ ! -d "$crate/$part" ] || { mkdir -p "$work/tree/$crate" && cp -R "$crate/$part" "$work/tree/$crate/"; }
    done
  done
  cp crates.txt "$work/tree/"
  crate=$work/tree/crates/$1
  mkdir -p "$crate/src"
  name=$1
  shift
  echo "$name: $*" >> "$work/tree/crates.txt"
}

# sources FOLDER TARGET: copies the sources of a folder of tests/ under the names that the compiler takes
sources() {
  mkdir -p "$2"
  for file in "$1"/*.rt.in; do
    name=${file##*/}
    cp "$file" "$2/${name%.in}"
  done
}

# processor_seconds: sets $seconds to the CPU time, in whole seconds, of all commands that have ended
processor_seconds() {
  # not in a pipeline: a subshell has times of its own
  times > "$work/times"
  seconds=$(tr 'ms' '  ' < "$work/times" | awk 'NR == 2 { printf "%d", 60 * $1 + $2 + 60 * $3 + $4 }')
}

# stage COMMAND..: runs a command, shows what it prints and its CPU time, and adds its last 'N passed, M failed', as
# `tallied` does
stage() {
  processor_seconds
  before=$seconds
  # none is there of a shell that does not come to its end
  : > "$work/stage.status"
  {
    "$@"
    echo "$?" > "$work/stage.status"
  } 2>&1 | tee "$work/stage"
  status=$(cat "$work/stage.status")
  processor_seconds
  echo "$*: $((seconds - before)) processor seconds"
  counts=$(awk '/^[0-9]+ passed, [0-9]+ failed$/ { line = $0 } END { print line }' "$work/stage")
  if ! tallied "${status:-1}" "$work/stage"; then
    echo "failed: $*, status $status"
    failed=$((failed + 1))
  fi
}
