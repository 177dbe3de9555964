#!/bin/sh
# Builds the library for C and that of the measuring calls, and then the programs of this folder with them:
# build.sh [--no-install]
#
# Where the tools are missing it says 'not run: ..' with status 77; a build that fails has status 1. With --no-install
# it installs no package.
set -u
cd "$(dirname "$0")" || exit 1

# folder PATH: the folder of a file, as an absolute path
folder() {
  (cd "$(dirname "$1")" && pwd)
}

sh install.sh "$@" || exit
if ! command -v rt > /dev/null; then
  echo "not run: there is no rt"
  exit 77
fi

log=$(mktemp) || exit 1
trap 'rm -f "$log"' EXIT
trap 'exit 143' HUP INT TERM
# quietly COMMAND..: runs it, and shows what it printed where it fails
quietly() {
  "$@" > "$log" 2>&1 || { cat "$log"; return 1; }
}

if command -v python3 > /dev/null; then
  quietly python3 ../tools/generate.py --check peer || exit 1
fi
quietly python3 -B ../scripts/build.py journal_ffi || exit 1
quietly python3 -B ../scripts/build.py bench_ffi || exit 1
# installed again only if it is new, since all is built again then
library=target/pendratsoa/lib/libpendratsoa.a
if [ ! -e $library ] || [ -n "$(find ../crates/journal_ffi/out/libjournal_ffi.a -newer $library)" ]; then
  quietly sh ../scripts/install.sh --library target/pendratsoa || exit 1
fi
# the programs take the static library, and rt ci takes no tree in which there are links
rm -f target/pendratsoa/lib/libpendratsoa.so target/pendratsoa/lib/libpendratsoa.so.0
PENDRATSOA_PREFIX=$PWD/target/pendratsoa
PENDRATSOA_STATIC=1
BENCH_FFI=$(folder ../crates/bench_ffi/out/libbench_ffi.a) || exit 1
RATTLE_C=$(folder "$(dirname "$(rt doc)")/c/liblibc_c.a") || exit 1
export PENDRATSOA_PREFIX PENDRATSOA_STATIC BENCH_FFI RATTLE_C
quietly cargo build --release --features json,library
