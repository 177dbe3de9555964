#!/bin/sh
# Compares the library, through the C API, with the baseline and the rules on random payloads and streams: agree.sh
# [--no-install] [SEED [COUNT [FIRST]]] The last line is 'N passed, M failed'; it is '0 passed, 0 failed' if the tools
# are missing.
set -u
cd "$(dirname "$0")" || exit 1

option=
if [ "${1-}" = --no-install ]; then
  option=$1
  shift
fi
sh build.sh $option
case $? in
  0) exec target/release/agree "$@" ;;
  77) echo "0 passed, 0 failed" ;;
  *) echo "0 passed, 1 failed"; exit 1 ;;
esac
