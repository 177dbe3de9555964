#!/bin/sh
# Measures the library and the baseline: speed.sh [--check] [--only WORKLOAD] [--side ours|peer] [--what WORD] [--chunk
# N] [--row NAME] [--size N] [--rounds N]; README.md has the words
set -u
cd "$(dirname "$0")" || exit 1

sh build.sh
case $? in
  0) exec target/release/speed "$@" ;;
  77) exit 0 ;;
  *) exit 1 ;;
esac
