#!/bin/sh
# Generated files are what tools/generate.py makes.
#
# Records, commands compared, names in JSON, test vectors, stored runs and the records of the baseline. It needs
# python3, for some files protoc, for some of these Python's protobuf; the random test vectors are for the check
# 'prost'. The man pages among them are read by man and mandoc, where these are installed.
set -u
cd "$(dirname "$0")/../.." || exit 1
. scripts/checks/lib.sh

python3 -c 'import tomllib' 2> /dev/null || not_run 'there is no Python 3.11, which reads TOML'
stage python3 tools/generate.py --check

# man and mandoc find nothing wrong with the man pages
for page in share/man/man1/*.1 share/man/man3/*.3; do
  if command -v mandoc > /dev/null; then
    mandoc -T lint "$page" > "$out" 2> "$err"
    status=$?
    outcome "mandoc -T lint $page" $status
  else
    without "$page by mandoc" mandoc
  fi
  if command -v man > /dev/null; then
    LC_ALL=C MANWIDTH=80 man --warnings -l "$page" > "$out" 2> "$err"
    status=$?
    [ $status -eq 0 ] && [ ! -s "$err" ]
    outcome "man $page" $?
  else
    without "$page by man" man
  fi
done
finish
