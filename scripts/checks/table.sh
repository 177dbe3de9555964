#!/bin/sh
# The description of the protocol agrees with what is hand-written from the protocol itself.
#
# proto/journal.proto is compared with the codes and the lines of conformance/, with the tables of the program that
# writes comparisons, and with the rules of bench/src/rules.rs. What is written from the description is the check
# 'generated'. It needs python3.
set -u
cd "$(dirname "$0")/../.." || exit 1
. scripts/checks/lib.sh

command -v python3 > /dev/null || not_run 'there is no python3'
stage python3 tools/judges.py
finish
