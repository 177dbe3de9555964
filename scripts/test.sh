#!/bin/sh
# scripts/test.sh [--quick [FOLDER..]]
#
# All tests: the gate (proves every crate, on a machine that has proved it before what changed and what is above it; the
# mutants of must-fail/, the stored runs of the programs), then the checks of 'scripts/check.sh all', which lists them;
# those that only a release needs are 'scripts/check.sh before_release'. With --quick (scripts/quick.sh): what can be
# known within three minutes, without a proof, and the tests of the folders of tests/ that are named. The last line is
# 'N passed, M failed', of all.
set -u
cd "$(dirname "$0")/.." || exit 1

case ${1-} in
  --quick)
    shift
    exec sh scripts/quick.sh "$@"
    ;;
  --help) sed -n '2,8s/^# \{0,1\}//p' scripts/test.sh; exit 0 ;;
esac
if [ $# -gt 0 ]; then
  echo 'usage: test.sh [--quick [FOLDER..]]' >&2
  exit 2
fi

. scripts/checks/lib.sh
stage rt ci
# these take the proved programs that rt ci has built
stage sh scripts/check.sh all
finish
