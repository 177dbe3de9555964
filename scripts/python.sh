#!/bin/sh
# Makes the package for Python whole: scripts/python.sh [FOLDER [LIBRARY PLATFORM]]; FOLDER is python/ or a copy of it.
#
# It puts the shared library next to the modules, so that 'pip install FOLDER' takes it along, and builds the wheel in
# FOLDER/dist, which needs a Python with pip, setuptools and wheel (Debian's python3-pip, python3-setuptools and
# python3-wheel). Nothing is downloaded. The library is that of scripts/install.sh, and needs what that needs, or the
# file LIBRARY, for a platform as manylinux_2_17_aarch64.
set -eu

case $#:${1-} in
  1:--help) sed -n '2,7s/^# \{0,1\}//p' "$0"; exit 0 ;;
  *:-* | 2:* | [4-9]:*) echo 'usage: python.sh [FOLDER [LIBRARY PLATFORM]]' >&2; exit 2 ;;
esac
top=$(cd "$(dirname "$0")/.." && pwd)
folder=${1:-$top/python}
work=$(mktemp -d)
trap 'rm -rf "$work"' EXIT
trap 'exit 143' HUP INT TERM

library=${2:-$work/prefix/lib/libpendratsoa.so}
[ $# -eq 3 ] || DESTDIR='' sh "$top/scripts/install.sh" --library "$work/prefix" > "$work/log"
rm -f "$folder/pendratsoa/libpendratsoa.so"
cp "$library" "$folder/pendratsoa/libpendratsoa.so"
echo "python.sh: the library is in $folder/pendratsoa"

for python in python3 /usr/bin/python3; do
  # setuptools first: after pip it does not find its own distutils
  if "$python" -c 'import setuptools, wheel, pip' 2> /dev/null; then
    # what an earlier build has left would be taken along
    rm -rf "$folder/build"
    "$python" -m pip wheel --quiet --disable-pip-version-check --no-cache-dir --no-index --no-deps \
      --no-build-isolation ${3:+--config-settings=--build-option=--plat-name=$3} --wheel-dir "$folder/dist" "$folder"
    echo "python.sh: the wheel is $(ls "$folder"/dist/*.whl)"
    exit 0
  fi
done
echo 'python.sh: there is no wheel, since no python3 has pip, setuptools and wheel'
