#!/bin/sh
# The package for Python: built and installed with its library, its tests, its types, the test vectors by its calls.
#
# It takes the proved static library, as scripts/checks/c.sh does. The package is built in a copy of the folder python/,
# and nothing is downloaded. For a wheel a Python needs pip, setuptools and wheel, for the compiled module the headers
# of CPython, and for the types there has to be mypy. Tests and vectors are run with that module and without.
set -u
cd "$(dirname "$0")/../.." || exit 1
. scripts/checks/lib.sh

needs python3 python3
installed_library
version=$(cat VERSION)
PYTHONDONTWRITEBYTECODE=1
export PYTHONDONTWRITEBYTECODE
# only the library of the package is to be found
unset PENDRATSOA_LIBRARY LD_LIBRARY_PATH

# What is installed: the wheel where it can be built, else the folder with the library in it.
mkdir "$work/python"
(cd python && tar -c --exclude='*.so' --exclude=build --exclude=dist --exclude='*.egg-info' .) |
  tar -x -C "$work/python"
case_of 'scripts/python.sh' sh scripts/python.sh "$work/python"
[ "$failed" -eq 0 ] || finish
compiled=
wheel=$work/python/dist/pendratsoa-$version-py3-none-linux_x86_64.whl
site=$work/python
if grep -q '^python.sh: there is no wheel' "$work/log"; then
  left_out 'the wheel' 'no python3 has pip, setuptools and wheel; the Debian packages python3-pip, .. have them'
else
  site="$work/a site"
  # as scripts/python.sh looks for it
  python=python3
  "$python" -c 'import setuptools, wheel, pip' 2> /dev/null || python=/usr/bin/python3
  found='import os, sysconfig; open(os.path.join(sysconfig.get_path("include"), "Python.h"))'
  if "$python" -c "$found" 2> /dev/null; then
    compiled=_compiled.abi3.so
  else
    left_out 'the compiled module' 'there are no headers of CPython; the Debian package python3-dev has them'
  fi
  set -- "$python" -m pip install --quiet --disable-pip-version-check --no-cache-dir --no-index --no-deps
  case_of 'pip install of the wheel' "$@" --target "$site" "$wheel"
  case_of 'pip install of the folder' "$@" --no-build-isolation --target "$work/other" "$work/python"
  rm -rf "$work/python/build"
  case_of 'pip install of the folder without a compiler' \
    env CC=no-compiler "$@" --no-build-isolation --target "$work/plain" "$work/python"
  (cd python/pendratsoa && ls ./*.py ./*.pyi py.typed && echo libpendratsoa.so) | sed 's|^./||' | sort > "$work/without"
  { cat "$work/without"; [ -z "$compiled" ] || echo $compiled; } | sort > "$work/wanted"
  for place in "$site" "$work/other" "$work/plain"; do
    [ "$place" != "$work/plain" ] || cp "$work/without" "$work/wanted"
    (cd "$place/pendratsoa" && find . -type f ! -name '*.pyc') | sed 's|^./||' | sort > "$out"
    same "the files of ${place##*/}" "$work/wanted" "$out"
  done
  if [ -n "$compiled" ]; then
    nm -D --defined-only "$site/pendratsoa/$compiled" | awk '{ print $3 }' > "$out"
    echo PyInit__compiled > "$work/wanted"
    same 'the names that the compiled module shows' "$work/wanted" "$out"
    headers=$("$python" -c 'import sysconfig; print(sysconfig.get_path("include"))')
    for compiler in cc clang; do
      if command -v $compiler > /dev/null; then
        case_of "the compiled module without a warning of $compiler" $compiler -std=gnu11 -O2 -Wall -Wextra -Wshadow \
          -Wconversion -Wsign-conversion -Werror -fsyntax-only -isystem "$headers" python/src/*.c
      else
        without "the compiled module without a warning of $compiler" $compiler
      fi
    done
  fi
fi

# Imported in an empty environment.
interpreter=$(python3 -c 'import sys; print(sys.executable)')
echo "$site/pendratsoa/__init__.py $version $([ -n "$compiled" ] && echo True || echo False)" > "$work/wanted"
prints 'the package in an empty environment' "$work/wanted" inside / \
  env -i PYTHONPATH="$site" PYTHONDONTWRITEBYTECODE=1 "$interpreter" -c \
  'import pendratsoa; print(pendratsoa.__file__, pendratsoa.library_version(), pendratsoa.COMPILED)'

# tests FOLDER COMMAND..: an interpreter runs the tests of a folder by unittest, some at least
tests() {
  folder=$1
  shift
  "$@" -m unittest discover -s "$folder" && grep -q '^Ran [1-9]' "$err"
}

PYTHONPATH=$site
export PYTHONPATH
for way in '' 1; do
  without=${way:+, without the compiled module}
  case_of "the tests$without" tests python/tests env PENDRATSOA_PURE=$way python3
  for other in python3.9 python3.10 python3.11 python3.12 python3.13 python3.14; do
    if "$other" -c '' 2> /dev/null && [ "$("$other" --version)" != "$(python3 --version)" ]; then
      case_of "the tests by $other$without" tests python/tests env PENDRATSOA_PURE=$way "$other"
    fi
  done
done
case_of 'the tests of the example' tests examples/python python3
cat conformance/*.txt conformance/json/*.txt > "$work/lines" 2> "$err"
outcome 'the lines of the test vectors' $?
for way in '' 1; do
  counted "the test vectors${way:+, without the compiled module}" \
    env PENDRATSOA_PURE=$way python3 scripts/checks/conformance_calls.py < "$work/lines"
  counts_lines "$work/lines" 'record|fields'
done
# python_of PAGE: its blocks of Python
python_of() {
  awk '/^```python$/ { inside = 1; next } /^```$/ { inside = 0 } inside' "$1"
}

{
  echo 'from pendratsoa import Message, Stream'
  python_of README.md
} > "$work/readme.py"
case_of 'the Python of README.md' python3 "$work/readme.py"
cut -d ' ' -f 1 "$work/log" > "$out"
printf '%s\n' Start InputCommand GetLazyStateCompletionNotification > "$work/wanted"
same 'what it prints' "$work/wanted" "$out"
python_of docs/TUTORIAL.md > "$work/tutorial.py"
case_of 'the Python of docs/TUTORIAL.md' python3 "$work/tutorial.py"
cp "$work/log" "$out"
awk '/^```python$/ { after = 1 } after && /^    [0-9]/ { print substr($0, 5) }' docs/TUTORIAL.md > "$work/wanted"
same 'what the program of docs/TUTORIAL.md prints' "$work/wanted" "$out"
# The parts of the page: each in a file, with what it prints, which is indented after it; the second is of the proxy.
mkdir "$work/page"
awk -v folder="$work/page" '
  /^```python$/ { file = folder "/part" ++parts ".py"; next }
  /^```$/ { file = ""; next }
  file != "" { print > file; next }
  parts > 0 && /^    / { print substr($0, 5) > (folder "/part" parts ".wanted") }
' python/README.md
cp examples/streams/* "$work/page"
cp examples/streams/replay "$work/page/journal"
PYTHONPATH=$site:python/tests python3 -c \
  'import sys, descriptors; sys.stdout.buffer.write(descriptors.SMALL)' > "$work/page/set.binpb"
for part in 1 3 4 5 6 7; do
  if [ $part -eq 3 ] && python3 -c 'import sys; sys.exit(sys.version_info >= (3, 10))'; then
    left_out 'the match of python/README.md' 'this python3 is older than 3.10'
    continue
  fi
  prints "the lines of python/README.md, part $part" "$work/page/part$part.wanted" inside "$work/page" \
    python3 part$part.py
done
case_of 'the proxy of python/README.md' python3 -B scripts/checks/is_part.py "$work/page/part2.py" \
  examples/python/proxy.py
counted 'the proxy' python3 -B scripts/checks/proxied.py --record python3 examples/python/proxy.py
counted 'replays beside whole journals' python3 -B scripts/checks/replays.py 7 4000
for way in '' 1; do
  counted "the replays${way:+, without the compiled module}" \
    env PENDRATSOA_PURE=$way python3 -B scripts/checks/replayed.py python3 examples/python/replay.py
done

# The pages of the API are made without the library.
for name in pendratsoa pendratsoa.messages; do
  PENDRATSOA_LIBRARY=/nowhere PYTHONPATH=$PWD/python python3 -m pydoc $name > "$out" 2> "$err"
  [ $? -eq 0 ] && grep -q '^CLASSES$' "$out"
  outcome "the page of $name without the library" $?
done

if command -v mypy > /dev/null; then
  (cd "$work/python" && mypy --cache-dir=/dev/null) > "$out" 2> "$err"
  outcome 'the types' $?
  for file in examples/python/listing.py examples/python/proxy.py examples/python/replay.py \
    python/tests/records_types.py; do
    MYPYPATH=$site mypy --strict --cache-dir=/dev/null $file > "$out" 2> "$err"
    outcome "the types of $file" $?
  done
  # the second part is one of the proxy
  (cd "$work/page" && MYPYPATH=$site mypy --strict --cache-dir=/dev/null part[134567].py) > "$out" 2> "$err"
  outcome 'the types of the programs of python/README.md' $?
else
  without 'the types' 'mypy; the Debian package mypy has it'
fi

finish
