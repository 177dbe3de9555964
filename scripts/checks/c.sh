#!/bin/sh
# The library for C: installed, its constants and examples, a million adversarial calls.
#
# scripts/install.sh puts it into a folder and takes it away again, and both libraries show only the calls of
# include/pendratsoa.h. The examples in C and Python list streams alike, and as list_stream.py does; and
# tests/c/hostile_calls.c makes a million adversarial calls. It takes the proved static library, which
# scripts/build.py builds over what rt ci has proved.
set -u
cd "$(dirname "$0")/../.." || exit 1
. scripts/checks/lib.sh
. scripts/checks/c_library.sh

static_library
tools=
emulator=

# Installed next to a file of another's, below a folder whose name is not plain.
prefix="$work/a prefix"
mkdir -p "$prefix/lib"
echo other > "$prefix/lib/other"
for words in '' '--install' '--library' '--libdir lib' "$prefix other"; do
  # shellcheck disable=SC2086 # the words are split
  sh scripts/install.sh $words > "$work/out" 2> "$work/err"
  [ $? -eq 2 ] && grep -q '^usage: install.sh' "$work/err"
  outcome "install.sh $words" $?
done
without_compiler='there is no no-compiler, and it needs a C compiler and binutils'
CC=no-compiler sh scripts/install.sh --library "$prefix" > "$work/out" 2> "$work/err"
[ $? -eq 2 ] && [ "$(cat "$work/err")" = "install.sh: nothing is installed, since $without_compiler" ]
outcome 'install.sh without a compiler' $?
case_of 'install.sh --library' sh scripts/install.sh --library "$prefix"
case_of 'install.sh --library again' sh scripts/install.sh --library "$prefix"
[ "$failed" -eq 0 ] || finish
library=$prefix/lib/libpendratsoa.so

exported_names

# The programs of the page, by pkg-config where it is there; the page has every call's errors.
for number in 1 2 3 4; do
  awk -v number=$number '/^```c$/ { is_code = ++count == number; next } /^```$/ { is_code = 0 } is_code' docs/C.md \
    > "$work/page_$number.c"
  sed -n 's/^It prints `\(.*\)`\..*/\1/p' docs/C.md | sed -n "${number}p" > "$work/wanted_$number"
done
cp "$work/page_1.c" "$work/page.c"
cp "$work/wanted_1" "$work/wanted"
if command -v pkg-config > /dev/null; then
  # the folder has another name by then, which pkg-config can say without quotes
  plain=$work/plain
  ln -s "$prefix" "$plain"
  # shellcheck disable=SC2046 # the flags are split
  case_of 'the program of docs/C.md' cc -std=c99 -Wall -Wextra -Wpedantic -Wconversion -Werror "$work/page.c" \
    $(PKG_CONFIG_PATH=$plain/lib/pkgconfig pkg-config --cflags --libs pendratsoa) -o "$work/page"
  prints 'what it prints' "$work/wanted" env LD_LIBRARY_PATH="$prefix/lib" "$work/page"
  for number in 2 3 4; do
    # shellcheck disable=SC2046 # the flags are split
    case_of "program $number of docs/C.md" cc -std=c99 -Wall -Wextra -Wpedantic -Wconversion -Werror \
      "$work/page_$number.c" $(PKG_CONFIG_PATH=$plain/lib/pkgconfig pkg-config --cflags --libs pendratsoa) \
      -o "$work/page_$number"
    prints "what program $number of docs/C.md prints" "$work/wanted_$number" \
      env LD_LIBRARY_PATH="$prefix/lib" "$work/page_$number"
  done
  # shellcheck disable=SC2046 # the flags are split
  case_of 'the program of docs/C.md, linked statically' cc -static "$work/page.c" \
    $(PKG_CONFIG_PATH=$plain/lib/pkgconfig pkg-config --static --cflags --libs pendratsoa) -o "$work/page"
  prints 'what it prints, linked statically' "$work/wanted" "$work/page"
else
  without 'the program of docs/C.md' pkg-config
fi
if command -v cmake > /dev/null && command -v make > /dev/null; then
  mkdir "$work/cmake"
  cp "$work/page.c" "$work/cmake/frame.c"
  awk '/^```cmake$/ { is_code = 1; next } /^```$/ { is_code = 0 } is_code' docs/C.md > "$work/cmake/CMakeLists.txt"
  # the other library, and an older version, are found as well, and a later one is not
  {
    echo 'find_package(pendratsoa 0.1 REQUIRED)'
    echo 'find_package(pendratsoa 99 QUIET)'
    echo 'if(pendratsoa_FOUND)'
    echo '  message(FATAL_ERROR "version 99 is found")'
    echo 'endif()'
    echo 'add_executable(frame_static frame.c)'
    echo 'target_link_libraries(frame_static PRIVATE pendratsoa::static)'
  } >> "$work/cmake/CMakeLists.txt"
  case_of 'cmake with docs/C.md' cmake -DCMAKE_PREFIX_PATH="$prefix" -S "$work/cmake" -B "$work/cmake/build"
  case_of 'cmake --build' cmake --build "$work/cmake/build"
  for program in frame frame_static; do
    prints "what $program by cmake prints" "$work/wanted" "$work/cmake/build/$program"
  done
else
  without 'cmake with docs/C.md' 'cmake or make'
fi
sed -n 's/^#define \(JOURNAL_[A-Z_]*\) (\(-[0-9]*\)).*/\2 \1/p' include/pendratsoa.h > "$work/wanted"
sed -n 's/^| \(-[0-9]*\) | `\(JOURNAL_[A-Z_]*\)` .*/\1 \2/p' docs/C.md > "$work/out"
same 'the refusals of docs/C.md' "$work/wanted" "$work/out"

constants
test_vectors conformance/*.txt conformance/json/*.txt conformance/replays/*.txt
package_cases
numbering_cases

# The structs of messages: with sanitizers, where the compiler has them
echo 'int main(void) { return 0; }' > "$work/nothing.c"
sanitized='-O1 -g -fsanitize=address,undefined -fno-sanitize-recover=undefined'
for compiler in cc clang; do
  # shellcheck disable=SC2086 # the flags are split
  if $compiler $sanitized "$work/nothing.c" -o "$work/nothing" 2> "$err" && "$work/nothing"; then
    found=$compiler
    break
  fi
done
if [ -n "${found-}" ]; then
  # shellcheck disable=SC2086 # the flags are split
  message_structs 1000000 $sanitized
else
  without 'the structs of messages with sanitizers' 'compiler that has them'
  message_structs 1000000
fi
later_library
stream_reader
message_example "$prefix/lib/libpendratsoa.a" "$library"
# shellcheck disable=SC2086 # the flags are split
failing_message_example ${found:+$sanitized}
replay_example "$prefix/lib/libpendratsoa.a" "$library"

# The examples in C, without a warning of any compiler that is there, and the listing with each library.
example=examples/c/listing.c
strict='-Wall -Wextra -Wpedantic -Wconversion -Werror -O2'
for compiler in 'cc -std=c99' 'cc -std=c17' 'c++ -x c++ -std=c++11' 'clang -std=c99' 'clang++ -x c++ -std=c++17'; do
  if ! command -v "${compiler%% *}" > /dev/null; then
    without "$compiler $example" "${compiler%% *}"
    continue
  fi
  for file in $example examples/c/messages.c examples/c/replay.c tests/c/test_messages.c tests/c/test_numberings.c \
    tests/c/test_reader.c; do
    # shellcheck disable=SC2086 # the flags are split
    case_of "$compiler $file" $compiler $strict -I "$prefix/include" -c $file -o "$work/example.o"
  done
done
# shellcheck disable=SC2086 # the flags are split
case_of 'the listing with the static library' cc -std=c99 $strict -I "$prefix/include" $example \
  "$prefix/lib/libpendratsoa.a" -o "$work/static"
# shellcheck disable=SC2086 # the flags are split
case_of 'the listing with the shared library' cc -std=c99 $strict -I "$prefix/include" $example "$library" \
  -o "$work/shared"
PENDRATSOA_LIBRARY=$library
PYTHONPATH=python
PYTHONDONTWRITEBYTECODE=1
export PENDRATSOA_LIBRARY PYTHONPATH PYTHONDONTWRITEBYTECODE
python=
! command -v python3 > /dev/null || python=python3
[ -n "$python" ] || without 'the example in Python' python3

# listed NAME STREAM VERSION: the examples list a stream alike, and except the names after calls as the lister does
listed() {
  "$work/static" "$3" < "$2" > "$work/listed" 2> "$err"
  outcome "$1 at $3" $?
  python3 -B scripts/checks/list_stream.py "$3" < "$2" > "$work/listing"
  sed 's/^\([A-Z][A-Za-z]*CallCommand\|CallCommand\) \([0-9]*\) .*/\1 \2/' "$work/listed" > "$work/short"
  same "$1 at $3, beside the lister" "$work/listing" "$work/short"
  prints "$1 at $3, by the shared library" "$work/listed" env LD_LIBRARY_PATH="$prefix/lib" "$work/shared" "$3" < "$2"
  if [ -n "$python" ]; then
    prints "$1 at $3, in Python" "$work/listed" "$python" examples/python/listing.py "$3" < "$2"
  fi
}

listed 'a replay' examples/streams/replay 8
listed 'a recorded journal' examples/streams/recorded 8
grep -qx 'CallCommand 27 "Greeter" "greet"' "$work/listed"
outcome 'the names of a call' $?
listed 'an unknown type' examples/streams/unknown_type 9
# names whose lengths take two and three bytes as varints
python3 -B scripts/checks/write_stream.py names 20000 7 > "$work/long" 2> "$err"
outcome 'write_stream.py names' $?
listed 'long names' "$work/long" 8
awk -v length_of_call=$(($(wc -c < "$work/long") - 8)) 'BEGIN { while (i++ < 200) a = a "a"
  for (i = 0; i < 20000; i++) b = b "b"
  printf "CallCommand %d \"%s\" \"%s\"\nrest 0\n", length_of_call, a, b }' > "$work/wanted"
same 'the names of a call with long names' "$work/wanted" "$work/listed"
for kind in random mixed skipped; do
  python3 -B scripts/checks/write_stream.py $kind 200000 7 > "$work/$kind"
  outcome "write_stream.py $kind" $?
  version=8
  [ $kind != skipped ] || version=9
  listed "a $kind stream" "$work/$kind" $version
done
printf '\004\015\000\000\000\000\000\002\012\001' > "$work/malformed"
"$work/static" < "$work/malformed" > "$work/out" 2> "$work/err"
[ "$(sed 1q "$work/out")" = 'CallCommand 2 malformed' ]
outcome 'a malformed call' $?
# fails NAME STATUS LISTING WORDS: how a listing ended that has to fail with this status, and what it says then
fails() {
  [ "$status" -eq "$2" ] && [ "$(cat "$work/err")" = "$3: $4" ]
  outcome "$1: $3" $?
}

# Both examples have to say that the words are wrong, that the input cannot be read, and that the output is full.
for listing in listing listing.py; do
  case $listing in
    listing) set -- "$work/static" ;;
    *) [ -n "$python" ] || break; set -- "$python" examples/python/listing.py ;;
  esac
  for words in 10 4 '8 8' x; do
    # shellcheck disable=SC2086 # the words are split
    "$@" $words < examples/streams/replay > "$work/out" 2> "$work/err"
    status=$?
    [ ! -s "$work/out" ] || status=0
    fails "the words '$words'" 2 usage "$listing [5..9]"
  done
  "$@" > "$work/out" 2> "$work/err" <&-
  status=$?
  fails 'an input that is closed' 1 "$listing" 'input failed'
  if [ -c /dev/full ]; then
    "$@" < examples/streams/replay > /dev/full 2> "$work/err"
    status=$?
    fails 'a full output' 1 "$listing" 'output failed'
  fi
done
status=
# Python itself does not start on a folder
"$work/static" < "$work" > "$work/out" 2> "$work/err"
status=$?
fails 'an input that is a folder' 1 listing 'input failed'
status=

# Calls from an adversary.
compile_hostile_calls
case_of 'a million hostile calls' "$work/hostile" 1 1000000
cat "$work/log"
case_of 'hostile calls in four threads' "$work/hostile" 2 100000 4
if command -v valgrind > /dev/null; then
  quiet='valgrind -q --error-exitcode=9 --leak-check=full'
  # shellcheck disable=SC2086 # the words are split
  case_of 'valgrind: hostile calls' $quiet "$work/hostile" --heap 3 20000
  # shellcheck disable=SC2086 # the words are split
  case_of 'valgrind: the cases of numberings' $quiet "$work/test_numberings" "$work/schemas" \
    < conformance/numberings.cases
  # shellcheck disable=SC2086 # the words are split
  case_of 'valgrind: the listing' $quiet "$work/static" < "$work/mixed"
else
  without 'hostile calls, the cases of numberings and the listing' valgrind
fi

# Taken away, and nothing but that.
case_of 'install.sh --uninstall' sh scripts/install.sh --uninstall "$prefix"
find "$prefix" ! -type d > "$work/names"
echo "$prefix/lib/other" > "$work/wanted"
same 'what stands then' "$work/wanted" "$work/names"

finish
