# What scripts/checks/c.sh and scripts/checks/arm64.sh test alike of the library for C, which is installed below
# $prefix. $tools is how the names of the processor's tools begin, and $emulator runs its programs; both are empty for
# the processor that this is.

# compiled NAME FLAG..: a case that compiles C for the processor
compiled() {
  name=$1
  shift
  case_of "$name" "${tools:+${tools}g}cc" -O2 -Wall -Wextra -Werror -I "$prefix/include" "$@"
}

# exported_names: both libraries export only the calls of the two headers, and need only the C library
exported_names() {
  library=$prefix/lib/libpendratsoa.so
  awk '/^int64_t journal_/ { sub(/^int64_t /, ""); sub(/\(.*/, ""); print }' include/pendratsoa.h \
    include/pendratsoa_messages.h | sort > "$work/calls"
  "${tools}nm" -D --defined-only "$library" | awk '{ print $3 }' | sort > "$work/names"
  same 'the names of the shared library' "$work/calls" "$work/names"
  "${tools}nm" -g --defined-only "$prefix/lib/libpendratsoa.a" | awk 'NF == 3 { print $3 }' | sort > "$work/names"
  same 'the names of the static library' "$work/calls" "$work/names"
  "${tools}nm" -g --undefined-only "$prefix/lib/libpendratsoa.a" | awk 'NF == 2 { print $2 }' > "$work/names"
  grep -vxE 'malloc|realloc|free|mem(cpy|move|set|cmp)|bcmp|strlen' "$work/names" > "$err"
  [ -s "$work/names" ] && [ ! -s "$err" ]
  outcome 'the static library needs the C library alone' $?
  "${tools}readelf" -d "$library" | sed -n 's/.*(\(NEEDED\|SONAME\)).*\[\(.*\)\]$/\1 \2/p' | sort > "$work/names"
  printf '%s\n' 'NEEDED libc.so.6' 'SONAME libpendratsoa.so.0' > "$work/wanted"
  same 'what the shared library needs and is called' "$work/wanted" "$work/names"
}

# constants: each constant of the header compared with what the library returns, and none of them left out
constants() {
  compiled 'constants.c' -std=c99 -Wpedantic tests/c/constants.c "$prefix/lib/libpendratsoa.a" \
    -Wl,--wrap=malloc,--wrap=realloc -o "$work/constants"
  # shellcheck disable=SC2086 # the words are split
  $emulator "$work/constants" > "$out" 2> "$err"
  outcome 'the constants of the header' $?
  sort -u "$out" > "$work/names"
  sed -n 's/^#define \(JOURNAL_[A-Z0-9_]*\)[ (].*/\1/p' include/pendratsoa.h | sort > "$work/wanted"
  same 'the constants that tests/c/constants.c reads' "$work/wanted" "$work/names"
}

# schemas: the names of schemas in the order of their numbers, as $work/schemas
schemas() {
  awk '/^message / { name = $2 } /^  option \(schema\) = / { print $4 + 0, name }' proto/journal.proto \
    | sort -n | cut -d' ' -f2 > "$work/schemas"
}

# test_vectors FILE..: the test vectors of these files, by the C calls
test_vectors() {
  cat "$@" > "$work/lines" 2> "$err"
  outcome 'the lines of the test vectors' $?
  compiled 'test_vectors.c' -std=c99 -Wpedantic -Wconversion tests/c/test_vectors.c "$prefix/lib/libpendratsoa.a" \
    -o "$work/test_vectors"
  schemas
  # shellcheck disable=SC2086 # the words are split
  counted 'the test vectors' $emulator "$work/test_vectors" "$work/schemas" < "$work/lines"
  counts_lines "$work/lines" record
}

# package_cases: the cases of conformance/packages.cases, by the headers of C
package_cases() {
  compiled 'test_packages.c' -std=c99 -Wpedantic -Wconversion tests/c/test_packages.c "$prefix/lib/libpendratsoa.a" \
    -o "$work/test_packages"
  schemas
  # shellcheck disable=SC2086 # the words are split
  counted 'the cases of packages' $emulator "$work/test_packages" "$work/schemas" < conformance/packages.cases
  counts_lines conformance/packages.cases 'as|message|not_strict|text|name'
}

# numbering_cases: the cases of conformance/numberings.cases
numbering_cases() {
  compiled 'test_numberings.c' -std=c99 -Wpedantic -Wconversion tests/c/test_numberings.c \
    "$prefix/lib/libpendratsoa.a" -o "$work/test_numberings"
  schemas
  # shellcheck disable=SC2086 # the words are split
  counted 'the cases of numberings' $emulator "$work/test_numberings" "$work/schemas" < conformance/numberings.cases
  counts_lines conformance/numberings.cases
}

# compile_hostile_calls: tests/c/hostile_calls.c as $work/hostile
compile_hostile_calls() {
  compiled 'hostile_calls.c' -std=gnu99 tests/c/hostile_calls.c "$prefix/lib/libpendratsoa.a" \
    -Wl,--wrap=malloc,--wrap=realloc,--wrap=free -pthread -o "$work/hostile"
}

# message_structs COUNT FLAG..: the structs of pendratsoa_messages.h, by the test vectors and by COUNT adversarial
# calls, compiled with these flags
message_structs() {
  calls=$1
  shift
  strict='-std=c99 -Wpedantic -Wconversion'
  for program in test_messages hostile_messages; do
    # shellcheck disable=SC2086 # the flags are split
    compiled "$program.c $*" $strict "$@" tests/c/$program.c "$prefix/lib/libpendratsoa.a" -o "$work/$program"
  done
  schemas
  cat conformance/*.txt conformance/json/*.txt > "$work/lines" 2> "$err"
  outcome 'the lines of the structs' $?
  # shellcheck disable=SC2086 # the words are split
  counted "the structs by the test vectors $*" $emulator "$work/test_messages" "$work/schemas" < "$work/lines"
  counts_lines "$work/lines" 'merge|frame|stream|compare|read'
  # shellcheck disable=SC2086 # the words are split
  case_of "$calls adversarial calls of the structs $*" $emulator "$work/hostile_messages" "$work/schemas" 1 "$calls" \
    < "$work/lines"
  cat "$work/log"
}

# later_library: what the structs do of fields that their header does not know
later_library() {
  compiled 'later_library.c' -std=c99 -Wpedantic -Wconversion tests/c/later_library.c -o "$work/later_library"
  # shellcheck disable=SC2086 # the words are split
  case_of 'a later library' $emulator "$work/later_library"
}

# stream_reader: the functions of pendratsoa_reader.h, by streams of each kind
stream_reader() {
  compiled 'test_reader.c' -std=c99 -Wpedantic -Wconversion tests/c/test_reader.c "$prefix/lib/libpendratsoa.a" \
    -o "$work/test_reader"
  for version in 8 9; do
    # shellcheck disable=SC2086 # the words are split
    counted "the reader at $version" $emulator "$work/test_reader" $version examples/streams/recorded \
      examples/streams/cut_short examples/streams/three_unknown_types examples/streams/unknown_type
  done
}

# message_example LIBRARY..: the example of the structs, with each library
message_example() {
  # a state that is set, an end, and a byte that is not an item
  printf '\004\003\000\000\000\000\000\016\012\007counter\032\003\012\0011' > "$work/stream"
  printf '\004\003\000\000\000\000\000\017\012\007counter\032\004\012\00212' > "$work/wanted"
  printf '\000\003\000\000\000\000\000\000x' | tee -a "$work/stream" >> "$work/wanted"
  for library in "$@"; do
    compiled "examples/c/messages.c with ${library##*/}" -std=c99 -Wpedantic -Wconversion examples/c/messages.c \
      "$library" -o "$work/messages"
    # shellcheck disable=SC2086 # the words are split
    prints "what examples/c/messages.c writes with ${library##*/}" "$work/wanted" \
      env LD_LIBRARY_PATH="$prefix/lib" $emulator "$work/messages" 12 < "$work/stream"
    [ "$(cat "$err")" = 'state "counter", 1 bytes' ]
    outcome "what examples/c/messages.c says with ${library##*/}" $?
  done
}

# failing_message_example FLAG..: that example where an allocation fails, compiled with these flags
failing_message_example() {
  compiled "examples/c/messages.c with failing allocations $*" -std=c99 -Wpedantic -Wconversion "$@" \
    examples/c/messages.c tests/c/failing_realloc.c "$prefix/lib/libpendratsoa.a" -Wl,--wrap=realloc \
    -o "$work/failing_messages"
  # the chunk, the arena and the frame are allocated one after the other, and nothing after them
  for fails in 1 2 3 4; do
    # shellcheck disable=SC2086 # the words are split
    FAILS=$fails $emulator "$work/failing_messages" 12 < "$work/stream" > "$out" 2> "$err"
    status=$?
    case $fails in
      1) [ "$status" -eq 1 ] && [ "$(cat "$err")" = 'messages: the input or the output failed' ] ;;
      4) [ "$status" -eq 0 ] && cmp -s "$work/wanted" "$out" ;;
      *) [ "$status" -eq 1 ] && [ "$(cat "$err")" = 'messages: the item at 0: out of memory' ] && [ ! -s "$out" ] ;;
    esac
    outcome "examples/c/messages.c whose allocation $fails fails" $?
  done
  status=
}

# replay_example LIBRARY..: the example that checks a replay, with each library
replay_example() {
  if ! command -v python3 > /dev/null; then
    without 'examples/c/replay.c' python3
    return
  fi
  for library in "$@"; do
    compiled "examples/c/replay.c with ${library##*/}" -std=c99 -Wpedantic -Wconversion examples/c/replay.c \
      "$library" -o "$work/replay"
    # shellcheck disable=SC2086 # the words are split
    LD_LIBRARY_PATH=$prefix/lib counted "the replays of examples/c/replay.c with ${library##*/}" \
      python3 -B scripts/checks/replayed.py $emulator "$work/replay"
  done
}
