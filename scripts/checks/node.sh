#!/bin/sh
# The package for Node: its tests, the test vectors, types and examples, over its addon and over the WebAssembly module.
#
# It builds the addon in a copy of node/, over the proved static library, as scripts/checks/c.sh takes it, and over
# another one in its place, which returns what this package does not know; the module as scripts/wasm.py does. The tests
# run over both, and in headless browsers the test vectors by the page's entry. It uses no network.
set -u
cd "$(dirname "$0")/../.." || exit 1
. scripts/checks/lib.sh

needs node nodejs
is_recent='const [major, minor] = process.versions.node.split("."); process.exitCode = +(major * 1000 + +minor < 18015)'
node -e "$is_recent" || not_run 'node is older than 18.15'
installed_library

# copy NAME: $tree is a copy of the package, next to what its tests read
copy() {
  tree=$work/$1
  mkdir "$tree"
  cp -R node "$tree/"
  rm -rf "$tree/node/build"
  for folder in conformance examples include proto; do
    ln -s "$PWD/$folder" "$tree/$folder"
  done
}

# tested CALLS NAME FILE..: the tests of files of $tree/node over the addon or the module, by the lines in which node
# counts them
tested() {
  name="$2, over the $1"
  PENDRATSOA_CALLS=$1
  export PENDRATSOA_CALLS
  shift 2
  (cd "$tree/node" && node --test --test-reporter=tap "$@") > "$out" 2> "$err" < /dev/null
  ended=$?
  good=$(sed -n 's/^# pass //p' "$out")
  bad=$(sed -n 's/^# fail //p; s/^# cancelled //p' "$out" | awk '{ sum += $1 } END { print sum + 0 }')
  if [ "$bad" -ne 0 ] || [ "$ended" -ne 0 ] || [ "${good:-0}" -eq 0 ]; then
    echo "failed: $name:"
    grep -a -A 12 '^ *not ok' "$out" | cut -c1-300 | head -n 60
    head -n 20 "$err"
    [ "$bad" -ne 0 ] || bad=1
  fi
  passed=$((passed + ${good:-0}))
  failed=$((failed + bad))
}

# refused NAME WORDS COMMAND..: a command that ends with the status 2, and tells why in a line with these words
refused() {
  name=$1
  words=$2
  shift 2
  "$@" > "$out" 2> "$err"
  status=$?
  [ "$status" -eq 2 ] && [ "$(wc -l < "$err")" -eq 1 ] && grep -qF "$words" "$err"
  outcome "$name" $?
  status=
}

# The addon, by the folder and by pkg-config.
copy tree
strict='-Werror -Wsign-conversion'
CFLAGS=$strict sh "$tree/node/build.sh" "$prefix" > "$out" 2> "$err"
case $? in
  0) passed=$((passed + 1)) ;;
  *)
    ! grep -q 'there is no node_api.h' "$err" || not_run "$(sed 's/.*since //' "$err")"
    outcome 'build.sh' 1
    finish
    ;;
esac
if command -v pkg-config > /dev/null; then
  case_of 'build.sh by pkg-config' sh "$tree/node/build.sh"
  PKG_CONFIG_PATH=$work refused 'build.sh without the library' 'pkg-config finds no pendratsoa' sh "$tree/node/build.sh"
else
  without 'build.sh by pkg-config' pkg-config
fi
refused 'build.sh with a folder that is not there' 'there is no folder' sh "$tree/node/build.sh" "$work/none"
refused 'build.sh with a folder of something else' 'pendratsoa.h' sh "$tree/node/build.sh" "$work"
refused 'build.sh without a compiler' 'there is no no-compiler' env CC=no-compiler sh "$tree/node/build.sh" "$prefix"
refused 'build.sh with two folders' 'usage: build.sh' sh "$tree/node/build.sh" "$prefix" "$prefix"
addon=$tree/node/build/pendratsoa.node
nm -D --defined-only "$addon" | awk '{ print $3 }' | grep -vx 'node_api_module_get_api_version_v1' > "$out"
echo napi_register_module_v1 > "$work/wanted"
same 'the names that the addon shows' "$work/wanted" "$out"
readelf -d "$addon" | sed -n 's/.*(NEEDED).*\[\(.*\)\]$/\1/p' > "$out"
echo libc.so.6 > "$work/wanted"
same 'what the addon needs' "$work/wanted" "$out"

# Its tests, and the test vectors, over both.
wasm_module
if [ -n "$module" ]; then
  cp "$module" "$tree/node/build/pendratsoa.wasm"
else
  without 'the WebAssembly module' rt
fi
for calls in addon ${module:+module}; do
  # shellcheck disable=SC2046 # the names are split
  tested $calls 'the tests of the package' $(cd "$tree/node" && ls test/*.test.js)
  counted "the test vectors over the $calls" node "$tree/node/test/conformance.js"
done
unset PENDRATSOA_CALLS
for browser in ${module:+chromium firefox}; do
  counted "the package in $browser" within 1800 python3 -B scripts/checks/browser_vectors.py "$tree" $browser
done

# The package as a user has it: the files that package.json lists, in node_modules.
user=$work/user
package=$user/node_modules/pendratsoa
mkdir -p "$package"
for file in package.json $(node -p "JSON.parse(require('fs').readFileSync('node/package.json')).files.join(' ')"); do
  case_of "a copy of $file" cp -R "$tree/node/$file" "$package/$file"
done
cp examples/typescript/*.mts "$user/"

# types NAME WORDS..: tsc takes files with all of its checks
types() {
  name=$1
  shift
  case_of "$name" \
    tsc --strict --noFallthroughCasesInSwitch --noImplicitOverride --noImplicitReturns --noUncheckedIndexedAccess \
    --noPropertyAccessFromIndexSignature --noUnusedLocals --noUnusedParameters --exactOptionalPropertyTypes \
    --target es2022 --module node16 "$@"
}

# The types, and the example, which lists as that in C does.
if command -v tsc > /dev/null; then
  case_of 'the types' tsc -p "$tree/node"
  types 'the examples in TypeScript' "$user/listing.mts" "$user/replay.mts" "$user/proxy.mts"
  case_of 'the example in C' cc -std=c99 -I "$prefix/include" examples/c/listing.c "$prefix/lib/libpendratsoa.a" \
    -o "$work/listing"
  for stream in replay:8 recorded:8 cut_short:8 three_unknown_types:8 unknown_type:9; do
    "$work/listing" "${stream#*:}" < "examples/streams/${stream%:*}" > "$work/wanted" 2> "$err"
    outcome "the listing of $stream in C" $?
    prints "the listing of $stream" "$work/wanted" node "$user/listing.mjs" "${stream#*:}" \
      < "examples/streams/${stream%:*}"
  done
  python3 -B scripts/checks/write_stream.py mixed 100000 7 > "$work/mixed"
  outcome 'write_stream.py' $?
  "$work/listing" < "$work/mixed" > "$work/wanted" 2> "$err"
  outcome 'the listing of a mixed stream in C' $?
  prints 'the listing of a mixed stream' "$work/wanted" node "$user/listing.mjs" < "$work/mixed"
  refused 'the listing with wrong words' 'usage: listing.mjs [5..9]' node "$user/listing.mjs" 10
  counted 'the replays' python3 -B scripts/checks/replayed.py node "$user/replay.mjs"
  counted 'the proxy' python3 -B scripts/checks/proxied.py --pipe node "$user/proxy.mjs"
else
  left_out 'the types and the example' 'there is no tsc; the Debian package node-typescript has it'
fi

# The page's programs, which are JavaScript too; the others are under Compare.
awk -v page="$user/page.mjs" -v compare="$user/compare.mjs" -v replay="$user/replay.mjs" -v other="$user/other.mjs" '
  /^## / { section = $2 }
  /^```ts$/ { file = section == "Compare" ? compared++ ? replay : compare : section == "Other" ? other : page; next }
  /^```$/ { file = "" }
  file != "" { print > file }' node/README.md
if command -v tsc > /dev/null; then
  for program in page compare replay other; do
    # Node's own types are in the package @types/node
    awk '/ from .node:fs.;$/ { print "// @ts-ignore" } { print }' "$user/$program.mjs" > "$user/typed_$program.mts"
  done
  types 'the programs of node/README.md in TypeScript' --noEmit "$user"/typed_*.mts
fi
ln -s "$PWD/examples" "$user/examples"
case_of 'the program of node/README.md' inside "$user" node page.mjs
sed -n 1p "$work/log" > "$out"
sed -n 's/^It prints `\(.*\)` first\..*/\1/p' node/README.md > "$work/wanted"
same 'what it prints first' "$work/wanted" "$out"
sed -n 's/^It prints `\(.*\)`\.$/\1/p' node/README.md > "$work/wanted"
prints 'the program of node/README.md that compares' "$work/wanted" inside "$user" node compare.mjs
sed -n 's/^Its line is `\(.*\)`\.$/\1/p' node/README.md > "$work/wanted"
prints 'the program of node/README.md that checks a replay' "$work/wanted" inside "$user" node replay.mjs
case_of 'write_numbering.py' python3 -B scripts/checks/write_numbering.py "$user"
sed -n '/^Of a set/,/\.$/s/^`\(.*\)`\.$/\1/p' node/README.md > "$work/wanted"
prints 'the program of node/README.md that reads other field numbers' "$work/wanted" inside "$user" node other.mjs

# Another library in place of the proved one.
copy later
mkdir -p "$work/other/include" "$work/other/lib"
cp include/pendratsoa.h "$work/other/include/"
for name in later refusing; do
  case_of "${name}_library.c" cc -std=c11 -O2 -fPIC -Wall -Wextra -Werror -I include -c "node/test/${name}_library.c" \
    -o "$work/$name.o"
done
# as one object, since a linker takes the first of two in an archive
case_of 'both as one' ld -r -o "$work/both.o" "$work/later.o" "$work/refusing.o"
case_of 'their archive' ar rcsD "$work/other/lib/libpendratsoa.a" "$work/both.o"
case_of 'build.sh with another library' sh "$tree/node/build.sh" "$work/other"
tested addon 'what a later library returns' test/later_library.js
if [ -n "$module" ]; then
  case_of 'a module with another library' python3 -B scripts/wasm.py --of "$tree/node/build/pendratsoa.wasm" \
    wasm/heap.c wasm/calls.c node/test/later_library.c node/test/refusing_library.c
  tested module 'what a later library returns' test/later_library.js
fi

finish
