#!/bin/sh
# The WebAssembly module: its heap, the test vectors, memory that may not grow, traps; compared with the addon.
#
# It builds the module over the proved library, by scripts/wasm.py, and takes the package for Node as its host. The same
# calls on payloads that are changed at random have to return and write the same by the addon, which is built over the
# proved static library. What wasm/retarget.py makes is compared, function by function, with what the toolchain makes
# for wasm64 of the calls without a heap. scripts/checks/node.sh has the tests of the package over the module.
set -u
cd "$(dirname "$0")/../.." || exit 1
. scripts/checks/lib.sh

needs node nodejs
wasm_module
[ -n "$module" ] || not_run 'there is no rt, which builds the module'

case_of 'a module of the heap' python3 -B scripts/wasm.py --of "$work/heap.wasm" wasm/heap.c wasm/tests/heap_calls.c
counted 'the heap' node wasm/tests/heap.mjs "$work/heap.wasm"

# The package over the module, without an addon.
mkdir "$work/tree"
cp -R node "$work/tree/"
rm -rf "$work/tree/node/build"
mkdir "$work/tree/node/build"
cp "$module" "$work/tree/node/build/"
for folder in conformance examples include proto; do
  ln -s "$PWD/$folder" "$work/tree/$folder"
done
counted 'the module and its host' node wasm/tests/module.mjs "$work/tree/node" "$module"
counted 'the test vectors' node "$work/tree/node/test/conformance.js"

# What is planted is found, by what reads modules.
printf '\0asm\1\0\0\0\2\7\1\1a\1b\0\0' > "$work/import.wasm"
python3 -B wasm/lower.py "$work/import.wasm" "$work/lowered.wasm" > "$out" 2>&1
[ $? -eq 1 ] && grep -qx 'lower.py: an import' "$out"
outcome 'lower.py refuses an import' $?
retargeted=crates/journal_ffi/out/wasm/retargeted.ll
sed '0,/ icmp ult /s// icmp ule /' $retargeted > "$work/planted.ll"
python3 -B wasm/same_module.py $retargeted "$work/planted.ll" > "$out" 2> "$err"
[ $? -eq 1 ] && grep -q '^functions: .*, 1 differ ' "$out"
outcome 'same_module.py finds a comparison that is changed' $?
for added in 'declare i64 @clock(i64)' '  call void asm sideeffect "cpuid", ""()'; do
  { cat crates/journal_ffi/out/wasm/library.ll && echo "$added"; } > "$work/planted.ll"
  python3 -B wasm/retarget.py "$work/planted.ll" "$work/retargeted.ll" > "$out" 2>&1
  [ $? -eq 1 ] && grep -q '^retarget.py: ' "$out"
  outcome "retarget.py refuses '$added'" $?
done

# The addon next to it.
if command -v cc > /dev/null; then
  installed_library
  mkdir "$work/native"
  cp -R "$work/tree/node" "$work/native/"
  if sh "$work/native/node/build.sh" "$prefix" > "$out" 2> "$err"; then
    addon=$work/native/node/build/pendratsoa.node
    counted 'the module beside the addon' node wasm/tests/differ.mjs "$work/tree/node" "$addon" 20000
  elif grep -q 'there is no node_api.h' "$err"; then
    left_out 'the module beside the addon' "$(sed 's/.*since //' "$err")"
  else
    outcome 'build.sh' 1
  fi
else
  without 'the module beside the addon' cc
fi

# The toolchain's own module of the calls without a heap.
python3 -B scripts/wasm.py --compare > "$out" 2> "$err"
outcome 'the retargeted module beside that of the toolchain' $?
cat "$out"

finish
