#!/usr/bin/env python3
"""Gives an LLVM module that rattle made for plain x86-64 the target wasm64: retarget.py IN.ll OUT.ll

Both targets have pointers of 64 bits, the same sizes and alignments, and the least significant byte first. What rattle
itself makes for wasm64 has two things more, which are added here: at the entry of each function a check that the stack
is not used up, and around each call from the host a guard, which traps in every call after a trap. same_module.py
compares both for what needs no heap.

It stops at whatever the module says that is not plain: inline assembly, except the empty one, which orders memory; an
intrinsic that is not in the list below, as those of a processor; a declaration that is not of the heap.
"""
from __future__ import annotations

import pathlib
import re
import sys

LAYOUT = "e-m:e-p:64:64-p10:8:8-p20:8:8-i64:64-i128:128-n32:64-S128-ni:1:10:20"
TRIPLE = "wasm64-unknown-unknown"
HEAP = {"rattle_alloc", "rattle_realloc", "rattle_dealloc"}
INTRINSICS = {
    f"llvm.{name}"
    for name in ("memset.p0.i64", "memmove.p0.p0.i64", "memcpy.p0.p0.i64", "trap", "cttz.i64", "ctlz.i64", "ctpop.i64")
}
FENCE = 'call void asm sideeffect "", "~{memory}"()'
GIVEN = '"probe-stack"="inline-asm" "stack-probe-size"="3072" "target-cpu"="x86-64"'
TARGET = (
    '"no-builtin-bcmp" "no-builtin-memcmp" "no-builtin-strlen" "probe-stack"="inline-asm" "stack-probe-size"="3072" '
    '"target-cpu"="lime1"'
)

# What is not for another processor: assembly, conventions of calls, and places in memory.
NOT_PLAIN = (r" asm ", r"\b(fastcc|x86_\w+cc|aarch64_\w+cc|thread_local)\b", r"\baddrspace\(", r", section ")

# The check of the stack, which grows downwards to the address 0.
CHECK = """  %frame = call ptr @llvm.frameaddress.p0(i32 0)
  %frame.at = ptrtoaddr ptr %frame to i64
  %frame.is.out = icmp slt i64 %frame.at, 16
  br i1 %frame.is.out, label %frame.out, label %frame.in

frame.in:
"""
OUT = """
frame.out:
  call void @llvm.trap()
  unreachable
}
"""
DECLARED = """
declare ptr @llvm.frameaddress.p0(i32 immarg)

declare noundef zeroext i1 @__rattle_enter() #1000

declare void @__rattle_leave() #1000

declare void @__rattle_trap() #1000

attributes #1000 = { nounwind }
"""


def refuse(why: str) -> None:
    sys.exit(f"retarget.py: {why[:240]}")


def checked(function: str) -> str:
    """The function with the check after the places of its locals."""
    entry = function.index("\n\n") if "\n\n" in function else len(function)
    places = [found.end() for found in re.finditer(r"^  %\w+ = alloca .*\n", function[:entry + 1], re.M)]
    at = places[-1] if places else function.index("\nstart:\n") + len("\nstart:\n")
    # a function that may trap has a block for it
    there = re.search(r"^(trap\.\d+):.*\n  call void @llvm.trap\(\)\n  unreachable\n", function, re.M)
    trap = there[1] if there else "frame.out"
    body = function[:at] + CHECK.replace("%frame.out", f"%{trap}") + function[at:]
    return body if there else body[: body.rindex("}")] + OUT


def guarded(function: str, number: int) -> str:
    """A function that the host calls, with the guard around it."""
    head = re.match(r"define (?P<kind>(?:noundef )?\w+) @(?P<name>\w+)\((?P<given>.*)\) #\d+ \{\n", function)
    if not head:
        refuse(f"an export of another form: {function}")
    kind, name, given = head["kind"], head["name"], head["given"]
    inner = f'define internal {kind} @"rattle::export {name}"({given}) #1001 {{\n' + function[head.end():]
    bare = kind.replace("noundef ", "")
    passed = re.sub(r" (noundef|zeroext|signext)\b", "", given)
    return f"""{inner}
define {kind} @{name}({given}) #{number} {{
start:
  %was = call i1 @__rattle_enter()
  br i1 %was, label %spent, label %run

spent:
  call void @__rattle_trap()
  unreachable

run:
  %result = call {bare} @"rattle::export {name}"({passed})
  call void @__rattle_leave()
  ret {bare} %result
}}
attributes #{number} = {{ nounwind {TARGET} "wasm-export-name"="{name}" }}
"""


def retargeted(text: str) -> str:
    bare = re.sub(r'"[^"\n]*"', '""', text.replace(FENCE, ""))
    for pattern in NOT_PLAIN:
        found = re.search(f"^.*{pattern}.*$", bare, re.M)
        if found:
            refuse(f"not for another processor: {found[0]}")
    for name in re.findall(r"^declare .*?@([\w.]+)\(", text, re.M):
        if name not in HEAP | INTRINSICS:
            refuse(f"{name} is declared, and is not in the list")
    text, layouts = re.subn(r'^target datalayout = ".*"$', f'target datalayout = "{LAYOUT}"', text, flags=re.M)
    text, triples = re.subn(r'^target triple = ".*"$', f'target triple = "{TRIPLE}"', text, flags=re.M)
    text = re.sub(r"^; ModuleID = .*\n", "", text).replace(GIVEN, TARGET)
    if (layouts, triples) != (1, 1) or "x86" in re.sub(r'c"[^\n]*', "", text):
        refuse("this is no module for plain x86-64")
    exports = 0
    parts = []
    end = 0
    for found in re.finditer(r"^define .*?^}\n", text, re.M | re.S):
        function = found[0]
        parts.append(text[end:found.start()])
        end = found.end()
        if function.startswith("define internal "):
            parts.append(checked(function))
        else:
            exports += 1
            parts.append(guarded(function, 1001 + exports))
    parts.append(text[end:])
    return "".join(parts) + DECLARED + f"attributes #1001 = {{ noinline nounwind {TARGET} }}\n"


def main() -> None:
    source, target = map(pathlib.Path, sys.argv[1:])
    target.write_text(retargeted(source.read_text()))


if __name__ == "__main__":
    main()
