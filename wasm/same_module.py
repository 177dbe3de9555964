#!/usr/bin/env python3
"""Whether two LLVM modules are the same except for the names of values and labels: same_module.py ONE.ll OTHER.ll

Functions, constants and declarations are compared by their names, attributes where they are used. The declaration of
an intrinsic is that of LLVM itself. The check of the stack may be anywhere in the first block of a function; that both
have it is compared. It prints how many there are of each kind and how many differ; the status is 1 where any does.
"""
from __future__ import annotations

import pathlib
import re
import sys

CHECK = re.compile(
    r"  (%\S+) = call ptr @llvm\.frameaddress\.p0\(i32 0\)\n  (%\S+) = ptrtoaddr ptr \1 to i64\n"
    r"  (%\S+) = icmp slt i64 \2, 16\n  br i1 \3, label %(\S+), label %(\S+)\n\n\5:\n"
)
TRAP = "\n{}:\n  call void @llvm.trap()\n  unreachable\n"
NAME = re.compile(r'@("[^"]*"|[\w.]+)\(')


class Module:
    """What of a module is compared: functions, constants and declarations by their names, and the target."""

    def __init__(self, path: str):
        text = pathlib.Path(path).read_text()
        text = re.sub(r"[ \t]*; (preds = |No predecessors!).*$", "", text, flags=re.M)
        self.groups = dict(re.findall(r"^attributes (#\d+) = \{ (.*) \}$", text, re.M))
        defined = re.findall(r"^define .*?^}\n", text, re.M | re.S)
        self.functions = {NAME.search(function)[1]: self.compared(function) for function in defined}
        self.constants = dict(re.findall(r"^(@[\w.]+) = (.*)$", text, re.M))
        declared = [line for line in re.findall(r"^declare .*$", text, re.M) if "@llvm." not in line]
        self.declarations = dict(map(self.declared, declared))
        self.target = re.findall(r"^target .*$", text, re.M)

    def declared(self, line: str) -> tuple[str, tuple[str, str]]:
        """A declaration with its attributes."""
        group = re.search(r" (#\d+)$", line)
        return NAME.search(line)[1], (re.sub(r" #\d+$", "", line), self.groups[group[1]] if group else "")

    def compared(self, function: str) -> tuple[str, list[str], bool]:
        """A function without its check of the stack, its values and labels numbered as they come; its attributes;
        whether it has the check."""
        head = function.split(" {\n", 1)[0]
        check = CHECK.search(function)
        if check:
            if "\n\n" in function[: check.start()] or TRAP.format(check[4]) not in function:
                sys.exit(f"same_module.py: the check of {head}")
            function = CHECK.sub("", function, count=1)
        whole = re.sub(r" #\d+$", "", head) + body(function)
        numbers: dict[str, str] = {}
        whole = re.sub(r"%[\w.]+", lambda found: numbers.setdefault(found[0], f"v{len(numbers)}"), whole)
        whole = re.sub(r" (#\d+)$", lambda found: f" [{self.groups[found[1]]}]", whole, flags=re.M)
        return whole, [self.groups[group] for group in re.findall(r" (#\d+)$", head)], check is not None


def body(function: str) -> str:
    """The blocks of a function, in the order in which labels lead to them; what none leads to is left out."""
    blocks = re.split(r"^([\w.]+):\n", function.split(" {\n", 1)[1].rsplit("}", 1)[0], flags=re.M)
    by_label = dict(zip(blocks[1::2], blocks[2::2]))
    order: dict[str, str] = {}
    waiting = [blocks[1]]
    while waiting:
        label = waiting.pop(0)
        if label not in order:
            order[label] = "\n".join(line for line in by_label[label].splitlines() if line.strip())
            waiting += re.findall(r"label %([\w.]+)", by_label[label])
    return "".join(f"%{label}:\n{lines}\n" for label, lines in order.items())


def first_difference(one: tuple[str, list[str], bool], other: tuple[str, list[str], bool]) -> str:
    for line, instead in zip(one[0].splitlines(), other[0].splitlines()):
        if line != instead:
            return f"  {line}\n  {instead}"
    return f"  {one[1:]}\n  {other[1:]}"


def main() -> int:
    one, other = map(Module, sys.argv[1:])
    differing = 0
    for what in ("functions", "constants", "declarations"):
        first, second = getattr(one, what), getattr(other, what)
        names = sorted(name for name in first.keys() | second.keys() if first.get(name) != second.get(name))
        print(f"{what}: {len(first)} and {len(second)}, {len(names)} differ {' '.join(names[:4])}".rstrip())
        differing += len(names)
        if what == "functions" and names and names[0] in first and names[0] in second:
            print(first_difference(first[names[0]], second[names[0]]))
    if one.target != other.target:
        print(f"targets: {one.target} and {other.target}")
        differing += 1
    return 1 if differing or not one.functions else 0


if __name__ == "__main__":
    sys.exit(main())
