#!/usr/bin/env python3
"""Writes the sources of journal_ffi without the calls that allocate: without_heap.py FROM TO

FROM and TO are folders src. These calls need nothing that the toolchain cannot build for wasm64 by itself, which is
what same_module.py compares the retargeted module with.
"""
from __future__ import annotations

import pathlib
import re
import sys

FUNCTION = re.compile(r"(?:^///[^\n]*\n)*^#\[unsafe\(no_mangle\)\]\n^pub extern \"C\" fn .*?^}\n", re.M | re.S)
ALLOCATES = re.compile(r"\(\s*alloc: Global\b")
IMPORT = re.compile(r"^(?:ghost )?use [^;]*;\n", re.M)


def used(line: str, body: str) -> str:
    """An import of what the functions name, or nothing."""
    path, brace, names = line.partition("{")
    if not brace:
        name = re.split(r"\W+", path.rstrip(";\n"))[-1]
        return line if re.search(rf"\b{name}\b", body) else ""
    listed = [name.strip() for name in names.rpartition("}")[0].split(",")]
    kept = [name for name in listed if name and (not name.isidentifier() or re.search(rf"\b{name}\b", body))]
    return f"{path}{{{', '.join(kept)}}};\n" if any(name.isidentifier() for name in kept) else ""


def without_heap(text: str) -> str:
    """A file without the functions that allocate, and without what only these import; nothing if none is left."""
    functions = [function for function in FUNCTION.findall(text) if not ALLOCATES.search(function)]
    if not functions:
        return ""
    head = text[: FUNCTION.search(text).start()]
    body = "".join(functions)
    return IMPORT.sub(lambda found: used(found[0], body), head) + "\n".join(functions)


def main() -> None:
    source, target = map(pathlib.Path, sys.argv[1:])
    target.mkdir(parents=True, exist_ok=True)
    kept = {}
    for file in sorted(source.glob("*.rt")):
        if file.stem != "lib" and (text := without_heap(file.read_text())):
            kept[file.stem] = text
            (target / file.name).write_text(text)
    root = (source / "lib.rt").read_text()
    keep = lambda found: found[0] if found[1] in kept else ""  # noqa: E731
    (target / "lib.rt").write_text(re.sub(r"^pub mod (\w+);\n", keep, root, flags=re.M))


if __name__ == "__main__":
    main()
