#!/usr/bin/env python3
"""The declarations of the C headers, one a line, compared with those of the last version: interface.py [--write]

`proto/interface.txt` has what a program in C was compiled with: constants, structs with their fields in order, and
functions. Without --write the changes since are printed, and the status is 1 if there are any. A line that is removed
or changed breaks a program that was built before, so the number of the soname rises with it; an added line raises the
second number of the version (docs/C.md). --write takes what the headers declare now.
"""
from __future__ import annotations

import pathlib
import re
import sys

ROOT = pathlib.Path(__file__).resolve().parent.parent
FILE = ROOT / "proto" / "interface.txt"
HEADERS = ("pendratsoa.h", "pendratsoa_messages.h", "pendratsoa_reader.h")

COMMENT = re.compile(r"/\*.*?\*/|//[^\n]*", re.DOTALL)
CONSTANT = re.compile(r"^#define (\w+(?:\([^)]*\))?)[ \t]+((?:[^\n]*\\\n)*[^\n]*)$", re.MULTILINE)
STRUCT = re.compile(r"^((?:typedef )?(?:struct|union|enum)\s+\w*\s*\{.*?^\}[^;]*;)", re.MULTILINE | re.DOTALL)
# What is for the headers themselves: names with an underscore at the end, and the guards; and the version.
INTERNAL = re.compile(r"\b(\w+_|\w+_H|JOURNAL_LIBRARY_VERSION)$")
FUNCTION = re.compile(r"^((?:static inline )?[a-z]\w*(?: \w+)*[ *]+journal_\w+\([^;{]*\))\s*[;{]", re.MULTILINE)


def line(text: str) -> str:
    """A declaration in one line."""
    return re.sub(r"\s+", " ", text.replace("\\\n", " ")).strip()


def declared(header: str) -> list[str]:
    """What a header declares, each with the name of the header before it."""
    text = COMMENT.sub(" ", (ROOT / "include" / header).read_text(encoding="utf-8"))
    found = [f"#define {name} {line(value)}" for name, value in CONSTANT.findall(text)]
    found += [line(struct) for struct in STRUCT.findall(text)]
    found += [line(function) for function in FUNCTION.findall(text)]
    return [f"{header}: {each}" for each in found if not INTERNAL.search(name_of(each))]


def name_of(declaration: str) -> str:
    """The text up to the name of what is declared, which is its last word."""
    if declaration.startswith("#define "):
        return re.match(r"#define \w+", declaration)[0]
    return re.split(r"[({]", declaration, maxsplit=1)[0].strip()


def now() -> list[str]:
    return [each for header in HEADERS for each in declared(header)]


def before() -> list[str]:
    return [each for each in FILE.read_text(encoding="utf-8").splitlines() if not each.startswith("//")]


def changes() -> list[str]:
    """What was removed, then what was added; a changed declaration is both."""
    old, new = before(), now()
    removed = [f"removed: {each}" for each in old if each not in new]
    return removed + [f"added: {each}" for each in new if each not in old]


def main(words: list[str]) -> int:
    if words == ["--write"]:
        head = "// The declarations of the C headers: tools/interface.py --write writes them, the check calls compares."
        FILE.write_text("\n".join([head, *now(), ""]), encoding="utf-8")
        return 0
    if words:
        print(__doc__.strip(), file=sys.stderr)
        return 2
    found = changes()
    print("".join(f"{each}\n" for each in found), end="")
    return 1 if found else 0


if __name__ == "__main__":
    sys.exit(main(sys.argv[1:]))
