"""What the pages for Python have in addition to the docstrings: members that a class inherits from classes without an
entry of their own."""
from __future__ import annotations

import ast
import collections.abc
import dataclasses
import pathlib

# Base classes of records, which have an entry on the page of the records.
BASES = ("Record", "MessageRecord")

# What a class may have and no reader looks for there: the numbers and names of a record, which its base documents.
KNOWN = ("SCHEMA", "CODE", "TYPE", "BEFORE_VERSION")

# The classes whose members are not shown where they are inherited: public errors, which have entries, and those of
# Python.
ENDS = (
    "JournalError", "TooLong", "BaseException", "Exception", "ValueError", "LookupError", "OverflowError",
    "MemoryError", "EOFError", "Enum", "IntEnum", "ReprEnum", "str", "int", "tuple", "object",
)


@dataclasses.dataclass
class Class:
    """A class of the package."""

    node: ast.ClassDef
    bases: list[str]


def classes(folder: pathlib.Path) -> dict[str, Class]:
    """The classes of a package by their names."""
    found = {}
    for path in sorted(folder.glob("*.py")):
        for node in ast.parse(path.read_text(encoding="utf-8")).body:
            if isinstance(node, ast.ClassDef):
                found[node.name] = Class(node, [base.id for base in node.bases if isinstance(base, ast.Name)])
    return found


def is_enum(name: str, known: dict[str, Class]) -> bool:
    """Whether a class is an enumeration."""
    return name in ("Enum", "IntEnum") or name in known and any(is_enum(base, known) for base in known[name].bases)


def own_members(node: ast.ClassDef) -> collections.abc.Iterator[str]:
    """The public members that a class defines itself."""
    for each in node.body:
        if isinstance(each, (ast.FunctionDef, ast.AsyncFunctionDef)):
            names = [each.name]
        else:
            targets = each.targets if isinstance(each, ast.Assign) else [getattr(each, "target", None)]
            names = [target.id for target in targets if isinstance(target, ast.Name)]
        yield from (name for name in names if not name.startswith("_") and name not in KNOWN)


def members(name: str, known: dict[str, Class], public: set[str]) -> list[str]:
    """The public members of a class, with those that it inherits from classes of the package without an entry. Sphinx
    shows of an enumeration its own."""
    found = list(own_members(known[name].node))
    for base in [] if is_enum(name, known) else known[name].bases:
        if base in known and base not in public and base not in BASES:
            found += members(base, known, public)
    return list(dict.fromkeys(found))


def not_shown(folder: pathlib.Path, page: pathlib.Path, module: str, public: set[str]) -> list[str]:
    """The members of public classes of a module that have no entry on its page. The sentence of a class with one field
    is that of both."""
    known = classes(folder)
    shown = page.read_text(encoding="utf-8")
    found = {name: members(name, known, public) for name in sorted(public & set(known))}
    names = [f"{name}.{member}" for name, those in found.items() for member in those if len(those) > 1]
    return [name for name in names if f'id="{module}.{name}"' not in shown]
