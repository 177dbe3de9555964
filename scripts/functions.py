"""The functions of a crate's sources, as the formatter leaves them, and how the prover names them."""
from __future__ import annotations

import dataclasses
import pathlib
import re

# The first line of a function, that of an impl or a trait, an attribute that puts a function in a cycle of calls.
FUNCTION = re.compile(r"( *)(?:pub(?:\([a-z]+\))? )?(?:const |unsafe )?fn (\w+)")
OWNER = re.compile(r"(?:pub(?:\([a-z]+\))? )?(?:impl|trait)\b(.*)")
CYCLE = re.compile(r" *#\[cycle\((\w+)\)\]")


@dataclasses.dataclass(frozen=True)
class Function:
    """A function of a source file, by the indices of its lines."""

    first: int
    last: int
    # The module that it is named by: for a method of a type that of the type.
    module: tuple[str, ...]
    # The type, or the type and the trait, of its impl, or an empty text.
    owner: str
    name: str
    # The cycle of calls that it is in, or an empty text.
    cycle: str

    @property
    def path(self) -> tuple[str, ...]:
        return (*self.module, *filter(None, [self.owner]), self.name)

    @property
    def proof(self) -> object:
        """What is the same of functions that have one proof."""
        return self.cycle or self.path

    def is_named(self, words: tuple[str, ...]) -> bool:
        """Whether the prover's name, below the crate, is that of this function or of a closure in it."""
        place = len(self.module)
        is_closure = words[place : place + 1] == ("fn",)
        return words == self.path or (is_closure and words[:place] + words[place + 1 : -1] == self.path)


def parts_of(text: str) -> list[str]:
    """What stands between the commas of a text, except those within brackets."""
    parts, depth = [""], 0
    for c in text:
        depth += (c in "<(") - (c in ">)")
        if c == "," and depth == 0:
            parts.append("")
        else:
            parts[-1] += c
    return [part.strip() for part in parts if part.strip()]


def spelled(name: str, parameters: set[str]) -> str:
    """What the prover makes of a type or a trait in the name of an impl: its words, without parameters and marks."""
    if name.startswith("("):
        parts = parts_of(name[1:-1])
        return f"Tuple{len(parts)}" + "".join(spelled(part, parameters) for part in parts)
    path, _, rest = name.partition("<")
    word = re.sub(r".*::|^&", "", path).strip()
    own = "" if word in parameters or word.startswith("'") else word[:1].upper() + word[1:]
    return own + "".join(spelled(part, parameters) for part in parts_of(rest[:-1]))


def owner_of(head: str) -> tuple[str, bool]:
    """How the prover names an impl by what follows the first word of its head, and whether it is one of a trait."""
    parameters: set[str] = set()
    if head.startswith("<"):
        end = next(at for at in range(1, len(head) + 1) if head[:at].count("<") == head[:at].count(">"))
        parameters = {part.partition(":")[0].strip() for part in parts_of(head[1 : end - 1])}
        head = head[end:]
    head = re.sub(r"\bwhere\b.*|\{.*", "", head).strip()
    trait, is_trait, name = head.partition(" for ")
    if is_trait:
        return spelled(name.strip(), parameters) + spelled(trait.strip(), parameters), True
    return spelled(head, parameters), False


def end_of(lines: list[str], first: int, indent: str) -> int:
    """The last line of a function, or of its declaration if it has no body."""
    depth = 0
    for at in range(first, len(lines)):
        if lines[at].endswith("{") and re.match(rf"{indent}\S", lines[at]):
            return next(end for end in range(at + 1, len(lines)) if lines[end] == f"{indent}}}")
        depth += lines[at].count("{") - lines[at].count("}")
        is_whole = re.match(rf"{indent}\S.*\}}$", lines[at]) or lines[at].endswith(";")
        if is_whole and depth == 0:
            return at
    return first


def module_of(file: pathlib.PurePath) -> tuple[str, ...]:
    """The module of a file, which is given by its path below src/."""
    words = file.with_suffix("").parts
    return () if words in (("lib",), ("main",)) else words


class Sources:
    """The sources of a crate, by their paths below its src/."""

    def __init__(self, files: dict[pathlib.PurePath, str]):
        self.files = files

    @classmethod
    def of(cls, folder: pathlib.Path) -> Sources:
        """Those in this folder."""
        found = sorted(folder.rglob("*.rt"))
        return cls({file.relative_to(folder): file.read_text(encoding="utf-8") for file in found})

    def home(self, name: str, file: pathlib.PurePath) -> tuple[str, ...]:
        """The module that declares a type, that of this file if it does."""
        declared = re.compile(rf"^(?:pub(?:\([a-z]+\))? )?(?:struct|enum|trait) {name}\b", re.MULTILINE)
        homes = [other for other in (file, *self.files) if declared.search(self.files[other])]
        return module_of((homes or [file])[0])

    def functions(self, file: pathlib.PurePath) -> list[Function]:
        """The functions of a file, except those within others."""
        found: list[Function] = []
        lines = self.files[file].splitlines()
        module = module_of(file)
        owner, home, cycle = "", module, ""
        at = 0
        while at < len(lines):
            if lines[at] == "}":
                owner, home = "", module
            if head := OWNER.match(lines[at]):
                end = next(end for end in range(at, len(lines)) if lines[end].endswith(("{", "}", ";")))
                owner, is_trait = owner_of(" ".join([head[1], *map(str.strip, lines[at + 1 : end + 1])]))
                home = module if is_trait else self.home(owner, file)
            if called := CYCLE.match(lines[at]):
                cycle = called[1]
            if begun := FUNCTION.match(lines[at]):
                indent, name = begun.groups()
                last = end_of(lines, at, indent)
                found.append(Function(at, last, home if indent else module, owner if indent else "", name, cycle))
                at, cycle = last, ""
            at += 1
        return found

    def sharing_proof(self, function: Function) -> list[Function]:
        """The functions that have one proof with this one, itself among them."""
        if not function.cycle:
            return [function]
        return [other for file in self.files for other in self.functions(file) if other.cycle == function.cycle]

    def function_at(self, file: pathlib.PurePath, text: str) -> Function | None:
        """The function in which a text stands that is once in the file, if there is one."""
        found = self.files.get(file, "")
        if found.count(text) != 1:
            return None
        line = found.count("\n", 0, found.index(text))
        return next((it for it in self.functions(file) if it.first <= line <= it.last), None)
