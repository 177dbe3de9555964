"""The description of the C calls, proto/calls.json, as objects: what `calls` and `call_pages` write from it."""
import dataclasses
import functools
import json
import re
from typing import Dict, List, Optional

from . import ROOT, Refused
from .versions import library_version

PATH = "proto/calls.json"

# The numbers that calls take, with their bits in C; the flag comes after the slices.
BITS = {"version": 32, "code": 16, "schema": 32, "payload_length": 32, "limit": 32, "index": 32, "direction": 32}

LANGUAGES = ("Python", "Rust", "Go", "Ruby", "TypeScript")


@dataclasses.dataclass
class Call:
    """A call, as its entry says it."""

    call: str
    module: str
    does: str
    contract: str
    comment: List[str]
    errors: List[str]
    takes: List[str] = dataclasses.field(default_factory=list)
    # the struct of which it reads a table
    entries: Optional[str] = None
    reads: List[str] = dataclasses.field(default_factory=list)
    flag: Optional[str] = None
    # the struct of numbers that it reads, and whether it changes it
    given: Optional[str] = None
    changes: bool = False
    numbers: Optional[str] = None
    # the struct of which it writes a table, whose room is a count of these
    table: Optional[str] = None
    # how many bytes it writes if that is always the same number, or True
    writes: object = False
    # the room for them that is tried first: a multiple of the bytes that it reads, and more
    room: List[int] = dataclasses.field(default_factory=lambda: [1, 64])
    allocates: bool = False
    # how many results it has that are not errors, where they are told apart
    kinds_of_results: int = 1
    row: Optional[str] = None
    names: Dict[str, str] = dataclasses.field(default_factory=dict)

    def symbol(self):
        return f"journal_{self.call}"

    def error_names(self):
        """The errors, in the order in which they are looked for; that of memory is where it may come first."""
        return [error.partition(" ")[0] for error in self.errors]

    def name_in(self, language):
        """The name of its function in a language."""
        if language in self.names:
            return self.names[language]
        if language == "Go":
            return camel(self.call, True)
        return camel(self.call, False) if language == "TypeScript" else self.call


# Words that Go writes in capitals.
CAPITALS = {"ID": "ID", "JSON": "JSON"}


def camel(name, is_upper, with_capitals=True):
    """A name of several words as one: is_well_formed as IsWellFormed or isWellFormed."""
    words = [word.capitalize() for word in name.lower().split("_")]
    if with_capitals:
        words = [CAPITALS.get(word.upper(), word) for word in words]
    if not is_upper:
        words[0] = words[0].lower()
    return "".join(words)


@functools.lru_cache(maxsize=None)
def described():
    try:
        return json.loads((ROOT / PATH).read_text(encoding="utf-8"))
    except json.JSONDecodeError as error:
        raise Refused([f"{PATH}: {error}"]) from None


def entries(kind):
    """The entries of all sections that are of a kind, in order."""
    return [entry for section in described()["sections"] for entry in section["has"] if kind in entry]


@functools.lru_cache(maxsize=None)
def calls():
    problems = [f"{PATH}: {entry['call']}: {problem}" for entry in entries("call") for problem in problems_of(entry)]
    names = [entry["call"] for entry in entries("call")]
    problems += [f"{PATH}: {name} is there twice" for name in sorted(set(names)) if names.count(name) > 1]
    if problems:
        raise Refused(problems)
    return [Call(**versioned(entry)) for entry in entries("call")]


def problems_of(entry):
    """What is wrong with the entry of a call."""
    members = dataclasses.fields(Call)
    yield from (f"there is no member {name}" for name in sorted(entry.keys() - {member.name for member in members}))
    for member in members:
        is_needed = member.default is member.default_factory is dataclasses.MISSING
        if is_needed and member.name not in entry:
            yield f"it has no {member.name}"
    known = {error["name"] for error in errors()}
    yield from (f"there is no number {name}" for name in entry.get("takes", []) if name not in BITS)
    named = (error.partition(" ")[0] for error in entry.get("errors", []))
    yield from (f"there is no error {name}" for name in named if name not in known)
    for member in ("entries", "given", "numbers", "table"):
        if entry.get(member) is not None and entry[member] not in structs():
            yield f"there is no struct {entry[member]}"
    yield from (f"there is no language {name}" for name in entry.get("names", {}) if name not in LANGUAGES)


def versioned(entry):
    """An entry with the version in its texts, where they say VERSION."""
    texts = json.dumps(entry)
    return json.loads(re.sub(r"\bVERSION\b", library_version(), texts))


def kinds():
    """The lists of kinds that calls write."""
    return entries("kinds")


def constants(entry):
    """The kinds of a list: the number of each, its name in C without `JOURNAL_`, its name elsewhere, its meaning."""
    begin = entry.get("from", 0)
    for number, (name, said) in enumerate(entry["values"], entry.get("first", 0)):
        if entry["kinds"] == "option":
            # options are added up, so each is a bit
            number = 1 << (number - 1)
        if not said:
            raise Refused([f"{PATH}: {name} of the kinds {entry['kinds']} has no sentence"])
        yield number, entry.get("prefix", "") + name if number >= begin else name, name, said


def sentence(said):
    """What is said of a kind, as a sentence."""
    return f"{said[0].upper()}{said[1:]}."


def structs():
    """The structs of numbers that calls write, by their names."""
    return {entry["struct"]: entry for entry in entries("struct")}


def errors():
    return described()["errors"]


def returned_errors():
    """The errors that calls return, without the kinds that are none."""
    return [error for error in errors() if error["about"] is not None]


def paragraphs(lines):
    """Lines as paragraphs, which an empty one parts."""
    return [" ".join(text.split("\n")) for text in "\n".join(lines).split("\n\n")]


def sentence_of_errors(call):
    """What a comment says of a call's errors: in which order they are looked for, and what each is about."""
    names = call.error_names()
    if not names:
        return None
    said = [f"JOURNAL_{error}" for error in call.errors if error != "OUT_OF_MEMORY"]
    if said == ["JOURNAL_" + names[0]] and len(names) == 1:
        return f"Its only error is {said[0]}."
    text = (
        f"Errors, in order of precedence: {', '.join(said)}"
        if len(said) > 1
        else f"Its error: {said[0]}"
    )
    if "OUT_OF_MEMORY" in names:
        before = names[names.index("OUT_OF_MEMORY") - 1]
        is_last = names[-1] == "OUT_OF_MEMORY"
        text += "; JOURNAL_OUT_OF_MEMORY " + ("after these" if is_last else f"may replace each after JOURNAL_{before}")
    return text + "."


def comment(call):
    """The paragraphs of a call's comment."""
    found = paragraphs(call.comment)
    said = sentence_of_errors(call)
    if said:
        found.append(said)
    return found
