"""All that repeats the C calls, from proto/calls.json: the header, the functions of journal_ffi, what each binding
declares of the library, and the list of calls for tests/c/hostile_calls.c. Each language has a function here.
"""
import re
import textwrap

from . import ROOT, laid_out
from . import missing_rt as missing  # noqa: F401
from .calls_data import BITS, PATH, calls, camel, comment, constants, described, errors, kinds
from .calls_data import paragraphs, returned_errors, sentence, structs
from . import compiled
from .bindings import snake
from .proto import schemas, typed
from .versions import library_version

ABOUT = "The C calls, in each language that has them."
SOURCE = PATH

WIDTH = 120


def filled(text, first, other=None, width=WIDTH):
    """A paragraph in lines that begin so."""
    return textwrap.fill(text, width, initial_indent=first, subsequent_indent=first if other is None else other,
                         break_long_words=False, break_on_hyphens=False)


def commented(texts, prefix):
    """Paragraphs as a comment of lines that begin so."""
    return f"\n{prefix.rstrip()}\n".join(filled(text, prefix) for text in texts) + "\n"


# The header for C.

def block(texts):
    """A comment of C, on one line if it fits."""
    if len(texts) == 1 and len(texts[0]) <= WIDTH - 6:
        return f"/* {texts[0]} */\n"
    return "/*\n" + commented(texts, " * ") + " */\n"


def installed(texts):
    """Paragraphs of an installed header, next to which no page is: each is named without the end of its file."""
    return [re.sub(r"\b([\w/]+)\.md\b", r"the page \1 of the documentation", text) for text in texts]


def c_parameters(call):
    """The parameters of a call in C, as a type and a name each."""
    found = [f"uint{BITS[name]}_t {name}" for name in call.takes]
    found += [f"const struct journal_{call.entries} *{call.entries}s", "size_t count"] if call.entries else []
    for name in call.reads:
        found += [f"const uint8_t *{name}", f"size_t {'length' if name == 'bytes' else name + '_length'}"]
    if call.flag:
        found.append(f"uint32_t {call.flag}")
    if call.given:
        const = "" if call.changes else "const "
        found += [f"{const}struct journal_{call.given} *{call.given}", f"size_t {call.given}_room"]
    if call.numbers:
        found += [f"struct journal_{call.numbers} *{call.numbers}", f"size_t {call.numbers}_room"]
    if call.table:
        found += [f"struct journal_{call.table} *{call.table}s", "size_t room"]
    if call.writes:
        found += ["uint8_t *out", "size_t room"]
    return found


def c_declaration(call):
    start = f"int64_t {call.symbol()}("
    # a type and its name stay on one line
    taken = ", ".join(parameter.replace(" ", "\u00a0") for parameter in c_parameters(call))
    return filled(taken, start, " " * len(start), WIDTH - 2).replace("\u00a0", " ") + ");\n"


def c_definition(name, value, said, width):
    line = f"#define JOURNAL_{name} {value}"
    return f"{line:{width}} /* {said} */\n" if said else f"{line}\n"


def c_kinds(entry):
    values = list(constants(entry))
    width = max(len(f"#define JOURNAL_{name} {number}") for number, name, _, _ in values)
    text = block(paragraphs(entry["comment"])) + "".join(
        c_definition(name, number, said, width) for number, name, _, said in values
    )
    # the other kinds are told apart and not printed, in the packages too
    return text + (f"\n{c_kind_name(entry)}" if entry["python"] else "")


def c_kind_name(entry):
    """The function that tells the name of a kind, with a case for each: the word that the packages have."""
    values = [(constant, name.lower()) for _, constant, name, _ in constants(entry)]
    constant, name = values[-1]
    said = (
        f'The name of such a kind, as "{name}" of JOURNAL_{constant}, in a text that stays and ends with a zero byte. '
        'It is "unknown" of a kind that this header does not know.'
    )
    cases = "".join(f'    case JOURNAL_{constant}:\n        return "{name}";\n' for constant, name in values)
    return block([said]) + KIND_NAME.replace("KINDS", entry["kinds"]).replace("CASES", cases)


def c_struct(entry):
    name = entry["struct"]
    width = max(len(field) for field, _ in entry["fields"]) + 1
    fields = "".join(f"    uint64_t {field + ';':{width}} /* {said} */\n" for field, said in entry["fields"])
    count = f"#define JOURNAL_{entry['constant']} {len(entry['fields'])}\n"
    room = "; the room for a table is a count of structs" if is_table(entry) else ""
    room += ", and the room for one is their count" if is_one(entry) else ""
    return (
        block(paragraphs(entry["comment"]))
        + f"struct journal_{name} {{\n{fields}}};\n\n"
        + block([f"How many numbers that are: a struct journal_{name} is as an array of them{room}."])
        + count
    )


def is_table(entry):
    """Whether calls write tables of a struct."""
    return any(call.table == entry["struct"] for call in calls())


def is_one(entry):
    """Whether calls read or write one such struct."""
    return any(entry["struct"] in (call.given, call.numbers) for call in calls())


def c_versions(said):
    first, last = described()["versions"]
    return f"/* {said} */\n#define JOURNAL_FIRST_VERSION {first}\n#define JOURNAL_LAST_VERSION {last}\n"


def c_entry(entry):
    if "call" in entry:
        call = next(call for call in calls() if call.call == entry["call"])
        return block(installed(comment(call))) + c_declaration(call)
    if "kinds" in entry:
        return c_kinds(entry)
    if "struct" in entry:
        return c_struct(entry)
    if "versions" in entry:
        return c_versions(entry["versions"])
    if "schemas" in entry:
        return f"/* {entry['schemas']} */\n#define JOURNAL_SCHEMAS {len(schemas())}\n"
    return f"/* {entry['library_version']} */\n#define JOURNAL_LIBRARY_VERSION \"{library_version()}\"\n"


PREAMBLE = """\
/*
 * pendratsoa: the journal protocol of the Restate SDKs, for C99 and C++.
 *
 * Memory. The caller owns all of it, before, during and after a call. A call reads the `const` slices, writes the
 * others, and keeps no pointer; nothing that it allocates outlives it, and nothing has to be freed. Every pointer is
 * followed by a count: elements of a slice, numbers of a struct, structs of a table. If it is 0, the pointer may be
 * null. What a call writes overlaps nothing else of that call.
 *
 * Results. A call returns a number that is not negative, or one of the errors below. One that writes bytes returns how
 * many they are, and writes them if `room` is at least as much. If it is less, the slice is unchanged, and the call can
 * be repeated with enough room. One that writes a table returns how many entries there are, and writes the first ones,
 * as many as `room`. After an error all that a call could write is unchanged. Texts are UTF-8 and have no zero byte at
 * the end.
 *
 * Names. A constant of a family begins with its name: the code of a type with JOURNAL_TYPE_, the number of a schema
 * with JOURNAL_SCHEMA_. Kinds begin with JOURNAL_ITEM_, JOURNAL_FIELD_, JOURNAL_RESULT_, JOURNAL_VERDICT_ or
 * JOURNAL_LIST_, and those of an id end with _ID or _NAME. Options begin with JOURNAL_REPLAY_, directions with
 * JOURNAL_NUMBERING_, and reasons with JOURNAL_JSON_ or JOURNAL_ENTRY_; without a reason it is JOURNAL_READ or
 * JOURNAL_WRITTEN. The errors, which come first, have no such word and are negative. What a program prints has a name
 * too, as "header_mismatch" by journal_verdict_name.
 *
 * Threads. Calls share nothing: any number of threads may make them at once.
 *
 * Documentation. The page docs/FORMAT is docs/FORMAT.html in the archive of reference pages of a release, and
 * docs/FORMAT.md in a clone; docs/C is the page of this library.
 */
#ifndef PENDRATSOA_H
#define PENDRATSOA_H

#include <stddef.h>
#include <stdint.h>

#ifdef __cplusplus
extern "C" {
#endif

"""

KIND_OF_ERROR = """\
/*
 * The kind of an error, by the result of a call: JOURNAL_UNKNOWN of JOURNAL_UNKNOWN_TYPE. The errors of a kind are its
 * number and multiples of -16 below it; a later library may tell further ones apart. For any other result it is
 * not negative.
 */
#define JOURNAL_KIND_OF_ERROR(result) ((result) % 16)
"""

ERROR_TEXT = """\
/*
 * What an error says, as "malformed payload", in a text that stays and ends with a zero byte. For an error that this
 * header does not know it is the text of its kind, and for any other result "no error".
 */
static inline const char *journal_error_text(int64_t result) {
    if (result >= 0) {
        return "no error";
    }
    switch (result) {
CASES    default:
        return result < -16 && JOURNAL_KIND_OF_ERROR(result) < 0 ? journal_error_text(JOURNAL_KIND_OF_ERROR(result))
                                                                 : "unknown error";
    }
}
"""

KIND_NAME = """\
static inline const char *journal_KINDS_name(uint64_t kind) {
    switch (kind) {
CASES    default:
        return "unknown";
    }
}
"""

END = "\n#ifdef __cplusplus\n}\n#endif\n\n#endif\n"


def header():
    text = PREAMBLE
    for error in errors():
        text += f"/* {error['comment']} */\n#define JOURNAL_{error['name']} ({error['number']})\n"
    text += f"\n{KIND_OF_ERROR}\n{c_error_text()}"
    for section in described()["sections"]:
        said = installed([" ".join([section["title"], *section.get("comment", [])])])
        text += "\n/*\n" + commented(said, " * ") + " */\n"
        text += "".join(f"\n{c_entry(entry)}" for entry in section["has"])
        if any("schemas" in entry for entry in section["has"]):
            text += "\n" + c_protocol()
    return text + END


def c_error_text():
    """The function that tells what an error is, with a case for each."""
    cases = "".join(f'    case JOURNAL_{error["name"]}:\n        return "{error["text"]}";\n' for error in errors())
    return ERROR_TEXT.replace("CASES", cases)


def c_protocol():
    """The codes of the types and the numbers of the schemas by name, which the header has with the other numbers."""
    codes = {f"JOURNAL_TYPE_{snake(message.type_name())}": f"0x{message.code:04X}" for message in typed()}
    numbers = {f"JOURNAL_SCHEMA_{snake(schema_name(message))}": message.schema for message in schemas()}
    assert len(set(codes) | set(numbers)) == len(typed()) + len(schemas()), "two constants of one name"
    return (
        "/* The codes of the types. */\n" + defined(codes) + "\n/* The numbers of the schemas. */\n" + defined(numbers)
    )


def schema_name(message):
    """The name of a record without the word that those of messages have."""
    return message.name.replace("Message", "")


def defined(values):
    return "".join(f"#define {name} {value}\n" for name, value in values.items())


# The functions of journal_ffi, in Rattle.

FFI = "crates/journal_ffi/src"

FFI_MODULES = {
    "commands": "The calls that compare two commands of a type, given by their payloads.",
    "fields": "The calls between payloads and tables of their fields.",
    "frames": "The calls that make headers and frames.",
    "items": "The call that reads streams.",
    "journals": "The call that compares two journals.",
    "names": "The calls on names and numbers.",
    "notifications": "The call that reads notifications.",
    "numberings": "The calls on payloads at other field numbers.",
    "payloads": "The calls on payloads, given by the numbers of their schemas.",
    "replays": "The calls that check a replay by its recording, as it comes.",
}

FFI_ROOT = """\
//! The protocol for callers in C, over slices of bytes and numbers: `include/pendratsoa.h` documents the calls in C's
//! terms.
//!
//! Each call returns a number that is not negative, or an error's number, which is negative. One that writes bytes
//! returns how many they are, and writes them if and only if the slice has room for all of them; an error leaves each
//! slice unchanged. No call keeps its arguments, or leaves anything to free. A C struct is a slice of its numbers. A
//! table is a slice of entries: a call writes the first ones, as many as there is room for.
#![tactic(auto)]

"""

# What contracts cite of std: the name, and the word or the sign by which it is found.
PRELUDE = (
    ("◌≡◌", "≡"),
    ("[]", "[]"),
    ("◌∷◌", "∷"),
    ("Ok", "Ok"),
    ("codes", "codes"),
    ("nat_lt", "nat_lt"),
    ("length", "length"),
)


def definitions():
    """The module of each public definition of journal_c_api, by its name."""
    found = {}
    for file in sorted((ROOT / "crates/journal_c_api/specs").glob("*.antt")):
        for name in re.findall(r"^(?:abbrev )?pub (\w+) :", file.read_text(encoding="utf-8"), re.M):
            found[name] = file.stem
    return found


def ffi_parameters(call):
    found = ["alloc: Global"] if call.allocates else []
    found += [f"{name}: u{BITS[name]}" for name in call.takes]
    found += [f"{call.entries}s: &[{rattle_struct(call.entries).rpartition('::')[2]}]"] if call.entries else []
    found += [f"{name}: &[u8]" for name in call.reads]
    found += [f"{call.flag}: u32"] if call.flag else []
    found += [f"{call.given}: &{'mut ' if call.changes else ''}[u64]"] if call.given else []
    found += [f"{call.numbers}: &mut [u64]"] if call.numbers else []
    found += [f"{call.table}s: &mut [{rattle_struct(call.table).rpartition('::')[2]}]"] if call.table else []
    return found + (["out: &mut [u8]"] if call.writes else [])


def rattle_struct(name):
    """The struct of journal_c_api that is an entry of a table."""
    return structs()[name]["rattle"]


def ffi_function(call):
    arguments = [parameter.partition(":")[0] for parameter in ffi_parameters(call)]
    arguments = [f"{name} != 0" if name == call.flag else name for name in arguments]
    plain = call.contract if re.fullmatch(r"\S+", call.contract) else f"({call.contract})"
    return (
        commented(comment(call), "/// ")
        + f'#[unsafe(no_mangle)]\npub extern "C" fn {call.symbol()}({", ".join(ffi_parameters(call))}) -> i64\n'
        + f"    ensures {{ Returns result {plain} }}\n{{\n    outcome_of({call.does}({', '.join(arguments)}))\n}}\n"
    )


def ffi_module(module, found):
    text = "".join("\n" + ffi_function(call) for call in found)
    contracts = " ".join(call.contract for call in found)
    words = set(re.findall(r"\w+", contracts))
    prelude = [name for name, sign in PRELUDE if sign in (words if sign.isalpha() or "_" in sign else contracts)]
    cited = {"Outcomes": ["Returns"]}
    for name, place in definitions().items():
        if name in words:
            cited.setdefault(place, []).append(name)
    imports = [f"ghost use Rattle.std.specs.Prelude.{{{', '.join(prelude)}}};"] if prelude else []
    imports += [
        f"ghost use Rattle.journal_c_api.specs.{place}.{{{', '.join(names)}}};"
        for place, names in sorted(cited.items())
    ]
    does = sorted({call.does.partition("::")[0] for call in found})
    uses = f"use journal_c_api::{does[0]};" if len(does) == 1 else f"use journal_c_api::{{{', '.join(does)}}};"
    used = [uses, "use journal_c_api::outcome::outcome_of;"]
    used += ["use std::alloc::Global;"] if any(call.allocates for call in found) else []
    structures = {name for call in found for name in (call.entries, call.table) if name}
    used += sorted(f"use journal_c_api::{rattle_struct(name)};" for name in structures)
    return f"//! {FFI_MODULES[module]}\n\n" + "\n".join(imports) + "\n\n" + "\n".join(sorted(used)) + "\n" + text


def ffi():
    modules = sorted((*FFI_MODULES, "records"))
    texts = {f"{FFI}/lib.rt": FFI_ROOT + "".join(f"pub mod {module};\n" for module in modules)}
    for module in FFI_MODULES:
        texts[f"{FFI}/{module}.rt"] = ffi_module(module, [call for call in calls() if call.module == module])
    return laid_out(texts)


# Python.

def class_name(error):
    """The class of an error's kind, as Malformed."""
    kind = next(kind for kind in errors() if kind["number"] == -(-error["number"] % 16))
    return camel(kind["name"], True, with_capitals=False)


def python_tuple(values):
    return f'({", ".join(values)}{"," if len(values) == 1 else ""})'


# What an argument may be in Python, where it is not a number.
PYTHON_TYPES = {
    "schema": "Schema",
    "name": "str",
    "json": "Union[str, BytesLike]",
    "ignore_payloads": "bool",
    "replay": "bytes",
    "table": "bytes",
}

PYTHON_NAMED = '''\
class NamedCall(NamedTuple):
    """A call that is made by its name: its function, its name in this package, what it takes of its caller, how many
    numbers it is given, as bytes, and whether it changes them, how many numbers it writes, how many bytes each has of
    what it writes and counts, a byte or an entry of a table, or 0, the room for these that is tried first, which is a
    multiple of the bytes that it reads, and more, and how many bytes an entry has of the table that it reads, or 0."""

    function: str
    name: str
    takes: Tuple[str, ...]
    given: int
    changes: bool
    numbers: int
    unit: int
    times: int
    more: int
    entry: int
'''


def counts(call):
    """How many numbers a call is given, and how many it writes."""
    return [str(len(structs()[name]["fields"]) if name else 0) for name in (call.given, call.numbers)]


def python_named(call):
    """A call that is made by its name."""
    given, numbers = counts(call)
    times, more = compiled.first_room(call)
    takes = python_tuple([quoted(name) for name in compiled.parameters(call)])
    words = [quoted(call.symbol()), quoted(compiled.name_of(call, "Python")), takes, given, str(call.changes), numbers,
             str(compiled.unit(call)), str(times), str(more), str(compiled.entry(call))]
    line = f"    NamedCall({', '.join(words)}),\n"
    if len(line) > WIDTH + 1:
        line = "    NamedCall(\n" + "".join(f"        {word},\n" for word in words) + "    ),\n"
    return line


def python_method(call):
    """A call by its name, as a method of what has all."""
    taken = [
        f"{name}: {PYTHON_TYPES.get(name, 'int' if name in BITS else 'BytesLike')}" for name in
        compiled.parameters(call)
    ]
    result = "bytes" if compiled.unit(call) else "int"
    if call.numbers:
        result = f"Tuple[{result}, Tuple[int, ...]{', bytes' if call.changes else ''}]"
    start = f"    def {compiled.name_of(call, 'Python')}("
    line = f"{start}{', '.join(['self', *taken, '/'] if taken else ['self'])}) -> {result}: ...\n"
    if len(line) > WIDTH + 1:
        line = f"{start}\n        {', '.join(['self', *taken, '/'])}\n    ) -> {result}: ...\n"
    return line


# The kinds that are numbers in Python, since no caller sees them.
PYTHON_NUMBERS = {"the kinds of items": "item", "the kinds of fields": "field", "the options of a replay": "option",
                  "the directions of a numbering": "direction", "what the text of a numbering is": "list"}


def python():
    text = '"""What the library for C declares: its calls, the numbers that they write, and their errors."""\n\n'
    text += "from typing import Dict, NamedTuple, Protocol, Tuple, Union\n\n"
    text += "from ._kinds import BytesLike, Kind, Schema\n\n"
    first, last = described()["versions"]
    text += f"# the first protocol version\nFIRST_VERSION = {first}\n"
    text += f"# the last protocol version; a later library may have further ones\nLAST_VERSION = {last}\n\n"
    text += "# the parameters of each call: the bits of a number, a slice, or the struct that is written\n"
    text += "CALLS: Dict[str, Tuple[str, ...]] = {\n"
    for call in calls():
        text += f'    "{call.symbol()}": {python_tuple([quoted(word) for word in shapes(call)])},\n'
    text += "}\n\n\n" + PYTHON_NAMED + "\n\n# in the order in which the compiled module has them\n"
    text += "NAMED_CALLS: Tuple[NamedCall, ...] = (\n" + "".join(map(python_named, compiled.by_name())) + ")\n"
    text += '\n\nclass NamedCalls(Protocol):\n    """All of them, by their names."""\n\n'
    text += "\n".join(map(python_method, compiled.by_name()))
    text += "\n\n# how many numbers each struct has\n"
    for entry in structs().values():
        text += f"{entry['constant']} = {len(entry['fields'])}\n"
    for what, entry in PYTHON_NUMBERS.items():
        text += f"\n# {what}\n"
        text += "".join(f"{name} = {number}\n" for number, name, _, _ in constants(kinds_named(entry)))
    text += "\n# the class of each error, and the names of the arguments one of which it is about\n"
    text += "ERRORS: Dict[int, Tuple[str, Tuple[str, ...]]] = {\n"
    for error in returned_errors():
        text += (
            f'    {error["number"]}: ("{class_name(error)}", '
            f'{python_tuple([quoted(name) for name in error["about"]])}),\n'
        )
    text += "}\n"
    for entry in kinds():
        if entry["python"]:
            said = entry.get("what", " ".join(entry["comment"]))
            text += f'\n\nclass {entry["python"]}(Kind):\n    """{said}"""\n'
            for number, name, about in shown_kinds(entry):
                text += f'\n    {name} = "{name.lower()}", {number}\n    """{sentence(about)}"""\n'
    return text


def kinds_named(name):
    """The list of kinds of this name."""
    return next(entry for entry in kinds() if entry["kinds"] == name)


def quoted(word):
    return f'"{word}"'


def shown_kinds(entry):
    """The kinds that a binding shows: the number of each, its name, and what is said of it."""
    return [(number, name, said) for number, _, name, said in constants(entry) if number >= entry.get("from", 0)]


def shapes(call):
    """What a call takes, in a word for each parameter or slice."""
    found = [f"u{BITS[name]}" for name in call.takes]
    found += ["slice" for _ in call.reads] + (["slice"] if call.entries else [])
    found += ["u32"] if call.flag else []
    return found + ["slice" for is_there in (call.given, call.numbers, call.table, call.writes) if is_there]


# Ruby.

RUBY_NAMED = '''
  # A call that is made by its name: its function, its name in this gem, what it takes of its caller, how many numbers
  # it is given, as a String, and whether it changes them, how many numbers it writes, how many bytes each has of what
  # it writes and counts, a byte or an entry of a table, or 0, the room for these that is tried first, which is a
  # multiple of the bytes that it reads, and more, and how many bytes an entry has of the table that it reads, or 0.
  NamedCall = Struct.new(:function, :name, :takes, :given, :changes, :numbers, :unit, :times, :more, :entry)

  # In the order in which the compiled module has them.
  NAMED_CALLS = [
'''


def ruby_named(call):
    """A call that is made by its name."""
    given, numbers = counts(call)
    times, more = compiled.first_room(call)
    words = [f":{call.symbol()}", quoted(compiled.name_of(call, "Ruby")), f"%i[{' '.join(compiled.parameters(call))}]",
             given, str(call.changes).lower(), numbers, str(compiled.unit(call)), str(times), str(more),
             str(compiled.entry(call))]
    return filled(f"NamedCall.new({', '.join(words)})", "    ", "      ")


def ruby():
    text = (
        "# frozen_string_literal: true\n\n"
        "# What the library for C declares: its calls, the numbers that they write, and their errors.\n"
        "module Pendratsoa\n"
    )
    first, last = described()["versions"]
    text += f"  # The first protocol version.\n  FIRST_VERSION = {first}\n"
    text += f"  # The last protocol version. A later library may have further ones.\n  LAST_VERSION = {last}\n"
    for entry in kinds():
        said = entry.get("what", " ".join(entry["comment"]))
        text += "\n" + commented([said], "  # ") + "  #\n"
        for _, name, about in shown_kinds(entry):
            text += filled(f"- `:{name.lower()}`: {about}.", "  # ", "  #   ") + "\n"
        names = " ".join(name.lower() for _, name, _ in shown_kinds(entry))
        made = f"[nil, *%i[{names}]].freeze" if entry.get("first") else f"%i[{names}].freeze"
        text += filled(f"{entry['ruby']} = {made}", "  ", "    ") + "\n"
    hidden = [entry["ruby"] for entry in kinds() if not entry["python"]]
    text += "".join(f"  private_constant :{name}\n" for name in hidden)
    text += (
        "\n  # How many numbers each struct has, and of which words each call has a parameter: the bits of a "
        "number, or a slice.\n"
    )
    for entry in structs().values():
        text += f"  {entry['constant']} = {len(entry['fields'])}\n"
    text += "  CALLS = {\n" + ",\n".join(f"    {call.symbol()}: %i[{' '.join(shapes(call))}]" for call in calls())
    text += "\n  }.freeze\n"
    text += RUBY_NAMED + ",\n".join(map(ruby_named, compiled.by_name())) + "\n  ].freeze\n"
    text += "\n  # The class of each error, and the arguments one of which it is about.\n  ERRORS = {\n"
    rows = [
        f"    {error['number']} => [:{class_name(error)}, %i[{' '.join(error['about'])}]]"
        for error in returned_errors()
    ]
    text += ",\n".join(rows) + "\n  }.freeze\n"
    hidden = [entry["constant"] for entry in structs().values()]
    hidden += ["CALLS", "NamedCall", "NAMED_CALLS", "ERRORS"]
    return text + filled("private_constant " + ", ".join(f":{name}" for name in hidden), "  ", "    ") + "\nend\n"


# Node.

# The errors that JavaScript returns itself, and what they are called there.
NODE_ERRORS = {
    "OUT_OF_MEMORY": "NO_MEMORY",
    "TOO_LONG": "TOO_LONG",
    "UNKNOWN_VERSION": "UNKNOWN_VERSION",
    "UNKNOWN_SCHEMA": "UNKNOWN_SCHEMA",
    "UNKNOWN_TYPE": "UNKNOWN_CODE",
}


def node():
    text = (
        "// What the library for C declares: the kinds that calls write, how many numbers each struct has, and the "
        "errors.\n"
    )
    first, last = described()["versions"]
    text += f"\n/** The versions from the first to the last. */\nexport const FIRST_VERSION = {first};\n"
    text += f"export const LAST_VERSION = {last};\n"
    for entry in kinds():
        names = "  undefined,\n" * entry.get("first", 0)
        names += "".join(
            f"  /** {sentence(said)} */\n  '{camel(name, False, with_capitals=False)}',\n"
            for name, said in entry["values"]
        )
        text += f"\n/** {' '.join(entry['comment'])} */\nexport const {entry['node']} = [\n{names}];\n"
    for entry in structs().values():
        text += f"\n/** The indices of the numbers of a {entry['struct']}, and how many there are. */\n"
        fields = ", ".join(f"{camel(field, False)}: {index}" for index, (field, _) in enumerate(entry["fields"]))
        text += f"export const {entry['struct'].upper()} = {{ {fields} }};\n"
        text += f"export const {entry['constant']} = {len(entry['fields'])};\n"
    text += "\n/** The class of each error by its number, and the names of the arguments one of which it is about. */\n"
    text += "export const ERRORS = new Map([\n"
    for error in returned_errors():
        names = ", ".join(f"'{camel(name, False)}'" for name in error["about"])
        text += f"  [{error['number']}, ['{class_name(error)}', [{names}]]],\n"
    text += "]);\n\n/** The numbers of errors that calls return before the library is called. */\n"
    for error, name in NODE_ERRORS.items():
        number = next(each["number"] for each in errors() if each["name"] == error)
        text += f"export const {name} = {number};\n"
    return text


# Which slice a parameter of JavaScript is read into, by its name, unless it is the first.
SLICES = {"second": "second", "replayed": "second", "renames": "second", "stream": "third"}


def node_calls():
    """The functions of the addon and their table, for its C."""
    text = "/* The calls of pendratsoa.h as functions of JavaScript, with the same parameters in the same order. */\n"
    rows = ""
    for call in calls():
        given = [f"arguments->{name}" for name in call.takes]
        parameters = [name.upper() for name in call.takes]
        if call.entries:
            given += [
                "(void *)arguments->fields",
                f"arguments->fields_count / JOURNAL_{structs()[call.entries]['constant']}",
            ]
            parameters.append("FIELDS")
        for name in call.reads:
            place = SLICES.get(name, "first")
            given += [f"arguments->{place}.bytes", f"arguments->{place}.length"]
            parameters.append("CHUNK" if name == "bytes" and not call.entries else name.upper())
        if call.flag:
            given.append("arguments->ignore_payloads")
            parameters.append(call.flag.upper())
        if call.given:
            given += [f"(void *)arguments->{call.given}", f"arguments->{call.given}_room"]
            parameters.append(call.given.upper())
        if call.numbers:
            given += ["(void *)arguments->numbers", "arguments->numbers_room"]
            parameters.append("NUMBERS")
        if call.table:
            room = f"arguments->numbers_room / JOURNAL_{structs()[call.table]['constant']}"
            given += ["(void *)arguments->numbers", room]
            parameters.append("NUMBERS")
        if call.writes:
            given += ["arguments->out.bytes", "arguments->out.length"]
            parameters.append("OUT")
        start = f"    return {call.symbol()}("
        made = filled(", ".join(given).replace("(void *)", "(void\u00a0*)"), start, " " * len(start), WIDTH)
        text += f"\nstatic int64_t {call.call}(const struct arguments *arguments) {{\n{made});\n}}\n"
        rows += f'    {{"{camel(call.call, False, with_capitals=False)}", {call.call}, {{{", ".join(parameters)}}}}},\n'
    return (
        text.replace("\u00a0", " ")
        + "\n/* All of them, as rows of the table of functions. */\n#define CALLS \\\n"
        + rows.replace(",\n", ", \\\n").rstrip(" \\\n")
        + "\n"
    )


def refusing():
    """A library whose calls all fail, each of which another object may define otherwise."""
    text = (
        "/* A library whose calls return JOURNAL_OUT_OF_MEMORY. What later_library.c defines takes their place. */\n"
        "#include <pendratsoa.h>\n\n"
        "#define WEAK __attribute__((weak))\n"
    )
    for call in calls():
        start = f"WEAK int64_t {call.symbol()}("
        taken = ", ".join(parameter.replace(" ", "\u00a0") for parameter in c_parameters(call))
        made = filled(taken, start, " " * len(start), WIDTH - 3).replace("\u00a0", " ")
        unused = "".join(f"    (void){re.findall('[a-z_]+', parameter)[-1]};\n" for parameter in c_parameters(call))
        text += f"\n{made}) {{\n{unused}    return JOURNAL_OUT_OF_MEMORY;\n}}\n"
    return text


# Go.

def go_name(entry, name):
    """The name of a kind."""
    _, prefix, is_public = entry["go"]
    return prefix + camel(name, True) if is_public else prefix + camel(name, True)


GO_HEAD = '''// Code generated by tools/generate.py. DO NOT EDIT.

package pendratsoa

/*
#include <pendratsoa.h>
*/
import "C"

// The protocol versions.
const (
	FirstVersion = C.JOURNAL_FIRST_VERSION
	LastVersion  = C.JOURNAL_LAST_VERSION
)

// Schemas is the number of schemas, whose numbers begin at 0.
const Schemas = C.JOURNAL_SCHEMAS

'''

GO_REST = '''\
// What follows are the C calls in the types of Go, a slice for a pointer and its count. The library keeps no
// pointer, and what the pointers lead to holds none, as the rules of cgo want it.

func pointer(slice []byte) *C.uint8_t {
	if len(slice) == 0 {
		return nil
	}
	return (*C.uint8_t)(unsafe.Pointer(&slice[0]))
}
@TABLES@
func flag(isSet bool) C.uint32_t {
	if isSet {
		return 1
	}
	return 0
}
'''


def go_constants(values):
    """A block of constants, the equals signs below each other."""
    width = max(len(name) for name, _ in values)
    return "const (\n" + "".join(f"\t{name:{width}} = {value}\n" for name, value in values) + ")\n"


def go_kinds(entry):
    kind, _, is_public = entry["go"]
    names = [(go_name(entry, name), constant, said) for _, constant, name, said in constants(entry)]
    shown = names[entry.get("from", 0) :]
    hidden = names[: entry.get("from", 0)]
    said = entry.get("what", " ".join(entry["comment"]))
    if not is_public:
        said = " ".join(entry["comment"])
        return f"// {said}\n".replace(said, filled(said, "", "// ", WIDTH - 3)) + go_constants(
            [(name, f"C.JOURNAL_{constant}") for name, constant, _ in names]
        ) + "\n"
    text = "".join(f"const {camel(constant, False)} = C.JOURNAL_{constant}\n\n" for _, constant, _ in hidden)
    text += f"// {said}\nconst (\n"
    if any(about for _, _, about in shown):
        for name, constant, about in shown:
            text += (
                filled(f"{name}: {about}.", "\t// ", width=WIDTH - 3) + f"\n\t{name} {kind} = C.JOURNAL_{constant}\n"
            )
    else:
        width = max(len(name) for name, _, _ in shown)
        text += "".join(f"\t{name:{width}} {kind} = C.JOURNAL_{constant}\n" for name, constant, _ in shown)
    listed = "".join(f'\t"{name}",\n' for name, _, _ in shown)
    variable = f"namesOf{kind}"
    return text + f")\n\n// The names of the kinds, from the first on.\nvar {variable} = []string{{\n{listed}}}\n\n"


def go_table(name):
    """The type of a table of these structs."""
    return f"[][{camel(structs()[name]['constant'], False)}]uint64"


def go_entries(name):
    """A table of these structs as C takes it."""
    return [f"{go_pointer(name)}({name}s)", f"C.size_t(len({name}s))"]


def go_struct(name):
    """The type of the numbers of a struct."""
    return f"*[{camel(structs()[name]['constant'], False)}]uint64"


def go_numbers(name, variable):
    """The numbers of a struct as C takes them."""
    return [f"(*C.struct_journal_{name})(unsafe.Pointer({variable}))", f"C.size_t(len({variable}))"]


def go_pointer(name):
    """The function that gives a table of these structs as C takes it."""
    return f"pointerTo{camel(name, True)}s"


def go_pointers():
    """Such a function for each struct that tables are of."""
    text = ""
    for name in sorted({name for call in calls() for name in (call.entries, call.table) if name}):
        text += (
            f"\nfunc {go_pointer(name)}(slice {go_table(name)}) *C.struct_journal_{name} {{\n"
            "\tif len(slice) == 0 {\n\t\treturn nil\n\t}\n"
            f"\treturn (*C.struct_journal_{name})(unsafe.Pointer(&slice[0]))\n}}\n"
        )
    return text


def go_call(call):
    parameters = [(camel(name, False), f"uint{BITS[name]}") for name in call.takes]
    given = [f"C.uint{BITS[name]}_t({camel(name, False)})" for name in call.takes]
    if call.entries:
        parameters.append((f"{call.entries}s", go_table(call.entries)))
        given += go_entries(call.entries)
    for name in call.reads:
        parameters.append((name, "[]byte"))
        given += [f"pointer({name})", f"C.size_t(len({name}))"]
    if call.flag:
        parameters.append((camel(call.flag, False), "bool"))
        given.append(f"flag({camel(call.flag, False)})")
    if call.given:
        parameters.append((call.given, go_struct(call.given)))
        given += go_numbers(call.given, call.given)
    if call.numbers:
        name = camel(call.numbers, False)
        parameters.append((name, go_struct(call.numbers)))
        given += go_numbers(call.numbers, name)
    if call.table:
        parameters.append((f"{call.table}s", go_table(call.table)))
        given += go_entries(call.table)
    if call.writes:
        parameters.append(("out", "[]byte"))
        given += ["pointer(out)", "C.size_t(len(out))"]
    taken = ", ".join(f"{name} {kind}" for name, kind in parameters)
    made = ", ".join(given)
    line = f"\treturn int64(C.{call.symbol()}({made}))\n"
    if len(line) > WIDTH - 3:
        wrapped = filled(made, "\t\t", width=WIDTH - 6)
        line = f"\treturn int64(C.{call.symbol()}(\n{wrapped},\n\t))\n"
    start = f"func {camel(call.symbol(), False)}({taken}) int64 {{\n"
    if len(start) > WIDTH - 1:
        start = f"func {camel(call.symbol(), False)}(\n\t{taken},\n) int64 {{\n"
    return f"\n{start}{line}}}\n"


def go():
    text = GO_HEAD.replace('import "C"\n', 'import "C"\n\nimport "unsafe"\n')
    text += "// The errors of the C calls.\n"
    text += (
        go_constants([(camel(error["name"], False), f"C.JOURNAL_{error['name']}") for error in returned_errors()])
        + "\n"
    )
    text += "// The indices of the numbers that the C calls write, and how many there are.\n"
    for entry in structs().values():
        name, constant = entry["struct"], camel(entry["constant"], False)
        values = [(camel(f"{name}_{field}", False), str(index)) for index, (field, _) in enumerate(entry["fields"])]
        text += go_constants([*values, (constant, f"C.JOURNAL_{entry['constant']}")]) + "\n"
    for entry in kinds():
        text += go_kinds(entry)
    return text + GO_REST.replace("@TABLES@", go_pointers()) + "".join(go_call(call) for call in calls())


# Rust.

# The kinds that are public enums of Rust, which are hand-written.
RUST_ENUMS = ("reading", "writing", "verdict")

RUST_HEAD = """\
//! What the header declares: its calls, each with a safe function over slices, the numbers that they write, and their
//! errors.
//!
//! Each safe function here gives its call the pointer and the length of every slice. So what the header requires of its
//! callers holds: a slice that is written is exclusively borrowed, and overlaps no other.

use std::mem::MaybeUninit;

use super::{appended, count, written, About, Refusal, Result};

"""


def rust():
    text = RUST_HEAD
    for entry in kinds():
        is_enum = entry["kinds"] in RUST_ENUMS
        shown = list(constants(entry))[: entry.get("from", 0) if is_enum else None]
        text += "".join(f"pub(crate) const {name}: u64 = {number};\n" for number, name, _, _ in shown)
    text += "\n/// The deepest level that fields have: a message among the fields of this level is too deep.\n"
    text += f"pub(crate) const LEVELS: u64 = {described()['levels']};\n\n"
    text += "/// The calls as the header declares them.\nmod c {\n    extern \"C\" {\n"
    for call in calls():
        text += f"        pub fn {call.symbol()}({', '.join(rust_raw(call))}) -> i64;\n"
    text += (
        "    }\n}\n\nimpl From<i64> for Refusal {\n    fn from(returned: i64) -> Refusal {\n        match returned {\n"
    )
    for error in returned_errors():
        kind = class_name(error)
        if kind in WITH_ABOUT and error["about"][0] in ABOUTS:
            text += f"            {error['number']} => Refusal::{kind}(About::{ABOUTS[error['about'][0]]}),\n"
        elif kind not in WITH_ABOUT + NEVER:
            text += f"            {error['number']} => Refusal::{kind},\n"
    text += "            unlisted => Refusal::Unlisted(unlisted),\n        }\n    }\n}\n"
    return text + "".join(rust_call(call) for call in calls())


# The kinds of errors of which several arguments can be the reason, and how an argument is named in Rust. The crate
# passes neither an unknown version nor unknown options, which have types there, and never a slice that is too short.
WITH_ABOUT = ("Malformed", "Unknown")
NEVER = ("NoRoom",)
ABOUTS = {"schema": "Schema", "code": "Type", "payload": "Payload", "second": "Second"}

RUST_VERSION = """\
//! The versions of the protocol.

use std::fmt;
use std::str::FromStr;

use crate::error::{Argument, Error};

/// A version of the protocol. A later one is greater; version 9 is this project's own, and not one of Restate.
///
/// It is made of its number, or of a text with this number, such as an argument of a program. That is
/// [`Error::Unknown`] if this crate knows no such version, so no other call has the error of an unknown one. A version
/// displays as its number.
///
/// ```
/// use pendratsoa::Version;
///
/// let version: Version = "8".parse()?;
/// assert_eq!(version, Version::V8);
/// assert_eq!(version, Version::try_from(8)?);
/// assert_eq!(u32::from(version), 8);
/// assert_eq!(version.to_string(), "8");
/// let error = Version::try_from(10).unwrap_err();
/// assert_eq!(error.to_string(), "unknown protocol version 10 (@FIRST@ to @LAST@)");
/// # Ok::<(), pendratsoa::Error>(())
/// ```
#[derive(Clone, Copy, Debug, PartialEq, Eq, Hash, PartialOrd, Ord)]
#[non_exhaustive]
pub enum Version {
@VARIANTS@}

impl Version {
    /// The versions, from the first to the last.
    pub const ALL: &'static [Version] = &[
@LISTED@    ];

    pub(crate) const FIRST: Version = Version::V@FIRST@;

    pub(crate) const LAST: Version = Version::V@LAST@;
}

impl fmt::Display for Version {
    fn fmt(&self, f: &mut fmt::Formatter<'_>) -> fmt::Result {
        u32::from(*self).fmt(f)
    }
}

impl From<Version> for u32 {
    fn from(version: Version) -> u32 {
        version as u32
    }
}

impl TryFrom<u32> for Version {
    type Error = Error;

    fn try_from(number: u32) -> Result<Version, Error> {
        match number {
@READ@            _ => Err(Error::Unknown(Argument::Version(number.to_string()))),
        }
    }
}

impl FromStr for Version {
    type Err = Error;

    fn from_str(text: &str) -> Result<Version, Error> {
        text.parse()
            .ok()
            .and_then(|number: u32| Version::try_from(number).ok())
            .ok_or_else(|| Error::Unknown(Argument::Version(text.to_owned())))
    }
}
"""


def rust_version():
    """The enum of versions, as rustfmt lays it out."""
    first, last = described()["versions"]
    numbers = range(first, last + 1)
    parts = {
        "@FIRST@": str(first),
        "@LAST@": str(last),
        "@VARIANTS@": "".join(f"    /// Version {number}.\n    V{number} = {number},\n" for number in numbers),
        "@LISTED@": "".join(f"        Version::V{number},\n" for number in numbers),
        "@READ@": "".join(f"            {number} => Ok(Version::V{number}),\n" for number in numbers),
    }
    text = RUST_VERSION
    for name, part in parts.items():
        text = text.replace(name, part)
    return text


def rust_raw(call):
    found = [f"{name}: u{BITS[name]}" for name in call.takes]
    found += [f"{call.entries}s: *const [u64; {numbers_of(call.entries)}]", "count: usize"] if call.entries else []
    for name in call.reads:
        found += [f"{name}: *const u8", f"{'length' if name == 'bytes' else name + '_length'}: usize"]
    found += [f"{call.flag}: u32"] if call.flag else []
    pointer = "*mut" if call.changes else "*const"
    found += [f"{call.given}: {pointer} u64", f"{call.given}_room: usize"] if call.given else []
    found += [f"{call.numbers}: *mut u64", f"{call.numbers}_room: usize"] if call.numbers else []
    found += [f"{call.table}s: *mut [u64; {numbers_of(call.table)}]", "room: usize"] if call.table else []
    return found + (["out: *mut u8", "room: usize"] if call.writes else [])


# The calls of Rust whose bytes are appended to the caller's vector.
RUST_APPENDED = ("frame", "payload_of_fields", "renumber")


def numbers_of(name):
    """How many numbers a struct has."""
    return len(structs()[name]["fields"])


def rust_call(call):
    parameters = [f"{name}: u{BITS[name]}" for name in call.takes]
    given = list(call.takes)
    if call.entries:
        parameters.append(f"{call.entries}s: &[[u64; {numbers_of(call.entries)}]]")
        given += [f"{call.entries}s.as_ptr()", f"{call.entries}s.len()"]
    parameters += [f"{name}: &[u8]" for name in call.reads]
    for name in call.reads:
        given += [f"{name}.as_ptr()", f"{name}.len()"]
    if call.flag:
        parameters.append(f"{call.flag}: bool")
        given.append(f"u32::from({call.flag})")
    if call.given:
        mutable = "mut " if call.changes else ""
        parameters.append(f"{call.given}: &{mutable}[u64; {numbers_of(call.given)}]")
        given += [f"{call.given}.as_{'mut_' if call.changes else ''}ptr()", f"{call.given}.len()"]
    if call.numbers:
        parameters.append(f"{call.numbers}: &mut [u64; {numbers_of(call.numbers)}]")
        given += [f"{call.numbers}.as_mut_ptr()", f"{call.numbers}.len()"]
    if call.table:
        # it is only written, so it need not be set before
        parameters.append(f"{call.table}s: &mut [MaybeUninit<[u64; {numbers_of(call.table)}]>]")
        given += [f"{call.table}s.as_mut_ptr().cast()", f"{call.table}s.len()"]
    is_fixed = call.writes and call.writes is not True
    if is_fixed:
        parameters.append(f"out: &mut [u8; {call.writes}]")
        given += ["out.as_mut_ptr()", "out.len()"]
    safety = "// SAFETY: each pointer comes with the length of its slice; those that are written are borrowed for it\n"
    if call.writes and not is_fixed:
        times, more = call.room
        lengths = [f"{name}.len()" if times == 1 else f"{times} * {name}.len()" for name in call.reads] if times else []
        # a table of fields has the numbers of the payload, since only its bytes are read besides
        if call.entries and "bytes" in call.reads:
            lengths.append(f"{numbers_of(call.entries)} * {call.entries}s.len()")
        guess = " + ".join([*lengths, *([str(more)] if more or not lengths else [])])
        made = f"c::{call.symbol()}({', '.join([*given, 'out', 'room'])})"
        is_appended = call.call in RUST_APPENDED
        if is_appended:
            parameters.append("out: &mut Vec<u8>")
        body = (
            "    // SAFETY: each pointer comes with the length of its slice, and the call writes at most `room` bytes "
            "and\n"
            "    // returns how many they are\n"
            f"    unsafe {{ {'appended(out, ' if is_appended else 'written('}{guess}, |out, room| {made}) }}\n"
        )
        result = "usize" if is_appended else "Vec<u8>"
    else:
        body = f"    {safety}    count(unsafe {{ c::{call.symbol()}({', '.join(given)}) }})\n"
        result = "usize"
    # what is appended is the table or the frame of every message
    inline = "#[inline]\n" if call.call in RUST_APPENDED else ""
    return f"\n{inline}pub(crate) fn {call.call}({', '.join(parameters)}) -> Result<{result}> {{\n{body}}}\n"


# The list of calls for tests/c/hostile_calls.c.

def listed():
    names = [error["name"] for error in returned_errors()]
    text = "/* The calls, what the header says of each, and how each is made: for hostile_calls.c. */\n\n"
    text += (
        filled(", ".join([*(call.call.upper() for call in calls()), "CALLS"]), "enum call {\n    ", "    ") + "\n};\n\n"
    )
    text += filled(", ".join(["NO_ERROR", *names, "ERRORS"]), "enum error {\n    ", "    ") + "\n};\n\n"
    text += (
        "static const int64_t error_numbers[ERRORS] = {\n    0,\n"
        + "".join(f"    JOURNAL_{name},\n" for name in names)
        + "};\n\n"
    )
    text += (
        "static const struct {\n    const char *name;\n    int inputs;\n    size_t numbers;\n    size_t entry;\n"
        "    int writes;\n    size_t given;\n    int changes;\n"
        "    unsigned errors;\n    int kinds;\n} listed[CALLS] = {\n"
    )
    for call in calls():
        bits = " | ".join(f"1u << {name}" for name in call.error_names()) or "0"
        numbers = f"JOURNAL_{structs()[call.numbers]['constant']}" if call.numbers else 0
        entry = f"JOURNAL_{structs()[call.table]['constant']}" if call.table else 0
        inputs = len(call.reads) + (1 if call.entries else 0)
        given = f"JOURNAL_{structs()[call.given]['constant']}" if call.given else 0
        row = (
            f'[{call.call.upper()}] = {{"{call.symbol()}", {inputs}, {numbers}, {entry}, '
            f'{int(bool(call.writes))}, {given}, {int(call.changes)}, {bits}, {kinds_of(call)}}},'
        )
        text += filled(row, "    ", "        ") + "\n"
    text += "};\n\nstatic int64_t make(const struct request *r, const struct slice *slices) {\n"
    text += "    const struct slice *first = &slices[FIRST], *second = &slices[SECOND], *third = &slices[THIRD];\n"
    text += "    const struct slice *out = &slices[OUT];\n"
    text += (
        "    const void *table = second->at;\n    void *numbers = slices[NUMBERS].at;\n"
        "    size_t count = slices[NUMBERS].length / 8;\n    void *given = slices[GIVEN].at;\n"
        "    size_t given_count = slices[GIVEN].length / 8;\n\n    switch (r->call) {\n"
    )
    for call in calls():
        given = [f"r->{name}" for name in call.takes]
        # a table is the second input
        given += ["table", f"second->length / sizeof(struct journal_{call.entries})"] if call.entries else []
        for place, _ in zip(("first", "second", "third"), call.reads):
            given += [f"{place}->at", f"{place}->length"]
        given += [f"r->{call.flag}"] if call.flag else []
        given += ["given", "given_count"] if call.given else []
        given += ["numbers", "count"] if call.numbers else []
        given += ["numbers", f"count / JOURNAL_{structs()[call.table]['constant']}"] if call.table else []
        given += ["out->at", "out->length"] if call.writes else []
        start = f"        return {call.symbol()}("
        text += f"    case {call.call.upper()}:\n" + filled(", ".join(given), start, " " * len(start)) + ");\n"
    return text + "    default: abort();\n    }\n}\n"


# How many results are told apart of the calls that write a struct, where that is not the number of its kinds.
KINDS_OF = {"item": 1, "notification": 0}


def kinds_of(call):
    """How many kinds of results it has that are not errors."""
    lengths = {entry["kinds"]: len(entry["values"]) for entry in kinds()}
    if call.numbers == "notification":
        return lengths["id"] * lengths["result"]
    if call.numbers not in lengths:
        return call.kinds_of_results
    # of an item that bytes are missing, too
    return lengths[call.numbers] + KINDS_OF.get(call.numbers, 0)


HEADERS = ("include/pendratsoa.h", "python/src/pendratsoa.h", "ruby/ext/pendratsoa/pendratsoa.h")


def files():
    return {
        # the compiled modules are packed with one of their own
        **{path: header() for path in HEADERS},
        **compiled.files(),
        **ffi(),
        "python/pendratsoa/_declared.py": python(),
        "ruby/lib/pendratsoa/declared.rb": ruby(),
        "node/lib/declared.js": node(),
        "node/src/calls.h": node_calls(),
        "node/test/refusing_library.c": refusing(),
        "go/library.go": go(),
        "rust/src/ffi/declared.rs": rust(),
        "rust/src/version.rs": rust_version(),
        "tests/c/calls.h": listed(),
    }


def paths():
    return [
        *HEADERS,
        *compiled.PATHS,
        "go/library.go",
        "node/lib/declared.js",
        "node/src/calls.h",
        "node/test/refusing_library.c",
        "python/pendratsoa/_declared.py",
        "ruby/lib/pendratsoa/declared.rb",
        "rust/src/ffi/declared.rs",
        "rust/src/version.rs",
        "tests/c/calls.h",
        *(f"{FFI}/{module}.rt" for module in ("lib", *FFI_MODULES)),
    ]
