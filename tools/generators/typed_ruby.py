"""The records as structs of Ruby, with keywords and frozen, and their signatures in RBS. For the compiled module it is
where their C structs have the fields."""
import re
import textwrap

from . import typed_c
from .model import snake
from .typed_model import TypedOneOf, enumerations, kind_numbers, messages, records, wrapper

# What Ruby tells apart: numbers are Integers, and both texts and bytes are Strings.
CLASSES = {"u32": "Integer", "u64": "Integer", "enum": "Integer", "bool": "bool", "text": "String", "bytes": "String"}
DEFAULTS = {"u32": "0", "u64": "0", "bool": "false", "text": '""', "bytes": '"".b'}


def doc(comment, indent):
    return "".join(f"{indent}# {line}\n" for line in textwrap.wrap(comment, 118 - len(indent)))


def member(record, oneof, field):
    """The class of a oneof's member."""
    return field.record or CLASSES[field.kind] if oneof.told_apart(CLASSES) else wrapper(record, field)


def default(row):
    if isinstance(row, TypedOneOf) or row.shape == "optional":
        return "nil"
    if row.shape == "repeated":
        return "[]"
    if row.enum:
        value = next(
            name
            for found in enumerations()
            if found.name == row.enum
            for name, number, _ in found.values
            if number == 0
        )
        return f":{value}"
    return DEFAULTS[row.kind]


def what(record, row):
    """What a field is, in words."""
    if isinstance(row, TypedOneOf):
        return f"one of {', '.join(member(record, row, field) for field in row.members)}, or nil"
    one = row.record or (
        f"a value of {row.enum}"
        if row.enum
        else {"text": "a UTF-8 String", "bytes": "a binary String"}.get(row.kind, CLASSES[row.kind])
    )
    if row.shape == "repeated":
        return f"an Array, each {one}"
    return f"{one}, or nil" if row.shape == "optional" else one


def row_words(record, row, oneof=None):
    words = [f":{oneof.name if oneof else row.name}", str(row.number), str(kind_numbers()[row.kind]), f":{row.shape}"]
    words.append(f":{row.record or row.enum}" if row.record or row.enum else "nil")
    if oneof:
        words += [f":{row.name}", f":{member(record, oneof, row)}", str(not oneof.told_apart(CLASSES)).lower()]
    return f"[{', '.join(words)}]"


def class_of(record):
    text = "\n" + doc(record.comment, "  ")
    if record.rows:
        text += "  #\n"
        for row in record.rows:
            text += doc(f"- {row.name}, {what(record, row)}: {row.comment[0].lower()}{row.comment[1:]}", "  ")
    rows = []
    for row in record.rows:
        rows += (
            [row_words(record, field, row) for field in row.members]
            if isinstance(row, TypedOneOf)
            else [row_words(record, row)]
        )
    text += f"  class {record.name} < Record\n    SCHEMA = {record.schema}\n"
    if record.code is not None:
        text += f'    TYPE = "{record.type_name}"\n    CODE = 0x{record.code:04x}\n'
        text += f"    BEFORE_VERSION = {record.before_version}\n" if record.before_version else ""
        text += "    include MessageRecord\n"
    listed = "".join(f"      {row},\n" for row in rows).rstrip(",\n")
    defaults = ", ".join(f"{row.name}: {default(row)}" for row in record.rows)
    line = f"    has({{ {defaults} }}, ["
    text += "    has({}, [" if not rows else (line if len(line) <= 120 else filled(defaults))
    return text + (f"\n{listed}\n    ])\n  end\n" if rows else "])\n  end\n")


def filled(defaults):
    return "    has({\n" + "".join(f"      {one},\n" for one in defaults.split(", ")).rstrip(",\n") + "\n    }, ["


def wrappers(record):
    text = ""
    for row in record.rows:
        if isinstance(row, TypedOneOf) and not row.told_apart(CLASSES):
            for field in row.members:
                text += "\n" + doc(field.comment, "  ") + f"  {wrapper(record, field)} = Member.of\n"
    return text


HEAD = """\
# frozen_string_literal: true

module Pendratsoa
"""


def module():
    text = HEAD
    for found in enumerations():
        values = ", ".join(f"{name}: {number}" for name, number, _ in found.values)
        text += doc(f"{found.comment} A value is one of these names, or the number of one that has none.", "  ")
        listed = [(name, said) for name, _, said in found.values if said]
        text += "  #\n" if listed else ""
        text += "".join(doc(f"- `:{name}`: {said[0].lower()}{said[1:]}", "  ") for name, said in listed)
        text += f"  {found.name} = {{ {values} }}.freeze\n\n"
    text = text.rstrip() + "\n"
    text += "".join(wrappers(record) + class_of(record) for record in records())
    text += "\n  # The record of each schema, at its number.\n  RECORDS = [\n"
    text += "".join(f"    {record.name},\n" for record in records()).rstrip(",\n") + "\n  ].freeze\nend\n"
    return text


RBS = {"u32": "Integer", "u64": "Integer", "bool": "bool", "text": "String", "bytes": "String"}


def rbs_element(field):
    """The type of what a field holds."""
    return field.record or (snake(field.enum) if field.enum else RBS[field.kind])


def rbs_type(record, row):
    if isinstance(row, TypedOneOf):
        found = [
            field.record or RBS.get(field.kind, "Integer") if row.told_apart(CLASSES) else wrapper(record, field)
            for field in row.members
        ]
        return f"({' | '.join(found)})?"
    one = rbs_element(row)
    if row.shape == "repeated":
        return f"Array[{one}]"
    return f"{one}?" if row.shape == "optional" else one


def signatures():
    text = "module Pendratsoa\n"
    for found in enumerations():
        alias = re.sub(r"(?<=[a-z0-9])(?=[A-Z])", "_", found.name).lower()
        names = " | ".join(f":{name}" for name, _, _ in found.values)
        text += (
            f"  {doc(found.comment, '  ').strip()}\n  type {alias} = {names} | Integer\n\n"
            f"  {found.name}: Hash[Symbol, Integer]\n\n"
        )
    for record in records():
        for row in record.rows:
            if isinstance(row, TypedOneOf) and not row.told_apart(CLASSES):
                for field in row.members:
                    text += (
                        doc(field.comment, "  ")
                        + f"  class {wrapper(record, field)} < Member\n    attr_reader value: {rbs_element(field)}\n"
                    )
                    text += f"    def self.new: ({rbs_element(field)} value) -> instance\n  end\n\n"
        text += doc(record.comment, "  ") + f"  class {record.name} < Record\n"
        if record.code is not None:
            text += "    include MessageRecord\n\n"
        for row in record.rows:
            text += doc(row.comment, "    ") + f"    attr_reader {row.name}: {rbs_type(record, row)}\n\n"
        words = [f"?{row.name}: {rbs_type(record, row)}" for row in record.rows]
        for name, result in (("def self.new", "instance"), ("def with", "instance")):
            text += f"    {name}: ({', '.join(words)}) -> {result}\n"
        text += "  end\n\n"
    sent = [record.name for record in records() if record.code is not None]
    text += "  # The record of any message.\n  type any_message = " + "\n                   | ".join(sent) + "\n\n"
    text += (
        "  # The name of a named type.\n  type type_name = "
        + "\n                 | ".join(f'"{record.type_name}"' for record in messages())
        + "\n\n"
    )
    return text + "  RECORDS: Array[singleton(Record)]\nend\n"


STRUCTS = """\
/*
 * The structs of records that the library takes, as pendratsoa_messages.h has them, whose comments are there, and where
 * in each its fields are.
 */
#ifndef STRUCTS_H
#define STRUCTS_H

#include <stdbool.h>
#include <stddef.h>
#include <stdint.h>

/* Text in UTF-8 without a zero byte at its end, or bytes. */
struct journal_slice {
    const uint8_t *at;
    size_t length;
};

"""

PLACES = """\
/* Where a struct has a field, in bytes from its beginning. */
struct place {
    uint64_t number; /* the number of the field */
    size_t at;       /* its value, or the pointer to the elements of a list */
    size_t said;     /* whether it is there, which member of its oneof is, or how many elements a list has */
    size_t size;     /* how many bytes an element of a list has */
};

/* The struct of a record: its size, which is 0 if the library does not take it, and its fields. */
struct layout {
    size_t size;
    long count;
    const struct place *places;
};

/* The place of a member of a struct, or of a member of one in it. */
#define AT(record, member) offsetof(struct journal_##record, member)

"""


def place(record, row, field):
    """Where the struct of a record has a field, which is in a row."""
    name = typed_c.member(row.name)

    def at(member):
        return f"AT({record.name}, {member})"

    if field.shape == "repeated":
        words = [at(name), at(f"{name}_count"), f"sizeof({typed_c.element(field)})"]
    else:
        held = f"{name}.{typed_c.member(field.name)}" if field.shape == "member" else name
        said = {"optional": f"has_{name}", "member": f"{name}_case"}.get(field.shape)
        words = [at(held) if typed_c.has_content(field) else "0", at(said) if said else "0", "0"]
    return entry([str(field.number), *words])


def entry(words):
    """An element of an array of structs."""
    return typed_c.declared("    {", words, "},").replace("{ ", "{", 1)


def structs():
    """The structs that the library takes, and where each of them has its fields."""
    taken = [record for record in typed_c.in_order() if typed_c.is_borrowed(record)]
    declared = "".join(f"{typed_c.struct(record)}\n" for record in taken)
    text = STRUCTS + re.sub(r" */\*.*?\*/\n", "", declared, flags=re.DOTALL) + PLACES
    for record in (record for record in taken if record.rows):
        text += f"static const struct place places_of_{record.name}[] = {{\n"
        for row in record.rows:
            for field in row.members if isinstance(row, TypedOneOf) else [row]:
                text += place(record, row, field)
        text += "};\n\n"
    text += "/* The structs by the numbers of their schemas. */\nstatic const struct layout LAYOUTS[] = {\n"
    for record in records():
        words = ["0", "0", "NULL"]
        if record in taken:
            places = f"places_of_{record.name}" if record.rows else "NULL"
            words = [f"sizeof(struct journal_{record.name})", str(len(record.fields())), places]
        text += entry(words)
    return text + "};\n\n#endif\n"


def files():
    return {
        "ruby/ext/pendratsoa/structs.h": structs(),
        "ruby/lib/pendratsoa/messages.rb": module(),
        "ruby/sig/messages.rbs": signatures(),
    }
