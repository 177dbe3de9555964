"""The records as dataclasses of Python."""
import textwrap

from .typed_model import TypedOneOf, enumerations, kind_numbers, messages, records, wrapper

PATH = "python/pendratsoa/messages.py"

TYPES = {"u32": "int", "u64": "int", "bool": "bool", "text": "str", "bytes": "bytes"}
DEFAULTS = {"u32": "0", "u64": "0", "bool": "False", "text": '""', "bytes": 'b""'}

# What Python tells apart: a number is an enum's, too, and so is a bool.
CLASSES = {"u32": "int", "u64": "int", "bool": "int", "enum": "int", "text": "str", "bytes": "bytes"}

HEAD = '''\
"""The records of the journal protocol, a frozen dataclass for each.

What is absent is None, bytes are `bytes`, and a oneof is one of the types of its members, or None.
`dataclasses.replace` changes one field, and `match` takes a record apart. A record's `encode` is its canonical payload,
and `decode` reads any payload that means one; those of messages have a `frame`.
"""

from __future__ import annotations

from dataclasses import dataclass
from typing import ClassVar, Literal, Optional, Tuple, Union

from ._records import MessageRecord, OpenEnum, Record, Row, described
'''


def quoted(comment):
    """A comment as it is between the quotes of a docstring."""
    text = comment.replace("\\", "\\\\")
    return text.replace('"', '\\"') if '"""' in text or text.endswith('"') else text


def doc(comment, indent):
    """A comment as the text of a class or of an attribute."""
    lines = textwrap.wrap(quoted(comment), 120 - len(indent) - 6)
    if len(lines) == 1:
        return f'{indent}"""{lines[0]}"""\n'
    return (
        f'{indent}"""' + "".join(f"{indent if at else ''}{line}\n" for at, line in enumerate(lines)) + f'{indent}"""\n'
    )


def element(field):
    """The type of what a field holds."""
    return field.record or field.enum or TYPES[field.kind]


def member(record, oneof, field):
    return element(field) if oneof.told_apart(CLASSES) else wrapper(record, field)


def type_of(record, row):
    if isinstance(row, TypedOneOf):
        return f"Union[{', '.join([*(member(record, row, field) for field in row.members), 'None'])}]"
    if row.shape == "repeated":
        return f"Tuple[{element(row)}, ...]"
    return f"Optional[{element(row)}]" if row.shape == "optional" else element(row)


def default(row):
    if isinstance(row, TypedOneOf) or row.shape == "optional":
        return "None"
    if row.shape == "repeated":
        return "()"
    return f"{row.enum}(0)" if row.enum else DEFAULTS[row.kind]


def enum(found):
    text = f"\n\nclass {found.name}(OpenEnum):\n{doc(found.comment, '    ')}"
    for name, number, said in found.values:
        text += f"\n    {name} = {number}\n" + (doc(said, "    ") if said else "")
    return text


def wrappers(record):
    text = ""
    for row in record.rows:
        if isinstance(row, TypedOneOf) and not row.told_apart(CLASSES):
            for field in row.members:
                text += (
                    f"\n\n@dataclass(frozen=True)\nclass {wrapper(record, field)}:\n{doc(field.comment, '    ')}\n"
                    f"    value: {element(field)}\n"
                )
    return text


def class_of(record):
    base = "MessageRecord" if record.code is not None else "Record"
    text = f"\n\n@dataclass(frozen=True)\nclass {record.name}({base}):\n{doc(record.comment, '    ')}\n"
    text += f"    SCHEMA: ClassVar[int] = {record.schema}\n"
    if record.code is not None:
        text += f'    TYPE: ClassVar[Literal["{record.type_name}"]] = "{record.type_name}"\n'
        text += f"    CODE: ClassVar[int] = 0x{record.code:04X}\n"
    if record.before_version is not None:
        text += f"    BEFORE_VERSION: ClassVar[Optional[int]] = {record.before_version}\n"
    for row in record.rows:
        line = f"    {row.name}: {type_of(record, row)} = {default(row)}\n"
        text += "\n" + (line if len(line) <= 121 else broken(line)) + doc(row.comment, "    ")
    return text


def broken(line):
    """A long line of a field, its type in several."""
    name, rest = line.split("Union[")
    types, last = rest.rsplit("]", 1)
    return f"{name}Union[\n" + "".join(f"        {one},\n" for one in types.split(", ")) + f"    ]{last}"


def row_words(record, row, oneof=None):
    """What the table of fields has of a field."""
    name = oneof.name if oneof else row.name
    words = [f'"{name}"', str(row.number), str(kind_numbers()[row.kind]), f'"{row.shape}"']
    if holds := row.record or row.enum:
        words.append(holds)
    if oneof:
        if not holds:
            words.append("None")
        words.append(f'"{row.name}"')
        if not oneof.told_apart(CLASSES):
            words.append(wrapper(record, row))
    return f"Row({', '.join(words)})"


def rows_of(record):
    rows = []
    for row in record.rows:
        if isinstance(row, TypedOneOf):
            rows += [row_words(record, field, row) for field in row.members]
        else:
            rows.append(row_words(record, row))
    if not rows:
        return f"described({record.name}, ())\n"
    return f"described(\n    {record.name},\n    (\n" + "".join(f"        {row},\n" for row in rows) + "    ),\n)\n"



def union(name, comment, names):
    return f"\n# {comment}\n{name} = Union[\n" + "".join(f"    {one},\n" for one in names) + "]\n"


def module():
    names = [record.name for record in records()]
    text = HEAD + "".join(enum(found) for found in enumerations())
    text += "".join(wrappers(record) + class_of(record) for record in records())
    text += "\n\n# what the table of fields has of each record\n" + "".join(rows_of(record) for record in records())
    text += (
        "\n# the record of each schema, at its number\nRECORDS = (\n"
        + "".join(f"    {name},\n" for name in names)
        + ")\n"
    )
    sent = [record.name for record in records() if record.code is not None]
    text += union("AnyMessage", "the record of any message", sent)
    text += "\n# the name of each named type\nTypeName = Literal[\n"
    text += "".join(f'    "{record.type_name}",\n' for record in messages()) + "]\n"
    wrapped = [
        wrapper(record, field)
        for record in records()
        for row in record.rows
        if isinstance(row, TypedOneOf) and not row.told_apart(CLASSES)
        for field in row.members
    ]
    public = sorted(["AnyMessage", "RECORDS", "TypeName", *names, *wrapped, *(found.name for found in enumerations())])
    text += "\n__all__ = [\n" + "".join(f'    "{name}",\n' for name in public) + "]\n"
    return text


def files():
    return {PATH: module()}
