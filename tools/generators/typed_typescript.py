"""The records as interfaces of TypeScript, and the rows by which the package for Node reads and writes them."""
import textwrap

from .model import json_name
from .typed_model import TypedOneOf, enumerations, kind_numbers, messages, records

TYPES = {"u32": "number", "u64": "bigint", "bool": "boolean", "text": "string", "bytes": "Uint8Array"}


def commented(comment):
    """A comment without what ends one."""
    return comment.replace("*/", "* /")


def doc(comment, indent=""):
    """A comment of JSDoc."""
    comment = commented(comment)
    if len(f"{indent}/** {comment} */") <= 120:
        return f"{indent}/** {comment} */\n"
    lines = textwrap.wrap(comment, 120 - len(indent) - 3)
    return f"{indent}/**\n" + "".join(f"{indent} * {line}\n" for line in lines) + f"{indent} */\n"


def element(field):
    return field.record or field.enum or TYPES[field.kind]


def member_types(record):
    """The types of the oneofs of a record."""
    text = ""
    for row in record.rows:
        if isinstance(row, TypedOneOf):
            text += "\n" + doc(row.comment) + f"export type {oneof_name(record, row)} ="
            for field in row.members:
                text += f"\n  | {{ readonly case: '{json_name(field.name)}'; readonly value: {element(field)} }}"
            text += ";\n"
    return text


def oneof_name(record, row):
    """The name of the type of a oneof."""
    name = json_name(row.name)
    return f"{record.name.removesuffix('Message')}{name[0].upper()}{name[1:]}"


def interface(record):
    text = "\n" + doc(record.comment)
    if not record.rows:
        return text + f"export type {record.name} = Readonly<Record<never, never>>;\n"
    text += f"export interface {record.name} {{\n"
    parts = []
    for row in record.rows:
        name = json_name(row.name)
        if isinstance(row, TypedOneOf):
            line = f"  readonly {name}?: {oneof_name(record, row)} | undefined;\n"
        elif row.shape == "optional":
            line = f"  readonly {name}?: {element(row)} | undefined;\n"
        elif row.shape == "repeated":
            line = f"  readonly {name}: readonly {element(row)}[];\n"
        else:
            line = f"  readonly {name}: {element(row)};\n"
        parts.append(doc(row.comment, "  ") + line)
    return text + "\n".join(parts) + "}\n"


def enum(found):
    values = "".join(
        (doc(said, "  ") if said else "") + f"  readonly {name}: {number};\n" for name, number, said in found.values
    )
    return (
        "\n" + doc(found.comment) + f"export type {found.name} = number;\n\n"
        + doc(f"The names of the values of `{found.name}`.") + f"export const {found.name}: {{\n{values}}};\n"
    )


HEAD = """\
/**
 * The records of the journal protocol, an interface for each, as `Message.message` has them. What is absent is
 * undefined, bytes are a `Uint8Array`, numbers of 64 bits a `bigint`, and a oneof is the `case` of its member with its
 * `value`.
 */
"""


def types():
    text = HEAD + "".join(enum(found) for found in enumerations())
    text += "".join(member_types(record) + interface(record) for record in records())
    text += "\n/** The record of each schema, by its name. */\nexport interface Records {\n"
    text += "".join(f"  {record.name}: {record.name};\n" for record in records()) + "}\n"
    text += "\n/** The record of the messages of each type, by its name. */\nexport interface MessageRecords {\n"
    for record in messages():
        before = "".join(
            f" | {other.name}" for other in records() if other.code == record.code and other.before_version
        )
        text += f"  {record.type_name}: {record.name}{before};\n"
    text += "}\n\n/** The record of any message. */\nexport type AnyMessage = MessageRecords[keyof MessageRecords];\n"
    return text


def row_of(field, oneof=None):
    shape = "member" if oneof else field.shape
    words = [
        f"'{json_name(oneof.name if oneof else field.name)}'",
        str(field.number),
        str(kind_numbers()[field.kind]),
        f"'{shape}'",
    ]
    by_name = {record.name: record.schema for record in records()}
    if field.record or oneof:
        words.append(str(by_name[field.record]) if field.record else "undefined")
    if oneof:
        words.append(f"'{json_name(field.name)}'")
    return f"[{', '.join(words)}]"


DEFAULTS = {"u32": "0", "u64": "0n", "bool": "false", "enum": "0", "text": "''", "bytes": "NOTHING"}


def default(row):
    if isinstance(row, TypedOneOf) or row.shape == "optional":
        return "undefined"
    return "[]" if row.shape == "repeated" else DEFAULTS[row.kind]


def rows():
    """The module with the rows of records."""
    text = "// The records: the name of each and that of its type, what it is without a field, and its fields.\n\n"
    text += "const NOTHING = new Uint8Array(0);\n\n"
    for found in enumerations():
        values = ", ".join(f"{name}: {number}" for name, number, _ in found.values)
        text += f"\nexport const {found.name} = Object.freeze({{ {values} }});\n"
    text += "\n/** Each record, at the number of its schema. */\nexport const RECORDS = [\n"
    for record in records():
        listed = []
        for row in record.rows:
            listed += [row_of(field, row) for field in row.members] if isinstance(row, TypedOneOf) else [row_of(row)]
        empty = ", ".join(f"{json_name(row.name)}: {default(row)}" for row in record.rows)
        make = f"() => ({{ {empty} }})" if empty else "() => ({})"
        type_name = f"'{record.type_name}'" if record.type_name else "undefined"
        head = f"  {{\n    name: '{record.name}',\n    typeName: {type_name},\n"
        head += f"    code: {f'0x{record.code:04x}' if record.code is not None else 'undefined'},\n"
        head += f"    beforeVersion: {record.before_version or 'undefined'},\n    make: {make},\n    rows: ["
        text += head + ("\n" + "".join(f"      {one},\n" for one in listed) + "    " if listed else "") + "],\n  },\n"
    return text + "];\n"


def files():
    return {"node/messages.d.ts": types(), "node/lib/records.js": rows()}
