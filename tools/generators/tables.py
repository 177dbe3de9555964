"""The tables that contracts cite, each a definition with a row for what proto/journal.proto says once: schemas, the
schema of each type, and what of a command is compared and printed. And the list of types for the scripts that write and
list streams.
"""
from . import bracketed, laid_out
from . import missing_rt as missing  # noqa: F401
from .commands import Entry, name_number
from .proto import TEMPLATE, OneOf, earlier, fields_of, schema_name, schemas, typed
from .records import KINDS

ABOUT = "The tables of schemas, of message types and of compared commands, for contracts."
SOURCE = "proto/journal.proto"

TYPES = """\
# The types that the protocol names: the code in hex digits, and the name. For list_stream and write_stream of the
# checks.
"""

TABLE = """\
-- The schemas of the protocol's messages (this project's own, except SuspensionMessageV6), each with a name for its
-- index in the table. Rows are in the order of their numbers, a oneof at its least number.
use Rattle.std.specs.Prelude.{ℕ, List, [], ◌∷◌}
use Rattle.shared_core_wire.specs.Schema.{Row, Table, Plain, Optional, Repeated, OneOf, table_of}
use Rattle.shared_core_wire.specs.Schema.{U32, U64, Boolean, Enumeration, Text, ByteString, Message}
"""

TEMPLATE_PARTS = """\
-- The parts of NotificationTemplate.
use Rattle.shared_core_wire.specs.Value.{Part, Parts, nil, cons}

-- The parts that its rows have, in the order of their numbers.
abbrev pub template_parts : %sParts
"""

FIELDS = """\
-- The numbers of fields that definitions cite, of messages without a type of their own; a name is that of both.
use Rattle.std.specs.Prelude.{ℕ}
"""

MESSAGES = """\
-- The schemas of messages.
use Rattle.std.specs.Prelude.{◌≡◌, ◌⊎◌, ℕ, Option, Some, None}
use Rattle.shared_core_base.specs.declared.header.MessageType.{MessageType}
"""

COMMANDS = """\
-- Which fields of each command are compared, and which are printed if two commands differ.
use Rattle.std.specs.Prelude.{ℕ, List, [], ◌∷◌, codes}
use Rattle.shared_core_codec.specs.Table as schema
use Rattle.shared_core_compare.specs.CommandFields.{CommandFields}

-- The number of the field that names a command.
abbrev pub name_number : ℕ
name_number = %d

-- The commands, by their schemas. Their code is proved against their entries.
abbrev pub commands : List (ℕ × CommandFields)
"""

LABELS = {"plain": "Plain", "optional": "Optional", "message": "Optional", "repeated": "Repeated"}


def kind(field):
    """The kind of a field."""
    return f"Message {schema_name(field.message)}" if field.kind == "message" else KINDS[field.kind]


def row(row):
    """A row of a schema."""
    if isinstance(row, OneOf):
        members = "".join(f"({member.number}, {kind(member)}) ∷ " for member in row.members)
        return f"OneOf ({members}[])"
    held = f"({kind(row)})" if row.kind == "message" else kind(row)
    return f"{LABELS[row.presence]} {row.number} {held}"


def least(row):
    """The number by which a row is ordered."""
    return min(member.number for member in row.members) if isinstance(row, OneOf) else row.number


def types():
    """The list of types."""
    return TYPES + "".join(f"{message.code:04x} {message.type_name()}\n" for message in typed())


def table():
    """The table of schemas."""
    parts = [TABLE]
    for message in schemas():
        name = schema_name(message.name)
        parts.append(f"\n-- The schema of {message.name}.\nabbrev pub {name} : ℕ\n{name} = {message.schema}\n")
    parts.append(
        "\n-- The schemas, in the order of the names above.\nabbrev pub schemas : List (List Row)\nschemas =\n"
    )
    for message in schemas():
        rows = bracketed([row(one) for one in sorted(message.rows, key=least)])
        parts.append(f"    -- {message.name}\n    {'∷ ' if message.schema else ''}{rows}\n")
    parts.append(
        "    ∷ []\n\n-- The number of schemas.\nabbrev pub schema_count : ℕ\n"
        f"schema_count = {len(schemas())}\n"
    )
    parts.append("\n-- The table of the protocol's messages.\nabbrev pub table : Table\ntable = table_of schemas\n")
    return "".join(parts)


# The fields of messages without a code whose numbers definitions cite.
CITED = {
    "value_content",
    "failure_code",
    "failure_message",
    "header_key",
    "header_value",
    "state_keys_keys",
}


def part_fields():
    """The numbers of those fields, by their names."""
    parts = [FIELDS]
    for message in schemas():
        if message.code is not None:
            continue
        for field in fields_of(message):
            name = f"{schema_name(message.name)}_{field.name}"
            if name not in CITED:
                continue
            parts.append(
                f"\n-- The number of {field.name} of {message.name}.\nabbrev pub {name} : ℕ\n{name} = {field.number}\n"
            )
    return "".join(parts)


def template_parts():
    """The parts of the template of notifications, each named after its row."""
    template = next(message for message in schemas() if message.name == TEMPLATE)
    names = [one.name for one in sorted(template.rows, key=least)]
    parts = "nil"
    for name in reversed(names):
        parts = f"cons {name} {parts}" if parts == "nil" else f"cons {name} ({parts})"
    return f"{TEMPLATE_PARTS % ('Part → ' * len(names))}template_parts {' '.join(sorted(names))} = {parts}\n"


def message_schemas():
    """The schema of each type."""
    rows = "".join(
        f"message_schema types.{message.type_name()} = Some schema.{schema_name(message.name)}\n" for message in typed()
    )
    others = "".join(
        f" ⊎ ((ty ≡ types.{last.type_name()}) × (s ≡ schema.{schema_name(message.name)}))"
        for message, last in earlier()
    )
    said = ", or ".join(
        ["The schema is that of the type's payloads"]
        + [
            f"the one that {last.type_name().lower()}s have before V{message.before_version}"
            for message, last in earlier()
        ]
    )
    return (
        f"{MESSAGES}use Rattle.shared_core_base.specs.declared.header.MessageType.TheVariants as types\n"
        "use Rattle.shared_core_codec.specs.Table as schema\n\n"
        "-- The schema of a named type's payloads; a custom entry has none.\n"
        "abbrev pub message_schema : MessageType → Option ℕ\n"
        f"{rows}message_schema (types.CustomEntry code) = None\n\n"
        f"-- {said}.\nabbrev pub IsSchemaOf : MessageType → ℕ → Type 0\n"
        f"IsSchemaOf ty s = (message_schema ty ≡ Some s){others}\n"
    )


def commands():
    """What of each command is compared and printed."""
    entries = []
    for message in schemas():
        if not message.is_command():
            continue
        entry = Entry(message)
        not_compared = "".join(f"{number} ∷ " for number in entry.not_compared)
        payloads = "".join(f"{number} ∷ " for number in entry.payloads)
        lines = [f'({number}, codes "{name}") ∷' for number, name in entry.printed] + ["[]"]
        between = " " if len(lines) <= 4 else "\n            "
        printed = between + between.join(lines)
        entries.append(
            f"(\n      schema.{schema_name(message.name)},\n      record {{\n        not_compared = {not_compared}[];\n"
            f"        payloads = {payloads}[];\n        printed ={printed};\n      }},\n    )\n"
        )
    return f"{COMMANDS % name_number()}commands = {'    ∷ '.join(entries)}    ∷ []\n"


def texts():
    """The tables, not yet laid out."""
    return {
        "crates/shared_core_codec/specs/Table.antt": table(),
        "crates/shared_core_codec/specs/PartFields.antt": part_fields(),
        "crates/shared_core_message/specs/Messages.antt": message_schemas(),
        "crates/shared_core/specs/TemplateParts.antt": template_parts(),
        "crates/shared_core_compare/specs/CommandTable.antt": commands(),
    }


def paths():
    return [*texts(), "proto/types.txt"]


def files():
    return {**laid_out(texts()), "proto/types.txt": types()}
