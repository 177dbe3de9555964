"""Lists of what proto/journal.proto names, for programs and tests that go through all of it: types, commands, schemas,
and the members of oneofs.
"""
from . import laid_out
from . import missing_rt as missing  # noqa: F401
from .proto import OneOf, camel, command_types, schemas, snake, typed

ABOUT = "Lists of types, commands and schemas for programs and tests."
SOURCE = "proto/journal.proto"

# What a member of a oneof holds, by its kind: the name of the parameter, and its type.
HELD = {
    "u32": ("id", "u32"),
    "u64": ("number", "u64"),
    "bool": ("flag", "bool"),
    "enum": ("constant", "i32"),
    "text": ("name", "String"),
    "bytes": ("bytes", "Bytes"),
}


def schema_names():
    """The names of the schemas for the program conformance."""
    names = "".join(f'"{message.name}",\n' for message in schemas())
    return (
        "//! The names of the schemas.\n\n/// The name of each schema, at its number.\n"
        f"pub const SCHEMAS: [&str; {len(schemas())}] = [\n{names}];\n"
    )


def codes():
    """The codes of the types for the tests of the library for C."""
    listed = ", ".join(f"0x{message.code:04X}" for message in typed())
    return (
        "//! The codes of the types, and the number of schemas.\n\n/// The code of each type.\n"
        f"pub const CODES: [u16; {len(typed())}] = [{listed}];\n\n"
        "/// The number of schemas: the least number that no schema has.\n"
        f"pub const SCHEMAS: usize = {len(schemas())};\n"
    )


def listed_types():
    """The types and the commands for the tests of tests/wire."""
    types = typed()
    commands = [message for message in types if message.command]
    sent = {command.name: message.code for command, message in command_types()}
    named = "".join(f'(0x{message.code:04X}, "{message.type_name()}"),\n' for message in types)
    rows = "".join(
        f'(0x{message.code:04X}, CommandType::{message.command.name}, "{message.command.text}", '
        f'0x{sent[message.command.name]:04X}),\n'
        for message in commands
    )
    return (
        "//! The types with their codes, the commands with their texts, and the number of schemas.\n\n"
        "use shared_core_base::header::CommandType;\n\n"
        "/// The number of schemas: the least number that no schema has.\n"
        f"pub const SCHEMAS: u32 = {len(schemas())};\n\n"
        "/// The code and the name of each type, in the order of codes.\n"
        f"pub const NAMED: [(u16, &str); {len(types)}] = [\n{named}];\n\n"
        "/// The code of each command, the command type that it converts to, the text that both print, and the code "
        "that the\n/// command type is sent with.\n"
        f"pub const COMMANDS: [(u16, CommandType, &str, u16); {len(commands)}] = [\n{rows}];\n"
    )


def surface():
    """The names of types, command types, records and members of oneofs, each by its public path."""
    variants = "".join(f"        MessageType::{message.type_name()},\n" for message in typed())
    commands = command_types()
    named = "".join(f"        CommandType::{command.name},\n" for command, _ in commands)
    records = held = compared = ""
    parameters = {}
    for message in schemas():
        if message.code is None:
            asked = "part"
        elif message.before_version is not None:
            asked = "message"
        else:
            asked = "command" if message.command else "encodable"
        records += f"    {asked}::<messages::{message.name}>();\n"
        for row in message.rows:
            if not isinstance(row, OneOf):
                continue
            path = f"messages::{snake(message.name)}::{camel(row.name)}"
            members = ""
            for member in row.members:
                name, type_name = (
                    HELD[member.kind] if member.kind in HELD else (snake(member.message), f"messages::{member.message}")
                )
                parameters[name] = type_name
                members += f"        {path}::{camel(member.name)}({name}),\n"
            held += f"    let _ = [\n{members}    ];\n"
            compared += f"    compared::<{path}>();\n"
    taken = "".join(f"    {name}: {type_name},\n" for name, type_name in parameters.items())
    return (
        "//! Every type, command type, record and oneof by its public path. As in `surface`, nothing of it runs.\n\n"
        "use crate::public_api::surface::{command, compared, encodable, message, part};\nuse bytes::Bytes;\n"
        "use shared_core::CommandType;\n"
        "use shared_core::header::MessageType;\nuse shared_core::messages;\n\n"
        "/// The names of the types, with the code of a custom entry.\nfn names_of_types(code: u16) {\n    return;\n"
        f"    let _: [MessageType; {len(typed()) + 1}] = [\n{variants}        MessageType::CustomEntry(code),\n    ];\n"
        "}\n\n"
        f"fn names_of_command_types() {{\n    return;\n    let _: [CommandType; {len(commands)}] = [\n{named}    ];\n"
        "}\n\n"
        f"fn records() {{\n    return;\n{records}}}\n\n"
        f"/// The enums of oneofs, with what each variant holds.\nfn oneofs(\n{taken}) {{\n    return;\n"
        f"{held}{compared}}}\n"
    )


def texts():
    """The files, not yet laid out."""
    return {
        "tests/vectors/schema_names.rt.in": schema_names(),
        "tests/ffi/codes.rt.in": codes(),
        "tests/public_api/surface_messages.rt.in": surface(),
        "tests/wire/listed_types.rt.in": listed_types(),
    }


def paths():
    return list(texts())


def files():
    return laid_out(texts())
