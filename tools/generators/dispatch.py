"""The records of shared_core by their types, commands and schemas: what leads from one that is known at run time to its
record, the number of a type's schema, and all records by one public path.
"""
from . import laid_out
from . import missing_rt as missing  # noqa: F401
from .proto import OneOf, earlier, messages, schemas, snake, typed
from .records import CRATES, PARTS_CRATE, comment

ABOUT = "What leads from a type or a schema to its record, and all records by one path."
SOURCE = "proto/journal.proto"

FOLDER = "crates/shared_core/src"

MESSAGES = """\
//! The records of the protocol: one struct a message, with the enums of its oneofs in a module named as the message.
//! `Value` and `Header` are records here; at the root are those of the SDK state machine.

mod command_dispatch;
mod command_visitor;
mod message_dispatch;
mod message_visitor;
mod record_dispatch;
mod record_visitor;

pub use shared_core_base::error::ErrorBehavior;
pub use shared_core_compare::difference::{CommandMessageHeaderDiff, DifferenceForm};
pub use shared_core_compare::equality::CommandMessageHeaderEq;
pub use shared_core_compare::name::NamedCommandMessage;
pub use shared_core_frames::encodable_message::RestateEncodableMessage;
pub use shared_core_message::restate_message::RestateMessage;
pub use shared_core_message::schemas::schema_at;
pub use shared_core_parts::notification::{
    CANCEL_SIGNAL_ID, CompletionId, Notification, NotificationId, NotificationResult,
};
pub use shared_core_codec::error::EncodingError;

// The nested messages, and the template of notifications.
"""

VISITORS = """\

// Code that is generic over the record, for a type that is known at run time.
pub use command_dispatch::visit_command;
pub use command_visitor::{CommandMessage, CommandVisitor};
pub use message_dispatch::visit_message;
pub use message_visitor::MessageVisitor;
pub use record_dispatch::visit_record;
pub use record_visitor::RecordVisitor;
"""


def has_oneofs(message):
    return any(isinstance(row, OneOf) for row in message.rows)


def all_messages():
    """All records by one path, with the modules of their oneofs."""
    table = {message.name: message for message in messages()}
    in_crates = {name for crate, (_, names) in CRATES.items() if crate != PARTS_CRATE for name in names}
    parts = [MESSAGES]
    for name in sorted(set(table) - in_crates, key=snake):
        if has_oneofs(table[name]):
            parts.append(f"pub use {PARTS_CRATE}::{snake(name)};\n")
        parts.append(f"pub use {PARTS_CRATE}::{snake(name)}::{name};\n")
    for crate, (about, names) in CRATES.items():
        if crate == PARTS_CRATE:
            continue
        shown = sorted(names) + sorted(snake(name) for name in names if has_oneofs(table[name]))
        parts.append(f"\n// {about}\npub use {crate}::{{{', '.join(shown)}}};\n")
    return "".join(parts) + VISITORS


def used(found):
    """The lines that bring records into scope."""
    return f"use crate::messages::{{{', '.join(sorted(found))}}};\n"


def arms_by_type(found, value):
    """The arms of a match that lead from the types of these messages to a value made of each one's record."""
    return "".join(f"        MessageType::{message.type_name()} => {value(message.name)},\n" for message in found)


def visited(record):
    return f"visitor.visit::<{record}>()"


def message_dispatch():
    """From a message's type to its record."""
    arms = arms_by_type(typed(), visited)
    return (
        "//! From a message's type to its record.\n\n"
        "ghost use Rattle.shared_core_message.specs.Messages.{message_schema};\n"
        "ghost use Rattle.shared_core.specs.Visiting.{IsVisited};\n\n"
        + used({"MessageVisitor"} | {message.name for message in typed()})
        + "use shared_core_base::header::MessageType;\n\n"
        "/// The result of a visitor for a message's type, or `None` for a custom entry, which has no record.\n"
        "pub fn visit_message<V: MessageVisitor>(ty: MessageType, visitor: V) -> Option<V::Output>\n"
        "    requires { V.may_visit visitor ty }\n"
        "    ensures { IsVisited (V.results visitor ty) (message_schema ty) result }\n{\n"
        f"    Some(match ty {{\n{arms}        MessageType::CustomEntry(_) => return None,\n    }})\n}}\n"
    )


def command_dispatch():
    """From a command's type to its record."""
    commands = [message for message in typed() if message.command is not None]
    arms = arms_by_type(commands, visited)
    return (
        "//! From a command's type to its record.\n\n"
        "ghost use Rattle.std.specs.Prelude.{IsSome};\n"
        "ghost use Rattle.shared_core_base.specs.CommandType.{command_type_of};\n"
        "ghost use Rattle.shared_core.specs.Visiting.{IsVisited, command_schema};\n\n"
        + used({"CommandVisitor"} | {message.name for message in commands})
        + "use shared_core_base::header::MessageType;\n\n"
        "/// The result of a visitor for a command's type, or `None` if it is not the type of a command.\n"
        "pub fn visit_command<V: CommandVisitor>(ty: MessageType, visitor: V) -> Option<V::Output>\n"
        "    requires { V.may_visit visitor ty }\n"
        "    ensures visited { IsVisited (V.results visitor ty) (command_schema ty) result }\n"
        "    ensures each { IsSome (command_type_of ty) → IsSome result }\n{\n"
        f"    Some(match ty {{\n{arms}        _ => return None,\n    }})\n}}\n"
    )


def record_dispatch():
    """From the number of a schema to its record."""
    order = schemas()
    arms = "".join(f"        {message.schema} => {visited(message.name)},\n" for message in order)
    return (
        "//! From the number of a schema to its record.\n\n"
        "ghost use Rattle.shared_core.specs.Visiting.{IsVisited, known_schema};\n\n"
        + used({"RecordVisitor"} | {message.name for message in order})
        + "\n"
        + comment(
            f"The result of a visitor for a schema, by its number: its place in the table of the {len(order)} schemas, "
            f"from 0 for `{order[0].name}` to {order[-1].schema} for `{order[-1].name}`. `None` where no schema has "
            "the number."
        )
        + "pub fn visit_record<V: RecordVisitor>(schema: u32, visitor: V) -> Option<V::Output>\n"
        "    ensures { IsVisited (V.results visitor) (known_schema schema) result }\n{\n"
        f"    Some(match schema {{\n{arms}        _ => return None,\n    }})\n}}\n"
    )


def type_schemas():
    """The number of a type's schema at a version."""
    before = {}
    for message, last in earlier():
        before.setdefault(last.name, []).append(message)
    arms = ""
    for message in typed():
        for other in sorted(before.get(message.name, []), key=lambda other: other.before_version):
            arms += (
                f"        MessageType::{message.type_name()} if version < Version::V{other.before_version} "
                f"=> {other.schema},\n"
            )
        arms += f"        MessageType::{message.type_name()} => {message.schema},\n"
    others = "".join(
        f" `{last.type_name()}` has another one before V{message.before_version} than later."
        for message, last in earlier()
    )
    return (
        "//! The schemas of messages.\n\nghost use Rattle.std.specs.Prelude.{◌≡◌, ◌<◌, IfSome};\n"
        "ghost use Rattle.shared_core_codec.specs.Table.{schema_count};\n"
        "ghost use Rattle.shared_core_message.specs.Schemas.{schema_at};\n\n"
        "use shared_core_base::header::MessageType;\nuse shared_core_base::version::Version;\n\n"
        + comment(
            "The number of the schema that a type's payloads have at a version: its place in the table of the "
            f"{len(schemas())} schemas.{others} A custom entry has none."
        )
        + "pub fn schema_at(version: Version, ty: MessageType) -> Option<u32>\n"
        "    ensures schema { result ≡ schema_at version ty }\n"
        "    ensures known { IfSome result (λ schema. schema < schema_count) }\n{\n"
        f"    Some(match ty {{\n{arms}        MessageType::CustomEntry(_) => return None,\n    }})\n}}\n"
    )


def texts():
    """The files, not yet laid out."""
    return {
        f"{FOLDER}/messages.rt": all_messages(),
        f"{FOLDER}/messages/command_dispatch.rt": command_dispatch(),
        f"{FOLDER}/messages/message_dispatch.rt": message_dispatch(),
        f"{FOLDER}/messages/record_dispatch.rt": record_dispatch(),
        "crates/shared_core_message/src/schemas.rt": type_schemas(),
    }


def paths():
    return list(texts())


def files():
    return laid_out(texts())
