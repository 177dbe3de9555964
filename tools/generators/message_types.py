"""The types of messages and of commands: the enums with their codes, names and texts in Rattle, and the tables of the
same that contracts cite.

What both say of a type beyond that, as whether it is a command, is written by hand next to them.
"""
from . import laid_out
from . import missing_rt as missing  # noqa: F401
from .proto import command_types, typed
from .records import comment

ABOUT = "The types of messages and of commands, in Rattle and for contracts."
SOURCE = "proto/journal.proto"

BASE = "crates/shared_core_base"
TYPE = "Rattle.shared_core_base.specs.declared.header.MessageType"
COMMAND = "Rattle.shared_core_base.specs.declared.command_type.CommandType"

HEADER = """\
//! The types of messages, and the header before each message.

ghost use Rattle.std.specs.Prelude.{◌≡◌};
ghost use Rattle.shared_core_base.specs.TypeTable.{named_types, variant_name_of};

pub use crate::command_type::CommandType;
pub use crate::message_header::MessageHeader;
pub use crate::type_kinds::{DebugName, UnknownMessageType};
"""


def names():
    """The names of the types."""
    return [message.type_name() for message in typed()]


def code(message):
    return f"0x{message.code:04X}"


def header():
    """The enum of message types, its conversions, and its names."""
    variants = "".join(f"    {name},\n" for name in names())
    read = "".join(f"            {code(message)} => Ok(MessageType::{message.type_name()}),\n" for message in typed())
    written = "".join(f"            MessageType::{message.type_name()} => {code(message)},\n" for message in typed())
    listed = "".join(f"    MessageType::{name},\n" for name in names())
    texts = "".join(f'            MessageType::{name} => "{name}",\n' for name in names())
    return (
        f"{HEADER}\n"
        + comment(
            f"The type of a message: one of {len(names())} that have a name, or a custom entry, which is known only "
            "by its code."
        )
        + "///\n"
        "/// Codes below 0x0400 are the core's, from 0x0400 to below 0x8000 commands, from 0x8000 to below 0xFC00 "
        "notifications.\n"
        "#[derive(Clone, Copy, Debug, PartialEq, Eq)]\npub enum MessageType {\n"
        f"{variants}    /// A code that no named type has, and of whose upper six bits one is set.\n"
        "    CustomEntry(u16),\n}\n\n"
        "const CUSTOM_ENTRY_MASK: u16 = 0xFC00;\n\n"
        "impl TryFrom<u16> for MessageType {\n    type Error = UnknownMessageType;\n\n"
        "    ghost use Rattle.shared_core_base.specs.MessageType.{ReadsType};\n\n"
        "    ghost try_from_gives = { ReadsType };\n\n"
        "    #[tactic(auto, unfolding(crate::specs::MessageType::type_of, crate::specs::TypeTable::named_types))]\n"
        "    fn try_from(code: u16) -> Result<MessageType, UnknownMessageType> {\n        match code {\n"
        f"{read}            code if code & CUSTOM_ENTRY_MASK != 0 => Ok(MessageType::CustomEntry(code)),\n"
        "            code => Err(UnknownMessageType(code)),\n        }\n    }\n}\n\n"
        "impl From<MessageType> for u16 {\n    ghost use Rattle.std.specs.Prelude.{◌≡◌};\n"
        "    ghost use Rattle.shared_core_base.specs.TypeTable.{code_of};\n\n"
        "    ghost from_gives = { λ ty code. code ≡ code_of ty };\n\n"
        "    fn from(ty: MessageType) -> u16 {\n        match ty {\n"
        f"{written}            MessageType::CustomEntry(code) => code,\n"
        "        }\n    }\n}\n\n"
        f"static NAMED_TYPES: [MessageType; {len(names())}] = [\n{listed}];\n\n"
        "impl MessageType {\n    /// The types that have a name, in the order of their codes.\n"
        "    #[tactic(auto, unfolding(crate::specs::TypeTable::named_types))]\n"
        "    pub fn named() -> &'static [MessageType]\n        ensures { result.now ≡ named_types }\n    {\n"
        "        &NAMED_TYPES\n    }\n\n"
        "    /// The name of the variant, as `InputCommand`; that of every custom entry is `CustomEntry`.\n"
        "    pub fn variant_name(&self) -> &'static str\n        ensures { result.now ≡ variant_name_of self.now }\n"
        "    {\n"
        f'        match self {{\n{texts}            MessageType::CustomEntry(_) => "CustomEntry",\n        }}\n    }}\n'
        '}\n'
    )


def type_table():
    """The codes and names of message types."""
    codes = "".join(f"code_of types.{message.type_name()} = {code(message)}\n" for message in typed())
    listed = "    ∷ ".join(f"types.{name}\n" for name in names())
    texts = "".join(f'variant_name_of types.{name} = codes "{name}"\n' for name in names())
    return (
        "-- The codes and the names of the types of messages.\n"
        "use Rattle.std.specs.Prelude.{ℕ, codes, List, [], ◌∷◌}\n"
        f"use {TYPE}.{{MessageType}}\nuse {TYPE}.TheVariants as types\n\n"
        "-- The code that denotes a type: a named type has the code of this table, a custom entry its own.\n"
        f"abbrev pub code_of : MessageType → ℕ\n{codes}code_of (types.CustomEntry code) = code\n\n"
        f"-- The {len(names())} types that have a name.\nunfoldable pub named_types : List MessageType\nnamed_types =\n"
        f"    {listed}    ∷ []\n\n"
        "-- The name of a type's variant.\nabbrev pub variant_name_of : MessageType → List ℕ\n"
        f'{texts}variant_name_of (types.CustomEntry code) = codes "CustomEntry"\n'
    )


def plainly(command, message):
    """Whether a command type is sent as the message type of its own name."""
    return message.type_name() == f"{command.name}Command"


def converting():
    """The messages of commands."""
    return [message for message in typed() if message.command is not None]


def command_type():
    """The enum of command types, its texts, and its conversions."""
    types = command_types()
    variants = texts = sent = ""
    for command, message in types:
        if message.command.name != command.name:
            variants += f"    /// It is sent as `{message.type_name()}`, so no message type converts to it.\n"
        variants += f"    {command.name},\n"
        texts += f'            CommandType::{command.name} => "{command.text}",\n'
        sent += f"            CommandType::{command.name} => MessageType::{message.type_name()},\n"
    found = "".join(
        f"            MessageType::{message.type_name()} => Ok(CommandType::{message.command.name}),\n"
        for message in converting()
    )
    others = ", ".join(
        f"`{command.name}` as `{message.type_name()}`" for command, message in types if not plainly(command, message)
    )
    return (
        "//! The types of commands, with human-readable texts.\n\n"
        "ghost use Rattle.std.specs.Prelude.{◌≡◌, Some};\n"
        "ghost use Rattle.shared_core_base.specs.CommandTable.{command_text_of, message_type_of};\n"
        "ghost use Rattle.shared_core_base.specs.CommandType.{ConvertsToCommand};\n\n"
        "use crate::header::MessageType;\nuse std::fmt;\n\n"
        "/// What a command does. Several message types may be of one command type.\n"
        f"#[derive(Clone, Copy, Debug, PartialEq, Eq)]\npub enum CommandType {{\n{variants}}}\n\n"
        "/// Prints the human-readable text, as `one way call/send`.\nimpl fmt::Display for CommandType {\n"
        "    ghost output = { λ command. Some (command_text_of command) };\n\n"
        "    fn fmt<W: fmt::Write>(&self, f: &mut fmt::Formatter<W>) -> fmt::Result {\n"
        "        f.write_str(command_text(*self))\n    }\n}\n\n"
        "fn command_text(command: CommandType) -> &'static str\n    ensures { result.now ≡ command_text_of command }\n"
        f"{{\n    match command {{\n{texts}    }}\n}}\n\n"
        + comment(f"The message type that a command is sent as: {others}, each other as the type of its own name.")
        + "impl From<CommandType> for MessageType {\n"
        "    ghost from_gives = { λ command ty. ty ≡ message_type_of command };\n\n"
        f"    fn from(command: CommandType) -> MessageType {{\n        match command {{\n{sent}        }}\n    }}\n"
        "}\n\n"
        + comment(
            "The command type of a message type. A type that does not belong to a named command, such as a custom "
            "entry, is rejected: it is returned as the error."
        )
        + "impl TryFrom<MessageType> for CommandType {\n    type Error = MessageType;\n\n"
        "    ghost try_from_gives = { ConvertsToCommand };\n\n"
        "    fn try_from(ty: MessageType) -> Result<CommandType, MessageType> {\n        match ty {\n"
        f"{found}            _ => Err(ty),\n"
        "        }\n    }\n}\n"
    )


def command_table():
    """The texts of command types, and the message types that they are sent as."""
    texts = "".join(
        f'command_text_of command.{command.name} = codes "{command.text}"\n' for command, _ in command_types()
    )
    sent = "".join(
        f"message_type_of command.{command.name} = message.{message.type_name()}\n"
        for command, message in command_types()
    )
    found = "".join(
        f"command_type_of message.{message.type_name()} = Some command.{message.command.name}\n"
        for message in converting()
    )
    return (
        "-- The types of commands, their texts, and the message types that they are sent as.\n"
        "use Rattle.std.specs.Prelude.{ℕ, codes, List, Option, Some, None}\n"
        f"use {TYPE}.{{MessageType}}\nuse {TYPE}.TheVariants as message\nuse {COMMAND}.{{CommandType}}\n"
        f"use {COMMAND}.TheVariants as command\n\n"
        f"-- The text that a command type prints.\nabbrev pub command_text_of : CommandType → List ℕ\n{texts}\n"
        "-- The message type that a command type is sent as.\nabbrev pub message_type_of : CommandType → MessageType\n"
        f"{sent}\n"
        "-- The command type of a message type: each named command has one, and no other type has.\n"
        f"abbrev pub command_type_of : MessageType → Option CommandType\n{found}command_type_of ty = None\n"
    )


def texts():
    """The files, not yet laid out."""
    return {
        f"{BASE}/src/header.rt": header(),
        f"{BASE}/src/command_type.rt": command_type(),
        f"{BASE}/specs/TypeTable.antt": type_table(),
        f"{BASE}/specs/CommandTable.antt": command_table(),
    }


def paths():
    return list(texts())


def files():
    return laid_out(texts())
