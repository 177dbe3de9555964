"""The enums of the crate rust/: the types of messages with their codes, and the schemas of payloads with their numbers.

What is generated is laid out as rustfmt lays it out, since that need not be there.
"""
from . import missing  # noqa: F401
from .proto import COMMANDS, NOTIFICATIONS, schemas, typed

ABOUT = "The types of messages and the schemas, for callers from Rust."
SOURCE = "proto/journal.proto"

# The bits of which a custom entry's code has one at least.
CUSTOM_ENTRY_BITS = 0xFC00

DERIVES = "#[derive(Clone, Copy, Debug, PartialEq, Eq, Hash, PartialOrd, Ord)]\n#[non_exhaustive]\n"


# The columns of a line that rustfmt keeps to.
WIDTH = 100


def arm(pattern, value):
    """An arm of a match in a method, as rustfmt lays it out."""
    line = f"            {pattern} => {value},\n"
    if len(line) <= WIDTH + 1:
        return line
    return f"            {pattern} => {{\n                {value}\n            }}\n"


def within(codes):
    """Whether a code is in a range, in Rust."""
    return f"(0x{codes.start:04X}..0x{codes.stop:04X}).contains(&self.code())"


def message_type():
    """The enum of message types, with what is known of each."""
    types = [(message.type_name(), f"0x{message.code:04X}", message) for message in typed()]
    variants = "".join(f"    /// {message.comment}\n    {name},\n" for name, _, message in types)
    listed = "".join(f"        MessageType::{name},\n" for name, _, _ in types)
    codes = "".join(arm(f"MessageType::{name}", code) for name, code, _ in types)
    names = "".join(arm(f"MessageType::{name}", f'"{name}"') for name, _, _ in types)
    read = "".join(arm(code, f"MessageType::{name}") for name, code, _ in types)
    return f"""\
//! The types of messages.

use std::fmt;

use crate::error::{{Argument, Error}};

/// The type of a message: a named one, or a custom entry, which is known only by its code.
///
/// A later library may have further named types; for this enum their codes are those of custom entries, or of no type.
///
/// ```
/// use pendratsoa::MessageType;
///
/// assert_eq!(MessageType::SleepCommand.code(), 0x040C);
/// assert_eq!(MessageType::from_code(0x040C), Some(MessageType::SleepCommand));
/// assert_eq!(MessageType::from_code(0xFC01), Some(MessageType::CustomEntry(0xFC01)));
/// assert_eq!(MessageType::from_code(0x0004), None);
/// assert_eq!(MessageType::CustomEntry(64513).to_string(), "CustomEntry(64513)");
/// ```
{DERIVES}pub enum MessageType {{
{variants}    /// A custom entry, with its code: one that no named type has, and of whose upper six bits one is set.
    CustomEntry(u16),
}}

impl MessageType {{
    /// The named types, in the order of their codes.
    pub const NAMED: &'static [MessageType] = &[
{listed}    ];

    /// The code of the type in headers.
    #[must_use]
    pub const fn code(self) -> u16 {{
        match self {{
{codes}            MessageType::CustomEntry(code) => code,
        }}
    }}

    /// The name of the type, as `SleepCommand`; that of every custom entry is `CustomEntry`.
    ///
    /// A type displays as its name, but a custom entry with its code, as `CustomEntry(64513)`.
    #[must_use]
    pub const fn name(self) -> &'static str {{
        match self {{
{names}            MessageType::CustomEntry(_) => "CustomEntry",
        }}
    }}

    /// The type that has the code, or `None` if no type has it.
    #[must_use]
    pub const fn from_code(code: u16) -> Option<MessageType> {{
        Some(match code {{
{read}            _ if code & 0x{CUSTOM_ENTRY_BITS:04X} != 0 => MessageType::CustomEntry(code),
            _ => return None,
        }})
    }}

    /// The named type that has the name, or `None` if none has.
    #[must_use]
    pub fn from_name(name: &str) -> Option<MessageType> {{
        MessageType::NAMED
            .iter()
            .copied()
            .find(|named| named.name() == name)
    }}

    /// Whether it is a command, by its code. Custom entries count too; a replay does not compare them.
    #[must_use]
    pub fn is_command(self) -> bool {{
        {within(COMMANDS)}
    }}

    /// Whether it is a notification, by its code. Custom entries count too; a replay does not compare them.
    #[must_use]
    pub fn is_notification(self) -> bool {{
        {within(NOTIFICATIONS)}
    }}
}}

impl fmt::Display for MessageType {{
    fn fmt(&self, f: &mut fmt::Formatter<'_>) -> fmt::Result {{
        match self {{
            MessageType::CustomEntry(code) => write!(f, "CustomEntry({{code}})"),
            named => f.write_str(named.name()),
        }}
    }}
}}

impl From<MessageType> for u16 {{
    fn from(message_type: MessageType) -> u16 {{
        message_type.code()
    }}
}}

impl TryFrom<u16> for MessageType {{
    type Error = Error;

    fn try_from(code: u16) -> Result<MessageType, Error> {{
        MessageType::from_code(code).ok_or(Error::Unknown(Argument::Code(code)))
    }}
}}
"""


def schema():
    """The enum of schemas, with their numbers and names."""
    names = [message.name for message in schemas()]
    variants = "".join(f"    /// {message.comment}\n    {message.name},\n" for message in schemas())
    listed = "".join(f"        Schema::{name},\n" for name in names)
    texts = "".join(arm(f"Schema::{name}", f'"{name}"') for name in names)
    return f"""\
//! The schemas of payloads.

use std::fmt;

use crate::error::{{Argument, Error}};

/// The schema of a payload, named as its message in the description of the protocol.
///
/// Calls take the number of a schema, since a later library may have further ones. The schema that the payloads of a
/// type have at a version is that of [`schema`](crate::schema()).
///
/// ```
/// use pendratsoa::{{canonical, Schema}};
///
/// assert_eq!(Schema::from_name("Value"), Some(Schema::Value));
/// assert_eq!(canonical(Schema::Value.number(), &[0x0A, 0])?, []);
/// # Ok::<(), pendratsoa::Error>(())
/// ```
{DERIVES}pub enum Schema {{
{variants}}}

impl Schema {{
    /// The schemas, each at its number.
    pub const ALL: &'static [Schema] = &[
{listed}    ];

    /// The number of the schema, from 0 on.
    #[must_use]
    pub const fn number(self) -> u32 {{
        self as u32
    }}

    /// The name of the schema, as `SleepCommandMessage`. A schema displays as its name.
    #[must_use]
    pub const fn name(self) -> &'static str {{
        match self {{
{texts}        }}
    }}

    /// The schema that has the number, or `None` if none has it.
    #[must_use]
    pub fn from_number(number: u32) -> Option<Schema> {{
        Schema::ALL.get(usize::try_from(number).ok()?).copied()
    }}

    /// The schema that has the name, or `None` if none has it.
    #[must_use]
    pub fn from_name(name: &str) -> Option<Schema> {{
        Schema::ALL
            .iter()
            .copied()
            .find(|schema| schema.name() == name)
    }}
}}

impl fmt::Display for Schema {{
    fn fmt(&self, f: &mut fmt::Formatter<'_>) -> fmt::Result {{
        f.write_str(self.name())
    }}
}}

impl From<Schema> for u32 {{
    fn from(schema: Schema) -> u32 {{
        schema.number()
    }}
}}

impl TryFrom<u32> for Schema {{
    type Error = Error;

    fn try_from(number: u32) -> Result<Schema, Error> {{
        Schema::from_number(number).ok_or(Error::Unknown(Argument::Schema(number)))
    }}
}}
"""


def files():
    return {"rust/src/message_type.rs": message_type(), "rust/src/schema.rs": schema()}
