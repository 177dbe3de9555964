//! What a schema says of its fields, and what a message type says of its messages.

use crate::table::{SCHEMAS, TYPES};

/// What a field holds. A message names its schema by number.
#[derive(Clone, Copy, Debug, PartialEq, Eq)]
pub enum Kind {
    U32,
    U64,
    Bool,
    Enum,
    Text,
    Bytes,
    Message(usize),
}

impl Kind {
    /// The wire type of a record that holds one value.
    pub fn wire_type(self) -> u8 {
        match self {
            Kind::U32 | Kind::U64 | Kind::Bool | Kind::Enum => 0,
            Kind::Text | Kind::Bytes | Kind::Message(_) => 2,
        }
    }
}

/// How often a field is in a message. A message field that is not a list and no member is optional. A member names its
/// oneof by the least number of its members.
#[derive(Clone, Copy, Debug, PartialEq, Eq)]
pub enum Label {
    Plain,
    Optional,
    Repeated,
    Member(u32),
}

/// A field of a schema.
#[derive(Clone, Copy, Debug, PartialEq, Eq)]
pub struct Field {
    pub number: u32,
    pub kind: Kind,
    pub label: Label,
}

impl Field {
    pub const fn new(number: u32, kind: Kind, label: Label) -> Field {
        Field {
            number,
            kind,
            label,
        }
    }

    /// Whether the field's values may be packed in one record.
    pub fn is_packable(&self) -> bool {
        self.label == Label::Repeated && self.kind == Kind::U32
    }
}

/// The fields of a message, in the order in which a canonical payload has them.
#[derive(Debug)]
pub struct Schema {
    pub name: &'static str,
    pub fields: &'static [Field],
}

impl Schema {
    pub fn field(&self, number: u32) -> Option<&'static Field> {
        self.fields.iter().find(|field| field.number == number)
    }
}

/// A message type that has a name: its code in a header, and the schema of its payloads.
#[derive(Debug, PartialEq, Eq)]
pub struct MessageType {
    pub name: &'static str,
    pub code: u16,
    pub schema: usize,
}

/// The schema of a name.
pub fn schema_of(name: &str) -> Option<usize> {
    SCHEMAS.iter().position(|schema| schema.name == name)
}

/// The message type of a name.
pub fn type_of(name: &str) -> Option<&'static MessageType> {
    TYPES.iter().find(|message_type| message_type.name == name)
}

/// The named message type that has a code.
pub fn type_of_code(code: u16) -> Option<&'static MessageType> {
    TYPES.iter().find(|message_type| message_type.code == code)
}
