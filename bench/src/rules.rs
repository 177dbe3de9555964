//! A reader of the protocol by the rules of docs/PAYLOADS.md and only the protocol's description: neither the library
//! nor prost takes part.
//!
//! It is written to be read next to the rules and not to be fast: it copies all that it reads.

use std::collections::BTreeMap;

use crate::schema::{schema_of, type_of, type_of_code, Field, Kind, Label, MessageType};
use crate::table::SCHEMAS;
use crate::wire::{
    key, put_varint, take, take_key, take_lengthy, take_varint, EIGHT_BYTES, FOUR_BYTES, GROUP,
    GROUP_END, LENGTH, VARINT,
};

/// The last level on which records may be.
const LAST_LEVEL: u32 = 100;

/// The version from which on a suspension is sent as a tree, and the proposal of a run's result requests an
/// acknowledgement.
const TREES: u32 = 7;

/// The version from which on a message whose code is that of no type is skipped with its payload.
const SKIPS: u32 = 9;

const HEADER: usize = 8;
const ACKNOWLEDGE: u64 = 1 << 47;

/// What a payload means for a schema.
#[derive(Debug)]
pub struct Meaning {
    schema: usize,
    message: Message,
    /// Whether a record that the schema skips is on the last level.
    pub skips_on_last_level: bool,
}

impl Meaning {
    /// What payloads mean that are merged one after the other, where each is well-formed for the schema.
    pub fn of<'a>(schema: usize, payloads: impl IntoIterator<Item = &'a [u8]>) -> Option<Meaning> {
        let mut reader = Reader::default();
        let mut message = Message::default();
        for payload in payloads {
            reader.merge(&mut message, schema, 0, payload)?;
        }
        Some(Meaning {
            schema,
            message,
            skips_on_last_level: reader.skips_on_last_level,
        })
    }

    /// Its canonical payload.
    pub fn payload(&self) -> Vec<u8> {
        self.message.payload(self.schema)
    }

    /// The frame of a message of a type, which has this meaning's schema, at a version.
    pub fn frame(&self, message_type: &MessageType, version: u32) -> Option<Vec<u8>> {
        let (payload, word) = if version < TREES && message_type == type_of("Suspension")? {
            let lists = self.message.lists();
            (lists.payload(schema_of("SuspensionMessageV6")?), 0)
        } else if version >= TREES && message_type == type_of("ProposeRunCompletion")? {
            (self.payload(), ACKNOWLEDGE)
        } else {
            (self.payload(), 0)
        };
        let word = word | u64::from(message_type.code) << 48 | payload.len() as u64;
        Some([word.to_be_bytes().as_slice(), &payload].concat())
    }
}

/// The values of a message's fields by their numbers. Where a field is not a list it has one value at most, and where a
/// member is present no other member of its oneof is.
#[derive(Debug, Default)]
struct Message {
    fields: BTreeMap<u32, Vec<Value>>,
}

#[derive(Debug)]
enum Value {
    /// A number as its varint has it: the low 32 bits where the field has no more, extended by its sign where it is an
    /// enum.
    Number(u64),
    Bytes(Vec<u8>),
    Message(Message),
}

impl Message {
    fn values(&self, number: u32) -> &[Value] {
        self.fields.get(&number).map_or(&[], Vec::as_slice)
    }

    /// Puts a value in the place of what the field holds, and of the other members of its oneof.
    fn set(&mut self, schema: usize, field: &Field, value: Value) {
        self.drop_other_members(schema, field);
        self.fields.insert(field.number, vec![value]);
    }

    fn drop_other_members(&mut self, schema: usize, field: &Field) {
        if let Label::Member(_) = field.label {
            for other in SCHEMAS[schema].fields {
                if other.label == field.label && other.number != field.number {
                    self.fields.remove(&other.number);
                }
            }
        }
    }

    fn push(&mut self, number: u32, value: Value) {
        self.fields.entry(number).or_default().push(value);
    }

    /// The message that a field holds and that is not an element of a list. It is empty where there was none, or
    /// another member.
    fn inner(&mut self, schema: usize, field: &Field) -> &mut Message {
        self.drop_other_members(schema, field);
        let values = self
            .fields
            .entry(field.number)
            .or_insert_with(|| vec![Value::Message(Message::default())]);
        match values.as_mut_slice() {
            [Value::Message(inner)] => inner,
            _ => unreachable!("a field of one message"),
        }
    }

    /// The canonical payload.
    fn payload(&self, schema: usize) -> Vec<u8> {
        let mut out = Vec::new();
        for field in SCHEMAS[schema].fields {
            let values = self.values(field.number);
            if field.is_packable() {
                put_packed(field, values, &mut out);
            } else {
                for value in values {
                    if field.label != Label::Plain || !value.is_default() {
                        value.put(field, &mut out);
                    }
                }
            }
        }
        out
    }

    /// All that a suspension awaits, in three lists: those of a future, and then those of each future in it.
    fn lists(&self) -> Message {
        let suspension = schema_of("SuspensionMessage").map(|schema| SCHEMAS[schema].fields);
        let mut lists = Message::default();
        for field in suspension.unwrap_or_default() {
            for future in self.values(field.number) {
                if let Value::Message(future) = future {
                    future.add_to(&mut lists);
                }
            }
        }
        lists
    }

    /// Adds what a future awaits to three lists, which have the same numbers as its own.
    fn add_to(&self, lists: &mut Message) {
        const LISTS: [u32; 3] = [1, 2, 3];
        const NESTED: u32 = 4;
        for number in LISTS {
            for value in self.values(number) {
                match value {
                    Value::Number(number_of) => lists.push(number, Value::Number(*number_of)),
                    Value::Bytes(bytes) => lists.push(number, Value::Bytes(bytes.clone())),
                    Value::Message(_) => unreachable!("a list of numbers or texts"),
                }
            }
        }
        for value in self.values(NESTED) {
            if let Value::Message(future) = value {
                future.add_to(lists);
            }
        }
    }
}

impl Value {
    fn is_default(&self) -> bool {
        match self {
            Value::Number(number) => *number == 0,
            Value::Bytes(bytes) => bytes.is_empty(),
            Value::Message(_) => false,
        }
    }

    fn put(&self, field: &Field, out: &mut Vec<u8>) {
        put_varint(key(field.number, field.kind.wire_type()), out);
        match (self, field.kind) {
            (Value::Number(number), _) => put_varint(*number, out),
            (Value::Bytes(bytes), _) => put_lengthy(bytes, out),
            (Value::Message(inner), Kind::Message(schema)) => {
                put_lengthy(&inner.payload(schema), out);
            }
            (Value::Message(_), _) => unreachable!("a message in a field of messages"),
        }
    }
}

fn put_lengthy(bytes: &[u8], out: &mut Vec<u8>) {
    put_varint(bytes.len() as u64, out);
    out.extend_from_slice(bytes);
}

/// Writes a list of numbers as one record, where it is not empty.
fn put_packed(field: &Field, values: &[Value], out: &mut Vec<u8>) {
    let mut run = Vec::new();
    for value in values {
        if let Value::Number(number) = value {
            put_varint(*number, &mut run);
        }
    }
    if !run.is_empty() {
        put_varint(key(field.number, LENGTH), out);
        put_lengthy(&run, out);
    }
}

/// A number as a field keeps it.
fn kept(kind: Kind, number: u64) -> u64 {
    match kind {
        Kind::U32 => u64::from(number as u32),
        Kind::Enum => number as u32 as i32 as u64,
        Kind::Bool => u64::from(number != 0),
        _ => number,
    }
}

#[derive(Default)]
struct Reader {
    skips_on_last_level: bool,
}

impl Reader {
    /// Merges a payload, whose records are on a level, into a message.
    fn merge(
        &mut self,
        message: &mut Message,
        schema: usize,
        level: u32,
        payload: &[u8],
    ) -> Option<()> {
        if level > LAST_LEVEL {
            return None;
        }
        let mut rest = payload;
        while !rest.is_empty() {
            let (number, wire_type) = take_key(&mut rest)?;
            match SCHEMAS[schema].field(number) {
                None => self.skip(number, wire_type, level, &mut rest)?,
                Some(field) => match field.kind {
                    Kind::Message(inner) if wire_type == LENGTH => {
                        let content = take_lengthy(&mut rest)?;
                        self.merge_inner(message, schema, field, inner, level + 1, content)?;
                    }
                    _ => merge_scalar(message, schema, field, wire_type, &mut rest)?,
                },
            }
        }
        Some(())
    }

    fn merge_inner(
        &mut self,
        message: &mut Message,
        schema: usize,
        field: &Field,
        inner: usize,
        level: u32,
        content: &[u8],
    ) -> Option<()> {
        if field.label == Label::Repeated {
            let mut element = Message::default();
            self.merge(&mut element, inner, level, content)?;
            message.push(field.number, Value::Message(element));
            return Some(());
        }
        self.merge(message.inner(schema, field), inner, level, content)
    }

    /// Takes what is after the key of a record that no schema knows.
    fn skip(&mut self, number: u32, wire_type: u8, level: u32, rest: &mut &[u8]) -> Option<()> {
        if wire_type == GROUP {
            return self.group(number, level + 1, rest);
        }
        match wire_type {
            VARINT => drop(take_varint(rest)?),
            EIGHT_BYTES => drop(take(rest, 8)?),
            LENGTH => drop(take_lengthy(rest)?),
            FOUR_BYTES => drop(take(rest, 4)?),
            _ => return None,
        }
        self.skips_on_last_level |= level == LAST_LEVEL;
        Some(())
    }

    /// Takes the content of a group, whose records are on a level, and its end.
    fn group(&mut self, number: u32, level: u32, rest: &mut &[u8]) -> Option<()> {
        if level > LAST_LEVEL {
            return None;
        }
        loop {
            let (inner, wire_type) = take_key(rest)?;
            if wire_type == GROUP_END {
                return (inner == number).then_some(());
            }
            self.skip(inner, wire_type, level, rest)?;
        }
    }
}

/// Lays a record of a field that is not a message over a message.
fn merge_scalar(
    message: &mut Message,
    schema: usize,
    field: &Field,
    wire_type: u8,
    rest: &mut &[u8],
) -> Option<()> {
    if field.is_packable() && wire_type == LENGTH {
        let mut run = take_lengthy(rest)?;
        while !run.is_empty() {
            let number = kept(field.kind, take_varint(&mut run)?);
            message.push(field.number, Value::Number(number));
        }
        return Some(());
    }
    let value = match (field.kind, wire_type) {
        (Kind::U32 | Kind::U64 | Kind::Bool | Kind::Enum, VARINT) => {
            Value::Number(kept(field.kind, take_varint(rest)?))
        }
        (Kind::Text, LENGTH) => {
            let bytes = take_lengthy(rest)?;
            std::str::from_utf8(bytes).ok()?;
            Value::Bytes(bytes.to_vec())
        }
        (Kind::Bytes, LENGTH) => Value::Bytes(take_lengthy(rest)?.to_vec()),
        _ => return None,
    };
    if field.label == Label::Repeated {
        message.push(field.number, value);
    } else {
        message.set(schema, field, value);
    }
    Some(())
}

/// An item of a stream: the code of its header, whether it requests an acknowledgement, and the payload; or an
/// unassigned code, without or with its payload.
#[derive(Clone, Debug, PartialEq, Eq)]
pub enum Item {
    Message {
        code: u16,
        acknowledge: bool,
        payload: Vec<u8>,
    },
    Unknown(u16),
    Skipped {
        code: u16,
        payload: Vec<u8>,
    },
}

/// The items of a stream of a version, and how many bytes are in none.
pub fn items(version: u32, stream: &[u8]) -> (Vec<Item>, usize) {
    let mut items = Vec::new();
    let mut rest = stream;
    while let Some((item, behind)) = next_item(version, rest) {
        items.push(item);
        rest = behind;
    }
    (items, rest.len())
}

/// The item at the front of a stream, and what is after it.
fn next_item(version: u32, stream: &[u8]) -> Option<(Item, &[u8])> {
    let header = stream.get(..HEADER)?;
    let word = u64::from_be_bytes(header.try_into().ok()?);
    let code = (word >> 48) as u16;
    let named = type_of_code(code);
    // any other code is that of a custom entry where one of its upper six bits is set
    let is_unknown = named.is_none() && code >> 10 == 0;
    if is_unknown && version < SKIPS {
        return Some((Item::Unknown(code), &stream[HEADER..]));
    }
    let end = HEADER + word as u32 as usize;
    let payload = stream.get(HEADER..end)?.to_vec();
    let item = if is_unknown {
        Item::Skipped { code, payload }
    } else {
        Item::Message {
            code,
            acknowledge: named == type_of("ProposeRunCompletion") && word & ACKNOWLEDGE != 0,
            payload,
        }
    };
    Some((item, &stream[end..]))
}
