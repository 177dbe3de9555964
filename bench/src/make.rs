//! A stream made of JSON, one object per line, as one writes it in ordinary Rust over serde_json and prost: the
//! baseline of journal_make.
//!
//! A line says its type or its code before its message, as dumps do, so that it is read once. Numbers in strings are
//! whole and have no exponent, and base64 has its padding.

use std::borrow::Cow;
use std::fmt;
use std::io::{self, BufRead, BufReader, Read as Reader, Write};
use std::marker::PhantomData;

use base64::{STANDARD, URL_SAFE};
use bytes::Bytes;
use prost::Message;
use serde::de::{
    Deserialize, DeserializeSeed, Deserializer, Error, IgnoredAny, MapAccess, Unexpected, Visitor,
};

use crate::peer::{FUTURES, PROPOSE_RUN_COMPLETION, SUSPENSION};
use crate::records::SuspensionMessageV6;
use crate::table::{name_of, with_message, TYPES};

/// How many bytes are read at a time, and written at least.
const CHUNK: usize = 65536;

/// Writes the stream that journal_make writes.
pub fn make(version: u32, input: impl Reader, output: &mut impl Write) -> io::Result<()> {
    let mut input = BufReader::with_capacity(CHUNK, input);
    let mut line = Vec::new();
    let mut frames = Vec::new();
    while input.read_until(b'\n', &mut line)? > 0 {
        if !line.iter().all(u8::is_ascii_whitespace) {
            let mut reader = serde_json::Deserializer::from_slice(&line);
            let of = Line {
                version,
                frames: &mut frames,
            };
            of.deserialize(&mut reader)?;
            reader.end()?;
        }
        line.clear();
        if frames.len() >= CHUNK {
            output.write_all(&frames)?;
            frames.clear();
        }
    }
    output.write_all(&frames)?;
    output.flush()
}

/// A line, whose bytes are appended.
struct Line<'a> {
    version: u32,
    frames: &'a mut Vec<u8>,
}

impl<'de> DeserializeSeed<'de> for Line<'_> {
    type Value = ();

    fn deserialize<D: Deserializer<'de>>(self, deserializer: D) -> Result<(), D::Error> {
        deserializer.deserialize_map(self)
    }
}

impl<'de> Visitor<'de> for Line<'_> {
    type Value = ();

    fn expecting(&self, f: &mut fmt::Formatter) -> fmt::Result {
        f.write_str("the object of an item")
    }

    fn visit_map<A: MapAccess<'de>>(self, mut line: A) -> Result<(), A::Error> {
        let start = self.frames.len();
        let mut seen = 0;
        let mut ty: Option<Key> = None;
        let mut code: Option<Number<u16>> = None;
        let mut acknowledge = false;
        let mut header: Option<Binary> = None;
        let mut is_rest = false;
        let mut has_payload = false;
        while let Some(Key(key)) = line.next_key()? {
            match &*key {
                "offset" | "length" | "malformed" => drop(line.next_value::<IgnoredAny>()?),
                "unknown" => {
                    line.next_value::<bool>()?;
                    self.frames.extend_from_slice(&[0; 8]);
                    has_payload = true;
                }
                "skipped" => drop(line.next_value::<bool>()?),
                "type" => ty = member(&mut seen, 0, &mut line)?,
                "code" => code = member(&mut seen, 1, &mut line)?,
                "requestedAck" | "ack" => {
                    acknowledge = member(&mut seen, 2, &mut line)?.unwrap_or(false)
                }
                "header" => header = member(&mut seen, 3, &mut line)?,
                "rest" => {
                    line.next_value::<IgnoredAny>()?;
                    is_rest = true;
                }
                "bytes" | "payload" => {
                    if let Some(bytes) = member::<Binary, A>(&mut seen, 4, &mut line)? {
                        if !is_rest {
                            self.frames.extend_from_slice(&[0; 8]);
                        }
                        self.frames.extend_from_slice(&bytes.0);
                        has_payload = true;
                    }
                }
                "message" => {
                    once(&mut seen, 4, "message")?;
                    let code = code_of(&ty, &code)?;
                    self.frames.extend_from_slice(&[0; 8]);
                    read_message(self.version, code, &mut line, self.frames)?;
                    has_payload = true;
                }
                _ => return Err(unknown(&key)),
            }
        }
        if is_rest {
            return Ok(());
        }
        if !has_payload {
            return Err(Error::custom("no message and no bytes"));
        }
        let code = code_of(&ty, &code)?;
        let length = (self.frames.len() - start - 8) as u64;
        let word = match header {
            Some(Binary(bytes)) if bytes.len() == 8 => {
                let mut given = [0; 8];
                given.copy_from_slice(&bytes);
                match (name_of(code), length) {
                    // a header without a payload has the length that it states
                    (None, 0) if code & 0xFC00 == 0 => u64::from_be_bytes(given),
                    _ => u64::from_be_bytes(given) & !0xFFFF_FFFF | length,
                }
            }
            Some(_) => return Err(Error::custom("a header that is not eight bytes")),
            None => {
                if acknowledge && code != PROPOSE_RUN_COMPLETION {
                    return Err(Error::custom("the type has no such flag"));
                }
                u64::from(code) << 48 | u64::from(acknowledge) << 47 | length
            }
        };
        self.frames[start..start + 8].copy_from_slice(&word.to_be_bytes());
        Ok(())
    }
}

/// The code that a line has said.
fn code_of<E: Error>(ty: &Option<Key>, code: &Option<Number<u16>>) -> Result<u16, E> {
    match (ty, code) {
        (Some(Key(ty)), Some(Number(code))) => {
            let is_its = match name_of(*code) {
                Some(name) => name == ty,
                None => **ty == format!("CustomEntry({code})"),
            };
            is_its
                .then_some(*code)
                .ok_or_else(|| Error::custom("not the name of the code's type"))
        }
        (Some(Key(ty)), None) => TYPES
            .iter()
            .find(|named| named.name == *ty)
            .map(|named| named.code)
            .ok_or_else(|| Error::custom("no named type has this name")),
        (None, Some(Number(code))) => Ok(*code),
        (None, None) => Err(Error::custom("neither a type nor a code")),
    }
}

/// Appends the payload of the message that comes next.
fn read_message<'de, A: MapAccess<'de>>(
    version: u32,
    code: u16,
    line: &mut A,
    frames: &mut Vec<u8>,
) -> Result<(), A::Error> {
    match code {
        SUSPENSION if version < FUTURES => append::<SuspensionMessageV6, A>(line, frames),
        _ => with_message!(
            code,
            Record => append::<Record, A>(line, frames),
            _ => Err(Error::custom("no messages have this code")),
        ),
    }
}

fn append<'de, M: Message + Deserialize<'de>, A: MapAccess<'de>>(
    line: &mut A,
    frames: &mut Vec<u8>,
) -> Result<(), A::Error> {
    let message: M = line.next_value()?;
    message.encode(frames).map_err(Error::custom)
}

/// The key of a member, or a name.
pub struct Key<'de>(pub Cow<'de, str>);

struct KeyVisitor;

impl<'de> Visitor<'de> for KeyVisitor {
    type Value = Key<'de>;

    fn expecting(&self, f: &mut fmt::Formatter) -> fmt::Result {
        f.write_str("a name")
    }

    fn visit_borrowed_str<E: Error>(self, text: &'de str) -> Result<Key<'de>, E> {
        Ok(Key(Cow::Borrowed(text)))
    }

    fn visit_str<E: Error>(self, text: &str) -> Result<Key<'de>, E> {
        Ok(Key(Cow::Owned(text.to_owned())))
    }
}

impl<'de> Deserialize<'de> for Key<'de> {
    fn deserialize<D: Deserializer<'de>>(deserializer: D) -> Result<Self, D::Error> {
        deserializer.deserialize_str(KeyVisitor)
    }
}

pub fn unknown<E: Error>(key: &str) -> E {
    E::custom(format_args!("unknown member {key}"))
}

/// Fails where the field at a place of its message was there before.
fn once<E: Error>(seen: &mut u32, place: u32, name: &str) -> Result<(), E> {
    if *seen & 1 << place != 0 {
        return Err(E::custom(format_args!("repeated member {name}")));
    }
    *seen |= 1 << place;
    Ok(())
}

/// The value of the field at a place of its message, unless it is null.
pub fn member<'de, T: Deserialize<'de>, A: MapAccess<'de>>(
    seen: &mut u32,
    place: u32,
    object: &mut A,
) -> Result<Option<T>, A::Error> {
    once(seen, place, "of a message")?;
    object.next_value()
}

/// Stores a member of a oneof, which has to be the only one.
pub fn one_of<T, E: Error>(place: &mut Option<T>, value: T) -> Result<(), E> {
    if place.is_some() {
        return Err(E::custom("several members of a oneof"));
    }
    *place = Some(value);
    Ok(())
}

/// A record that is read of the members of an object.
pub trait Read<'de>: Sized {
    fn read<A: MapAccess<'de>>(object: A) -> Result<Self, A::Error>;
}

struct Record<M>(PhantomData<M>);

impl<'de, M: Read<'de>> Visitor<'de> for Record<M> {
    type Value = M;

    fn expecting(&self, f: &mut fmt::Formatter) -> fmt::Result {
        f.write_str("a message")
    }

    fn visit_map<A: MapAccess<'de>>(self, object: A) -> Result<M, A::Error> {
        M::read(object)
    }
}

pub fn read<'de, M: Read<'de>, D: Deserializer<'de>>(deserializer: D) -> Result<M, D::Error> {
    deserializer.deserialize_map(Record(PhantomData))
}

/// A number, as a number or as a string.
pub struct Number<T>(pub T);

struct NumberVisitor<T>(PhantomData<T>);

impl<T: TryFrom<u64>> Visitor<'_> for NumberVisitor<T> {
    type Value = Number<T>;

    fn expecting(&self, f: &mut fmt::Formatter) -> fmt::Result {
        f.write_str("a whole number in its range")
    }

    fn visit_u64<E: Error>(self, number: u64) -> Result<Number<T>, E> {
        let out_of_range = |_| E::invalid_value(Unexpected::Unsigned(number), &self);
        T::try_from(number).map(Number).map_err(out_of_range)
    }

    fn visit_f64<E: Error>(self, number: f64) -> Result<Number<T>, E> {
        if number.fract() != 0.0 || number < 0.0 || number >= u64::MAX as f64 {
            return Err(E::invalid_value(Unexpected::Float(number), &self));
        }
        self.visit_u64(number as u64)
    }

    fn visit_str<E: Error>(self, text: &str) -> Result<Number<T>, E> {
        match text.parse() {
            Ok(number) => self.visit_u64(number),
            Err(_) => Err(E::invalid_value(Unexpected::Str(text), &self)),
        }
    }
}

impl<'de, T: TryFrom<u64>> Deserialize<'de> for Number<T> {
    fn deserialize<D: Deserializer<'de>>(deserializer: D) -> Result<Self, D::Error> {
        deserializer.deserialize_any(NumberVisitor(PhantomData))
    }
}

/// An enum with the names of its values.
pub trait Named {
    const NAMES: &'static [(&'static str, i32)];
}

/// A value of an enum, by its name or its number.
pub struct Enumeration<T> {
    pub number: i32,
    of: PhantomData<T>,
}

struct EnumerationVisitor<T>(PhantomData<T>);

impl<T: Named> Visitor<'_> for EnumerationVisitor<T> {
    type Value = Enumeration<T>;

    fn expecting(&self, f: &mut fmt::Formatter) -> fmt::Result {
        f.write_str("a value of an enum")
    }

    fn visit_i64<E: Error>(self, number: i64) -> Result<Enumeration<T>, E> {
        let out_of_range = |_| E::invalid_value(Unexpected::Signed(number), &self);
        Ok(Enumeration {
            number: i32::try_from(number).map_err(out_of_range)?,
            of: PhantomData,
        })
    }

    fn visit_u64<E: Error>(self, number: u64) -> Result<Enumeration<T>, E> {
        self.visit_i64(i64::try_from(number).unwrap_or(i64::MAX))
    }

    fn visit_str<E: Error>(self, text: &str) -> Result<Enumeration<T>, E> {
        let named = T::NAMES.iter().find(|(name, _)| *name == text);
        let number = named.map(|(_, number)| i64::from(*number));
        match number.or_else(|| text.parse().ok()) {
            Some(number) => self.visit_i64(number),
            None => Err(E::invalid_value(Unexpected::Str(text), &self)),
        }
    }
}

impl<'de, T: Named> Deserialize<'de> for Enumeration<T> {
    fn deserialize<D: Deserializer<'de>>(deserializer: D) -> Result<Self, D::Error> {
        deserializer.deserialize_any(EnumerationVisitor(PhantomData))
    }
}

/// Bytes, which JSON has in base64, or as the text of an object with one member.
pub struct Binary(pub Bytes);

struct BinaryVisitor;

impl<'de> Visitor<'de> for BinaryVisitor {
    type Value = Binary;

    fn expecting(&self, f: &mut fmt::Formatter) -> fmt::Result {
        f.write_str("base64, or an object with a text")
    }

    fn visit_str<E: Error>(self, text: &str) -> Result<Binary, E> {
        let bytes = base64::decode_config(text, STANDARD)
            .or_else(|_| base64::decode_config(text, URL_SAFE))
            .map_err(E::custom)?;
        Ok(Binary(bytes.into()))
    }

    fn visit_map<A: MapAccess<'de>>(self, mut object: A) -> Result<Binary, A::Error> {
        let member: Option<(Key, String)> = object.next_entry()?;
        match (member, object.next_key::<Key>()?) {
            (Some((Key(key), text)), None) if key == "text" => Ok(Binary(text.into_bytes().into())),
            _ => Err(Error::custom("not the one member `text`")),
        }
    }
}

impl<'de> Deserialize<'de> for Binary {
    fn deserialize<D: Deserializer<'de>>(deserializer: D) -> Result<Self, D::Error> {
        deserializer.deserialize_any(BinaryVisitor)
    }
}
