//! Records and the table of fields: a record is read from the fields that the library finds in a payload, and written
//! as those of which the library makes one. Nothing is known here of how a payload is encoded.

use std::collections::HashMap;
use std::error;
use std::fmt;

use crate::calls::{canonical, frame, header, of_payload, schema};
use crate::error::Error;
use crate::ffi::{Entry, Refusal, Room, Table, Writer, LEVELS, WRITTEN};
use crate::kinds::FieldReason;
use crate::message_type::MessageType;
use crate::messages::listed;
use crate::schema::Schema;
use crate::version::Version;

/// The name of a record, and its fields: their numbers, their names, whether they are repeated, and the schema of what
/// they hold. It has no public name.
#[derive(Debug)]
pub struct Listed {
    pub(crate) name: &'static str,
    pub(crate) fields: &'static [(u64, &'static str, bool, Option<usize>)],
}

/// A record of the journal protocol, as a struct of [`messages`](crate::messages). The trait is sealed: only this crate
/// implements it.
pub trait Record<'a>: Fields<'a> {
    /// The schema of its payloads.
    const SCHEMA: Schema;

    /// The record that a payload means, in any encoding. What it holds is borrowed from a canonical payload, and copied
    /// out of another one.
    ///
    /// [`Error::Malformed`], [`Error::TooLong`], [`Error::OutOfMemory`].
    fn decode(payload: &'a [u8]) -> Result<Self, Error> {
        let schema = Self::SCHEMA.number();
        let mut room = Room::new();
        match room.table(schema, payload) {
            Ok(table) => read(table),
            Err(Refusal::NotCanonical) => {
                let canonical = canonical(schema, payload)?;
                let table = room
                    .copied(schema, &canonical)
                    .map_err(|refusal| of_payload(refusal, schema, payload))?;
                read(table)
            }
            Err(refusal) => Err(of_payload(refusal, schema, payload)),
        }
    }

    /// The canonical payload of the record.
    ///
    /// [`Error::Field`] names a field that cannot be encoded; [`Error::TooLong`], [`Error::OutOfMemory`].
    fn encode(&self) -> Result<Vec<u8>, Error> {
        let mut out = Vec::new();
        self.append_to(&mut out)?;
        Ok(out)
    }

    /// Appends the canonical payload of the record, and returns its length. The errors are those of [`Record::encode`],
    /// and leave the vector as it was.
    fn append_to(&self, out: &mut Vec<u8>) -> Result<usize, Error> {
        match self.append_struct(out, 0) {
            Some(length) => Ok(length),
            None => append_table(self, out),
        }
    }
}

/// The record of a message.
pub trait MessageRecord<'a>: Record<'a> {
    /// The type of the message.
    const TYPE: MessageType;
    /// The version before which it is the record of its type, if the type has another one since.
    const BEFORE_VERSION: Option<Version> = None;
    /// Whether it is the record of its type at each version.
    #[doc(hidden)]
    const IS_ALONE: bool = true;

    /// The frame of the message at a version: a header, and the canonical payload after it.
    ///
    /// The errors are those of [`Record::encode`], and [`Error::NoFrame`] if the type has another record at the
    /// version.
    ///
    /// ```
    /// use pendratsoa::messages::{MessageRecord, SleepCommandMessage};
    /// use pendratsoa::Version;
    ///
    /// let sleep = SleepCommandMessage { wake_up_time: 5, ..Default::default() };
    /// assert_eq!(sleep.frame(Version::V8)?.len(), 10);
    /// # Ok::<(), pendratsoa::Error>(())
    /// ```
    fn frame(&self, version: Version) -> Result<Vec<u8>, Error> {
        let code = Self::TYPE.code();
        let mut out = Vec::new();
        let length = match self.append_struct(&mut out, HEADER) {
            Some(length) => length,
            None => {
                out.clear();
                out.try_reserve_exact(HEADER)
                    .map_err(|_| Error::OutOfMemory)?;
                out.resize(HEADER, 0);
                append_table(self, &mut out)?
            }
        };
        if Self::IS_ALONE || schema(version, code)? == Self::SCHEMA.number() {
            out[..HEADER].copy_from_slice(&header(version, code, length)?);
            return Ok(out);
        }
        match Self::BEFORE_VERSION {
            // the record that the type has at the version is written of what it has of this one
            None => frame(version, code, &out[HEADER..]),
            Some(_) => Err(Error::NoFrame(version, Self::SCHEMA)),
        }
    }
}

/// How many bytes a header has.
pub(crate) const HEADER: usize = 8;

/// What the generated code has of each record. It has no public name, which seals [`Record`].
pub trait Fields<'a>: Default {
    #[doc(hidden)]
    const LISTED: &'static Listed;

    #[doc(hidden)]
    fn read(&mut self, table: &mut Table<'a, '_>, level: u64);

    #[doc(hidden)]
    fn write(&self, writer: &mut Writer, level: u64);

    /// Appends the payload of the struct that the library takes, after so many zeros, and returns its length; `None` if
    /// it takes none for such a record, rejects it, or there is no memory.
    #[doc(hidden)]
    fn append_struct(&self, _out: &mut Vec<u8>, _before: usize) -> Option<usize> {
        None
    }

    #[doc(hidden)]
    #[cold]
    fn unknown(number: u64) -> Error {
        Error::Unexpected(format!("the field {number} of {}", Self::LISTED.name))
    }
}

/// Reads the record of a table.
#[inline]
fn read<'a, R: Record<'a>>(mut table: Table<'a, '_>) -> Result<R, Error> {
    let mut found = R::default();
    found.read(&mut table, 0);
    match table.into_error() {
        None => Ok(found),
        Some(error) => Err(error),
    }
}

impl Writer {
    /// Appends the entries of a record that is a field. There are none of one that is too deep, whose entry is
    /// rejected: so no depth of a record is too much for the stack.
    #[inline]
    pub(crate) fn record<'a, R: Record<'a>>(&mut self, level: u64, number: u64, record: &R) {
        self.message(level, number, R::SCHEMA.number());
        if level < LEVELS {
            record.write(self, level + 1);
        }
    }
}

/// Appends the canonical payload of a record, by a table, with why there is no payload.
#[cold]
fn append_table<'a, R: Record<'a>>(record: &R, out: &mut Vec<u8>) -> Result<usize, Error> {
    let mut writer = Writer::default();
    record.write(&mut writer, 0);
    let schema = R::SCHEMA.number();
    match writer.payload(schema, out) {
        Ok((length, [WRITTEN, _])) => Ok(length),
        Ok((_, [number, index])) => Err(rejected(writer.entries(), schema, number, index)),
        Err(refusal) => Err(of_payload(refusal, schema, writer.bytes_beside())),
    }
}

/// The error that an entry may not come.
fn rejected(entries: &[Entry], schema: u32, number: u64, index: u64) -> Error {
    let (reason, index) = match (FieldReason::from_number(number), usize::try_from(index)) {
        (Some(reason), Ok(index)) if index < entries.len() => (reason, index),
        _ => return Error::unexpected("the kind of table", number),
    };
    let path = path(schema as usize, &entries[..=index]);
    Error::Field(FieldError { path, reason })
}

/// What leads to the last of these entries, as `headers[2].key`.
// a level is at most one hundred
#[allow(clippy::cast_possible_truncation)]
fn path(schema: usize, entries: &[Entry]) -> String {
    let mut levels: Vec<(usize, HashMap<u64, usize>)> = vec![(schema, HashMap::new())];
    let mut names: Vec<String> = Vec::new();
    for &[level, number, ..] in entries {
        let level = level as usize;
        levels.truncate(level + 1);
        names.truncate(level);
        let (schema, seen) = &mut levels[level];
        let fields = listed(*schema).fields;
        let (_, name, is_repeated, holds) = fields
            .iter()
            .find(|field| field.0 == number)
            .unwrap_or(&fields[0]);
        let count = seen.entry(number).or_insert(0);
        names.push(if *is_repeated {
            format!("{name}[{count}]")
        } else {
            (*name).to_owned()
        });
        *count += 1;
        if let Some(holds) = holds {
            levels.push((*holds, HashMap::new()));
        }
    }
    names.join(".")
}

/// Why a field of a record cannot be encoded, and which.
#[derive(Clone, Debug, PartialEq, Eq, Hash)]
#[non_exhaustive]
pub struct FieldError {
    /// What leads to the field, as `headers[2].key`.
    pub path: String,
    /// Why it cannot be encoded.
    pub reason: FieldReason,
}

impl fmt::Display for FieldError {
    fn fmt(&self, f: &mut fmt::Formatter<'_>) -> fmt::Result {
        write!(f, "{}: {}", self.path, self.reason)
    }
}

impl fmt::Display for FieldReason {
    fn fmt(&self, f: &mut fmt::Formatter<'_>) -> fmt::Result {
        f.write_str(self.text())
    }
}

impl error::Error for FieldError {}
