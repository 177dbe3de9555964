//! Payloads at other field numbers, by the descriptor set of another description of the protocol.

use std::error;
use std::fmt;
use std::sync::Arc;

use crate::calls::{frame, is_well_formed, of_payload, schema, text};
use crate::error::{Argument, Error, Escaped, Quoted};
use crate::ffi::{
    self, Refusal, Renumbering, LIST_LISTED, LIST_NO_RENAME, LIST_NO_SET, NUMBERING_READING,
    NUMBERING_WRITING,
};
use crate::item::{copied, next_item, Item, Message, Next};
use crate::version::Version;

/// The field numbers of a runtime whose .proto has the messages of the protocol with other numbers.
///
/// It is made of the descriptor set that protoc or buf writes of that .proto, and finds messages and fields by their
/// names. By it a payload is read, from their numbers to those of the protocol, and written back. All other calls take
/// payloads at the numbers of the protocol. A field that only the set has is left out of what is read, and one that
/// only the protocol has is left out of what is written.
///
/// It prints the list of fields, one per line: which are the same, renumbered, or only on one side. A clone shares the
/// tables.
///
/// ```
/// use pendratsoa::{Numbering, Schema};
///
/// // the set of a file with `message Value { bytes content = 14; }`
/// let set = b"\n+\n\x07a.proto\"\x18\n\x05Value\x12\x0f\n\x07content\x18\x0e \x01(\x0cb\x06proto3";
/// let numbering = Numbering::new(set, &[])?;
/// let value = Schema::Value.number();
/// assert_eq!(numbering.read_payload(value, &[0x72, 1, b'x'])?, [0x0A, 1, b'x']);
/// assert_eq!(numbering.write_payload(value, &[0x0A, 1, b'x'])?, [0x72, 1, b'x']);
/// # Ok::<(), pendratsoa::Error>(())
/// ```
#[derive(Clone)]
pub struct Numbering {
    tables: Arc<Tables>,
}

/// The tables of a numbering, one for each direction, its list, and what they are made of.
struct Tables {
    reading: Vec<Renumbering>,
    writing: Vec<Renumbering>,
    list: String,
    set: Vec<u8>,
    renames: Vec<u8>,
}

/// Why no numbering comes of a descriptor set and renames.
#[derive(Clone, Debug, PartialEq, Eq, Hash)]
#[non_exhaustive]
pub struct NumberingError {
    /// Which of the two has a fault.
    pub reason: NumberingReason,
    /// The fault, as `a.proto: b.Message.field: number of a later field`.
    pub text: String,
}

/// Which argument of a numbering has a fault.
#[derive(Clone, Copy, Debug, PartialEq, Eq, Hash)]
#[non_exhaustive]
pub enum NumberingReason {
    /// The descriptor set.
    NoSet,
    /// One of the renames.
    NoRename,
}

impl Numbering {
    /// The numbering of a descriptor set. Of each rename the first name is that of a message in the set, and the second
    /// one its name in the protocol.
    ///
    /// [`Error::Numbering`] if the set or a rename has a fault, [`Error::OutOfMemory`].
    pub fn new(set: &[u8], renames: &[(&str, &str)]) -> Result<Numbering, Error> {
        // the library takes a rename per line
        let mut names = renames.iter().flat_map(|(theirs, ours)| [theirs, ours]);
        if let Some(name) = names.find(|name| name.contains(&['=', '\n'][..])) {
            return Err(Error::Numbering(NumberingError {
                reason: NumberingReason::NoRename,
                text: format!("{} is not the name of a message", Quoted(name)),
            }));
        }
        let lines: Vec<String> = renames
            .iter()
            .map(|(theirs, ours)| format!("{theirs}={ours}"))
            .collect();
        let renames = lines.join("\n").into_bytes();
        let refused = |refusal| Error::of(refusal, |_| Argument::Set(set.len()));
        let mut kind = [0];
        let written = ffi::numbering_text(set, &renames, &mut kind).map_err(refused)?;
        let list = list_of(kind, written)?;
        let reading = ffi::renumberings(NUMBERING_READING, set, &renames).map_err(refused)?;
        let writing = ffi::renumberings(NUMBERING_WRITING, set, &renames).map_err(refused)?;
        let tables = Arc::new(Tables {
            reading,
            writing,
            list,
            set: copied(set)?,
            renames,
        });
        Ok(Numbering { tables })
    }

    /// A payload of the schema that has the number, from the numbers of the set to those of the protocol.
    ///
    /// [`Error::Malformed`] if it is not a list of fields, or a message in it is not one. [`Error::TooLong`],
    /// [`Error::OutOfMemory`]; [`Error::Unknown`] if no schema has the number.
    pub fn read_payload(&self, schema: u32, payload: &[u8]) -> Result<Vec<u8>, Error> {
        payload_by(&self.tables.reading, schema, payload)
    }

    /// A payload of the schema that has the number, from the numbers of the protocol to those of the set. A canonical
    /// one becomes a canonical one. The errors are those of [`Numbering::read_payload`].
    pub fn write_payload(&self, schema: u32, payload: &[u8]) -> Result<Vec<u8>, Error> {
        payload_by(&self.tables.writing, schema, payload)
    }

    /// A stream of a version, from the numbers of the set to those of the protocol. A custom entry, and what is of no
    /// type, is copied as it is, and so are trailing bytes.
    ///
    /// The errors are those of [`Numbering::read_payload`], with the type and the offset of the message.
    pub fn read_stream(&self, version: Version, stream: &[u8]) -> Result<Vec<u8>, Error> {
        stream_by(&self.tables.reading, version, stream)
    }

    /// A stream of a version, from the numbers of the protocol to those of the set, as [`Numbering::read_stream`]. A
    /// frame is a stream of one message, so it writes that of a message or of a record too.
    ///
    /// ```
    /// use pendratsoa::messages::{MessageRecord, Value};
    /// use pendratsoa::messages::SetStateCommandMessage;
    /// use pendratsoa::{Numbering, Version};
    ///
    /// # fn example(numbering: &Numbering) -> Result<(), pendratsoa::Error> {
    /// let command = SetStateCommandMessage {
    ///     key: b"a"[..].into(),
    ///     value: Some(Value { content: b"1"[..].into() }),
    ///     ..Default::default()
    /// };
    /// let frame = numbering.write_stream(Version::V8, &command.frame(Version::V8)?)?;
    /// # Ok(())
    /// # }
    /// ```
    pub fn write_stream(&self, version: Version, stream: &[u8]) -> Result<Vec<u8>, Error> {
        stream_by(&self.tables.writing, version, stream)
    }

    /// The frame that [`frame`](crate::frame()) returns of a payload at the numbers of the protocol, at those of the
    /// set. The errors are those of that function and of [`Numbering::write_payload`].
    pub fn frame(&self, version: Version, code: u16, payload: &[u8]) -> Result<Vec<u8>, Error> {
        self.write_stream(version, &frame(version, code, payload)?)
    }

    /// Appends the frame that [`Numbering::frame`] returns to a vector, and returns its length. An error leaves the
    /// vector as it was.
    pub fn append_frame(
        &self,
        version: Version,
        code: u16,
        payload: &[u8],
        out: &mut Vec<u8>,
    ) -> Result<usize, Error> {
        let frame = self.frame(version, code, payload)?;
        out.try_reserve(frame.len())
            .map_err(|_| Error::OutOfMemory)?;
        out.extend_from_slice(&frame);
        Ok(frame.len())
    }

    /// The JSON of a stream of a version at the numbers of the set, as `journal dump --schema` prints it. It has one
    /// item per line, with all fields that the set has, and a last line of the trailing bytes.
    ///
    /// [`Error::TooLong`], [`Error::OutOfMemory`].
    ///
    /// ```
    /// use pendratsoa::{Numbering, Version};
    ///
    /// // the set of a file with `message SetStateCommandMessage { bytes key = 3; }`
    /// let set = b"\n=\n\x07a.proto\"*\n\x16SetStateCommandMessage\
    ///     \x12\x10\n\x03key\x18\x03 \x01(\x0cR\x03keyb\x06proto3";
    /// let stream = b"\x04\x03\0\0\0\0\0\x03\x1a\x01a";
    /// let lines = Numbering::new(set, &[])?.dump(Version::V8, stream)?;
    /// assert!(lines.contains(r#""type":"SetStateCommand","#) && lines.contains(r#""message":{"key":"YQ=="}"#));
    /// # Ok::<(), pendratsoa::Error>(())
    /// ```
    pub fn dump(&self, version: Version, stream: &[u8]) -> Result<String, Error> {
        let tables = &self.tables;
        let lines = ffi::numbering_dump(version.into(), &tables.set, &tables.renames, stream)
            .map_err(|refusal| of_stream(refusal, stream))?;
        text(lines)
    }

    /// The payload of a message that was read by it, or `None` if the message has no schema: it is a custom entry then.
    pub(crate) fn read(&self, message: &Message<'_>) -> Result<Option<Vec<u8>>, Error> {
        let mut payload = Vec::new();
        let has_schema = append_payload(&self.tables.reading, message, &mut payload)?;
        Ok(has_schema.then_some(payload))
    }
}

/// The list that the library wrote, by what it is.
fn list_of(kind: [u64; 1], written: Vec<u8>) -> Result<String, Error> {
    let [kind] = kind;
    let reason = match kind {
        LIST_LISTED => return text(written),
        LIST_NO_SET => NumberingReason::NoSet,
        LIST_NO_RENAME => NumberingReason::NoRename,
        kind => return Err(Error::unexpected("the kind of numbering", kind)),
    };
    let text = text(written)?;
    Err(Error::Numbering(NumberingError { reason, text }))
}

/// A payload of a schema by a table.
fn payload_by(table: &[Renumbering], schema: u32, payload: &[u8]) -> Result<Vec<u8>, Error> {
    // a table has no entry of a schema that there is not
    is_well_formed(schema, &[])?;
    let mut out = Vec::new();
    ffi::renumber(schema, table, payload, &mut out)
        .map_err(|refusal| of_payload(refusal, schema, payload))?;
    Ok(out)
}

/// A stream of a version by a table.
fn stream_by(table: &[Renumbering], version: Version, stream: &[u8]) -> Result<Vec<u8>, Error> {
    ffi::renumber_stream(version.into(), table, stream).map_err(|refusal| match refusal {
        Refusal::Malformed(_) => first_malformed(table, version, stream),
        refusal => of_stream(refusal, stream),
    })
}

/// The error of a call that takes a stream.
fn of_stream(refusal: Refusal, stream: &[u8]) -> Error {
    Error::of(refusal, |_| Argument::Stream(stream.len()))
}

/// The error of the first message of a stream that cannot be written by a table.
fn first_malformed(table: &[Renumbering], version: Version, stream: &[u8]) -> Error {
    let (mut begin, mut payload) = (0, Vec::new());
    while let Ok(Next::Item { item, size }) = next_item(version, &stream[begin..]) {
        if let Item::Message(message) = item.with_offset(begin as u64) {
            payload.clear();
            if let Err(error) = append_payload(table, &message, &mut payload) {
                return error;
            }
        }
        begin += size;
    }
    Error::Malformed(Argument::Stream(stream.len()))
}

/// Appends the payload of a message by a table, and returns whether the message has a schema: a custom entry has none.
fn append_payload(
    table: &[Renumbering],
    message: &Message<'_>,
    out: &mut Vec<u8>,
) -> Result<bool, Error> {
    let schema = match schema(message.version(), message.code()) {
        Err(Error::Unknown(_)) => return Ok(false),
        schema => schema?,
    };
    ffi::renumber(schema, table, message.payload(), out).map_err(|refusal| {
        of_payload(refusal, schema, message.payload()).of_message(message.code(), message.offset())
    })?;
    Ok(true)
}

/// The list of fields, one per line.
impl fmt::Display for Numbering {
    fn fmt(&self, f: &mut fmt::Formatter<'_>) -> fmt::Result {
        f.write_str(&self.tables.list)
    }
}

impl fmt::Debug for Numbering {
    fn fmt(&self, f: &mut fmt::Formatter<'_>) -> fmt::Result {
        f.debug_struct("Numbering").finish_non_exhaustive()
    }
}

impl fmt::Display for NumberingError {
    fn fmt(&self, f: &mut fmt::Formatter<'_>) -> fmt::Result {
        write!(f, "{}: {}", self.reason, Escaped(&self.text))
    }
}

/// The argument that has the fault.
impl fmt::Display for NumberingReason {
    fn fmt(&self, f: &mut fmt::Formatter<'_>) -> fmt::Result {
        f.write_str(match self {
            NumberingReason::NoSet => "descriptor set",
            NumberingReason::NoRename => "renames",
        })
    }
}

impl error::Error for NumberingError {}

/// The payloads that a loop over items made by a numbering. Each stays where it is until the next loop: the next one is
/// in a vector within that of the one before.
#[derive(Default)]
pub(crate) struct Kept(Vec<Payload>);

/// A payload that is kept, as it was received too, and the place of the next one.
#[derive(Debug)]
pub(crate) struct Payload {
    bytes: Vec<u8>,
    received: Vec<u8>,
    next: Vec<Payload>,
}

impl Kept {
    /// The place of the first payload, after the others are dropped.
    #[inline]
    pub(crate) fn emptied(&mut self) -> &mut Vec<Payload> {
        // one by one, since those within a payload would be dropped within a call
        while let Some(payload) = self.0.pop() {
            self.0 = payload.next;
        }
        &mut self.0
    }
}

impl Drop for Kept {
    fn drop(&mut self) {
        self.emptied();
    }
}

/// What borrows the payloads does not outlive the decoder, and a clone of it begins its own loop.
impl Clone for Kept {
    fn clone(&self) -> Kept {
        Kept::default()
    }
}

impl fmt::Debug for Kept {
    fn fmt(&self, f: &mut fmt::Formatter<'_>) -> fmt::Result {
        f.write_str("..")
    }
}

/// A payload that is kept, as it was received too, with the place of the next one.
pub(crate) struct KeptPayload<'a> {
    pub payload: &'a [u8],
    pub received: &'a Vec<u8>,
    pub next: &'a mut Vec<Payload>,
}

/// Keeps a payload at a place, and what was received as it.
pub(crate) fn keep(
    place: &mut Vec<Payload>,
    payload: Vec<u8>,
    received: Vec<u8>,
) -> Result<KeptPayload<'_>, Error> {
    place.try_reserve_exact(1).map_err(|_| Error::OutOfMemory)?;
    place.push(Payload {
        bytes: payload,
        received,
        next: Vec::new(),
    });
    let kept = place.last_mut().ok_or(Error::OutOfMemory)?;
    Ok(KeptPayload {
        payload: &kept.bytes,
        received: &kept.received,
        next: &mut kept.next,
    })
}

#[cfg(test)]
mod tests {
    use super::*;

    #[test]
    fn each_kind_of_text() {
        assert_eq!(list_of([0], b"list".to_vec()), Ok("list".to_owned()));
        for (kind, reason, expected) in [
            (1, NumberingReason::NoSet, "descriptor set: why"),
            (2, NumberingReason::NoRename, "renames: why"),
        ] {
            match list_of([kind], b"why".to_vec()) {
                Err(Error::Numbering(error)) => {
                    assert_eq!((error.reason, error.text.as_str()), (reason, "why"));
                    assert_eq!(error.to_string(), expected);
                }
                other => panic!("{other:?}"),
            }
        }
        let text = "the kind of numbering 3".to_owned();
        assert_eq!(list_of([3], Vec::new()), Err(Error::Unexpected(text)));
    }

    #[test]
    fn payloads_are_kept_one_after_another() {
        let mut kept = Kept::default();
        for count in [1_u32, 3, 1_000_000] {
            let mut place = kept.emptied();
            let mut found = Vec::new();
            for index in 0..count {
                let bytes = index.to_be_bytes().to_vec();
                let kept = keep(place, bytes.clone(), bytes).unwrap();
                assert_eq!(kept.payload, kept.received);
                found.push(kept.payload);
                place = kept.next;
            }
            for (index, bytes) in (0..count).zip(found) {
                assert_eq!(bytes, index.to_be_bytes());
            }
        }
    }
}
