//! JSON texts, read as payloads.

use std::error;
use std::fmt;

use crate::calls::text;
use crate::error::{narrowed, Argument, Error, Escaped};
use crate::ffi::{self, About, READ};

/// Why a JSON text is rejected, and where.
#[derive(Clone, Debug, PartialEq, Eq, Hash)]
#[non_exhaustive]
pub struct JsonError {
    /// Why.
    pub reason: JsonReason,
    /// Where the text stops being JSON, in bytes; `None` if it is JSON.
    pub offset: Option<usize>,
    /// What leads to the rejected value, as `headers[2].key`; empty if the text is not JSON. Names of members are as
    /// they are in the text. The error prints them with their control characters escaped.
    pub path: String,
    /// How many bytes the text has.
    pub length: usize,
}

/// The reasons for which a JSON text is rejected.
#[derive(Clone, Copy, Debug, PartialEq, Eq, Hash)]
#[non_exhaustive]
pub enum JsonReason {
    /// It is not JSON, or not UTF-8, or nested more than one thousand levels deep.
    NotJson,
    /// The name of a member is not that of a field of its message.
    UnknownMember,
    /// Two members have a name of the same field.
    RepeatedMember,
    /// Two members of one oneof are present.
    SeveralMembers,
    /// A value is of another kind than its field.
    WrongKind,
    /// A number is not whole, or not in the range of its field.
    OutOfRange,
    /// A string for bytes is not base64.
    NotBase64,
    /// A message is nested more than one hundred levels deep.
    TooDeep,
}

/// The reasons, each at its number, after the number of a text that is accepted.
const REASONS: [JsonReason; 8] = [
    JsonReason::NotJson,
    JsonReason::UnknownMember,
    JsonReason::RepeatedMember,
    JsonReason::SeveralMembers,
    JsonReason::WrongKind,
    JsonReason::OutOfRange,
    JsonReason::NotBase64,
    JsonReason::TooDeep,
];

/// The canonical payload of what a JSON text means, in protobuf's own form, for the schema that has the number.
///
/// [`Error::Json`] if the text means no value of the schema, [`Error::TooLong`], [`Error::OutOfMemory`];
/// [`Error::Unknown`] if no schema has the number.
///
/// ```
/// use pendratsoa::{from_json, Error, JsonReason, Schema};
///
/// let value = Schema::Value.number();
/// assert_eq!(from_json(value, r#"{"content": "eA=="}"#)?, [0x0A, 1, b'x']);
/// match from_json(value, r#"{"content": 1}"#) {
///     Err(Error::Json(error)) => {
///         assert_eq!((error.reason, error.path.as_str()), (JsonReason::WrongKind, "content"));
///     }
///     other => panic!("{other:?}"),
/// }
/// # Ok::<(), pendratsoa::Error>(())
/// ```
pub fn from_json(schema: u32, json: impl AsRef<[u8]>) -> Result<Vec<u8>, Error> {
    let json = json.as_ref();
    let mut numbers = [0; 2];
    let bytes = ffi::payload_of_json(schema, json, &mut numbers).map_err(|refusal| {
        Error::of(refusal, |about| match about {
            About::Schema => Argument::Schema(schema),
            _ => Argument::Json(json.len()),
        })
    })?;
    payload_of(numbers, bytes, json.len())
}

/// The payload, or the error, of these numbers and bytes, for a text of a length.
fn payload_of(numbers: [u64; 2], bytes: Vec<u8>, length: usize) -> Result<Vec<u8>, Error> {
    let [kind, offset] = numbers;
    if kind == READ {
        return Ok(bytes);
    }
    let unexpected = || Error::unexpected("the kind of JSON text", kind);
    let place = narrowed::<usize>("the kind of JSON text", kind)?;
    let reason = *REASONS.get(place - 1).ok_or_else(unexpected)?;
    let offset = match reason {
        JsonReason::NotJson => Some(narrowed("the offset", offset)?),
        _ => None,
    };
    let path = text(bytes)?;
    Err(Error::Json(JsonError {
        reason,
        offset,
        path,
        length,
    }))
}

impl fmt::Display for JsonError {
    fn fmt(&self, f: &mut fmt::Formatter<'_>) -> fmt::Result {
        if !self.path.is_empty() {
            write!(f, "{}: ", Escaped(&self.path))?;
        }
        self.reason.fmt(f)?;
        match self.offset {
            Some(offset) => write!(f, " at byte {offset}"),
            None => Ok(()),
        }
    }
}

impl error::Error for JsonError {}

impl fmt::Display for JsonReason {
    fn fmt(&self, f: &mut fmt::Formatter<'_>) -> fmt::Result {
        f.write_str(match self {
            JsonReason::NotJson => "not JSON",
            JsonReason::UnknownMember => "unknown member",
            JsonReason::RepeatedMember => "repeated member",
            JsonReason::SeveralMembers => "several members of a oneof",
            JsonReason::WrongKind => "wrong kind of value",
            JsonReason::OutOfRange => "out of range",
            JsonReason::NotBase64 => "not base64",
            JsonReason::TooDeep => "too deep",
        })
    }
}

#[cfg(test)]
mod tests {
    use super::*;

    #[test]
    fn each_kind_of_text() {
        assert_eq!(payload_of([0, 0], vec![1], 2), Ok(vec![1]));
        for (number, offset, path, expected) in [
            (1, 7, "", "not JSON at byte 7"),
            (2, 0, "a", "a: unknown member"),
            (3, 0, "a", "a: repeated member"),
            (4, 0, "a", "a: several members of a oneof"),
            (5, 0, "", "wrong kind of value"),
            (6, 0, "a[1].b", "a[1].b: out of range"),
            (7, 0, "a", "a: not base64"),
            (8, 0, "a", "a: too deep"),
            (2, 0, "a\u{1b}", "a\\u001b: unknown member"),
        ] {
            match payload_of([number, offset], path.as_bytes().to_vec(), 9) {
                Err(Error::Json(error)) => {
                    assert_eq!((error.path.as_str(), error.length), (path, 9));
                    let error: Box<dyn error::Error> = error.into();
                    assert_eq!(error.to_string(), expected);
                }
                other => panic!("{other:?}"),
            }
        }
    }

    #[test]
    fn kinds_of_a_later_library_are_errors() {
        for number in [9, u64::MAX] {
            let text = format!("the kind of JSON text {number}");
            assert_eq!(
                payload_of([number, 0], Vec::new(), 0),
                Err(Error::Unexpected(text))
            );
        }
    }
}
