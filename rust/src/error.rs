//! Why a call fails.

use std::error;
use std::fmt::{self, Write};
use std::io::{self, ErrorKind};

use crate::calls::type_name;
use crate::ffi::{About, Refusal};
use crate::fields::FieldError;
use crate::numbering::NumberingError;
use crate::reading::JsonError;
use crate::schema::Schema;
use crate::version::Version;

/// Why a call fails, and which of its arguments is the reason.
#[derive(Clone, Debug, PartialEq, Eq, Hash)]
#[non_exhaustive]
pub enum Error {
    /// A payload is not well-formed for its schema.
    Malformed(Argument),
    /// An allocation failed. The call can be repeated.
    OutOfMemory,
    /// A payload has, or would have, more than 4,294,967,295 bytes.
    TooLong(Argument),
    /// The payload of a message has more bytes than the limit of the decoder.
    MessageTooLong(MessageTooLong),
    /// A version, a schema, a code or a name does not exist, or is not of the kind that the call is for. An unknown
    /// version is an error only where a [`Version`] is made.
    Unknown(Argument),
    /// There is no frame of this record at this version, where the type has another: a suspension as it is before
    /// version 7 has none from 7 on.
    NoFrame(Version, Schema),
    /// A notification has no id.
    NoId(Argument),
    /// A notification has an id, and no result.
    NoResult(Argument),
    /// A JSON text means no value of its schema.
    Json(JsonError),
    /// A field of a record cannot be encoded.
    Field(FieldError),
    /// No numbering comes of a descriptor set.
    Numbering(NumberingError),
    /// A stream ended within an item.
    Incomplete(Incomplete),
    /// The library returned this, which the crate does not know, as a later version of the library may.
    Unexpected(String),
}

/// An argument of a call, with its value or its length.
#[derive(Clone, Debug, PartialEq, Eq, Hash)]
#[non_exhaustive]
pub enum Argument {
    /// The number of a version, or another text in its place.
    Version(String),
    /// The code of a type.
    Code(u16),
    /// The number of a schema.
    Schema(u32),
    /// The name of a type.
    Name(String),
    /// The length of a payload for which a header is written.
    PayloadLength(usize),
    /// The one payload of a call, of this length in bytes.
    Payload(usize),
    /// The payload of a message.
    MessagePayload(MessagePayload),
    /// A JSON text, of this length in bytes.
    Json(usize),
    /// The first payload of a call that has two, of this length in bytes.
    First(usize),
    /// The second payload of a call that has two, of this length in bytes.
    Second(usize),
    /// A descriptor set, of this length in bytes.
    Set(usize),
    /// A stream, of this length in bytes.
    Stream(usize),
}

/// The payload of a message: which message it is of, and how long it is.
#[derive(Clone, Copy, Debug, PartialEq, Eq, Hash)]
#[non_exhaustive]
pub struct MessagePayload {
    /// The code of the message's type.
    pub code: u16,
    /// Where the message begins in its stream, in bytes; `None` of one received in no stream.
    pub offset: Option<u64>,
    /// The length of the payload in bytes.
    pub length: usize,
}

/// The end of a stream within an item.
#[derive(Clone, Copy, Debug, PartialEq, Eq, Hash)]
#[non_exhaustive]
pub struct Incomplete {
    /// How many bytes of the item came.
    pub rest: usize,
    /// Where the item begins in the stream, in bytes.
    pub offset: u64,
    /// The code of its type, which is its first two bytes; `None` if only one came.
    pub code: Option<u16>,
}

impl Incomplete {
    /// The end within the item that these bytes begin.
    pub(crate) fn of(bytes: &[u8], offset: u64) -> Incomplete {
        let code = announced_code(bytes);
        let rest = bytes.len();
        Incomplete { rest, offset, code }
    }
}

/// The code that a header has, if these bytes begin with its first two.
fn announced_code(bytes: &[u8]) -> Option<u16> {
    let code = bytes.get(..2)?.try_into().ok()?;
    Some(u16::from_be_bytes(code))
}

/// The length that a header has, if these bytes begin with a whole one.
fn announced_length(bytes: &[u8]) -> Option<u32> {
    let length = bytes.get(4..8)?.try_into().ok()?;
    Some(u32::from_be_bytes(length))
}

/// A message whose payload has more bytes than is taken.
#[derive(Clone, Copy, Debug, PartialEq, Eq, Hash)]
#[non_exhaustive]
pub struct MessageTooLong {
    /// The code of its type.
    pub code: u16,
    /// The length of its payload in bytes, by its header.
    pub length: u32,
    /// The greatest length that is taken.
    pub limit: u32,
    /// Where its header begins in the stream, in bytes.
    pub offset: u64,
}

impl MessageTooLong {
    /// The message whose header these bytes begin with, at an offset of its stream.
    pub(crate) fn of(bytes: &[u8], limit: u32, offset: u64) -> MessageTooLong {
        MessageTooLong {
            code: announced_code(bytes).unwrap_or_default(),
            length: announced_length(bytes).unwrap_or_default(),
            limit,
            offset,
        }
    }
}

impl Error {
    /// The code of the type of the message, or of the item, that the error is about.
    ///
    /// That of a payload's error that a method of [`Message`](crate::Message) returned, of [`Error::MessageTooLong`],
    /// and of [`Error::Incomplete`] if two bytes of the item came; otherwise `None`.
    ///
    /// ```
    /// use pendratsoa::{Decoder, Item, Version};
    ///
    /// let mut decoder = Decoder::new(Version::V8);
    /// decoder.feed(&[0, 3, 0, 0, 0, 0, 0, 0, 4, 3, 0, 0, 0, 0, 0, 3, 0x0A, 5, b'a'])?;
    /// for item in decoder.items() {
    ///     let item = item?;
    ///     if let Item::Message(message) = item {
    ///         if let Err(error) = message.json() {
    ///             assert_eq!((error.code(), error.offset()), (Some(0x0403), Some(8)));
    ///             let text = "SetStateCommand at offset 8: payload of 3 bytes is malformed";
    ///             assert_eq!(error.to_string(), text);
    ///         }
    ///     }
    /// }
    /// # Ok::<(), pendratsoa::Error>(())
    /// ```
    #[must_use]
    pub fn code(&self) -> Option<u16> {
        match self {
            Error::MessageTooLong(error) => Some(error.code),
            Error::Incomplete(error) => error.code,
            _ => self.message_payload().map(|payload| payload.code),
        }
    }

    /// Where the message, or the item, that the error is about begins in its stream, in bytes; `None` of an error that
    /// is about none, and of a message received in no stream.
    #[must_use]
    pub fn offset(&self) -> Option<u64> {
        match self {
            Error::MessageTooLong(error) => Some(error.offset),
            Error::Incomplete(error) => Some(error.offset),
            _ => self.message_payload().and_then(|payload| payload.offset),
        }
    }

    fn message_payload(&self) -> Option<&MessagePayload> {
        match self {
            Error::Malformed(Argument::MessagePayload(payload))
            | Error::NoId(Argument::MessagePayload(payload))
            | Error::NoResult(Argument::MessagePayload(payload)) => Some(payload),
            _ => None,
        }
    }

    /// The error, which says of which message it is if it is one of the payload.
    pub(crate) fn of_message(self, code: u16, offset: Option<u64>) -> Error {
        let within = |argument| match argument {
            Argument::Payload(length) => Argument::MessagePayload(MessagePayload {
                code,
                offset,
                length,
            }),
            argument => argument,
        };
        match self {
            Error::Malformed(argument) => Error::Malformed(within(argument)),
            Error::NoId(argument) => Error::NoId(within(argument)),
            Error::NoResult(argument) => Error::NoResult(within(argument)),
            error => error,
        }
    }

    /// The error for an error number, by the argument that it can be about.
    pub(crate) fn of(refusal: Refusal, argument: impl FnOnce(About) -> Argument) -> Error {
        match refusal {
            Refusal::Malformed(about) => Error::Malformed(argument(about)),
            Refusal::OutOfMemory => Error::OutOfMemory,
            Refusal::TooLong => Error::TooLong(argument(About::Payload)),
            Refusal::Unknown(about) => Error::Unknown(argument(about)),
            Refusal::NoId => Error::NoId(argument(About::Payload)),
            Refusal::NoResult => Error::NoResult(argument(About::Payload)),
            Refusal::NotCanonical => {
                Error::unexpected("the error", "that a payload is not canonical")
            }
            Refusal::Unlisted(number) => Error::unexpected("the error", number),
        }
    }

    /// The error of a number that a later version of the library may return.
    pub(crate) fn unexpected(what: &str, number: impl fmt::Display) -> Error {
        Error::Unexpected(format!("{what} {number}"))
    }
}

/// A number that the library returned, in the type that this crate has for it.
pub(crate) fn narrowed<T: TryFrom<u64>>(what: &str, number: u64) -> Result<T, Error> {
    T::try_from(number).map_err(|_| Error::unexpected(what, number))
}

impl fmt::Display for Error {
    fn fmt(&self, f: &mut fmt::Formatter<'_>) -> fmt::Result {
        match self {
            Error::Malformed(argument) => write!(f, "{argument} is malformed"),
            Error::OutOfMemory => f.write_str("out of memory"),
            Error::TooLong(argument) => write_too_long(f, argument),
            Error::MessageTooLong(error) => error.fmt(f),
            Error::Unknown(Argument::Version(given)) => write_unknown_version(f, given),
            Error::Unknown(Argument::Schema(number)) => {
                write!(
                    f,
                    "unknown schema {number} (0 to {})",
                    Schema::ALL.len() - 1
                )
            }
            Error::Unknown(Argument::Code(code)) => write!(
                f,
                "unknown code {code:#06x}, or not of the kind that the call is for"
            ),
            Error::Unknown(Argument::Name(name)) => write_unknown_name(f, name),
            Error::Unknown(argument) => write!(f, "{argument} is unknown"),
            Error::NoFrame(version, schema) => {
                write!(f, "protocol version {version} has no {}", schema.name())
            }
            Error::NoId(argument) => write!(f, "{argument} has no id"),
            Error::NoResult(argument) => write!(f, "{argument} has an id, and no result"),
            Error::Json(error) => write!(f, "JSON of {}: {error}", bytes(error.length)),
            Error::Field(error) => write!(f, "field {error}"),
            Error::Numbering(error) => error.fmt(f),
            Error::Incomplete(error) => error.fmt(f),
            Error::Unexpected(what) => {
                write!(
                    f,
                    "the library returned {what}, which this package does not know"
                )
            }
        }
    }
}

/// Writes that a payload is too long. The library does not say which one is, or becomes so.
fn write_too_long(f: &mut fmt::Formatter<'_>, argument: &Argument) -> fmt::Result {
    f.write_str("payload ")?;
    if let Argument::PayloadLength(length) = argument {
        write!(f, "of {} ", bytes(*length))?;
    }
    f.write_str("is too long: more than 4,294,967,295 bytes")
}

/// Writes that a version is unknown, as it was given: in quotes if it is not a number.
fn write_unknown_version(f: &mut fmt::Formatter<'_>, given: &str) -> fmt::Result {
    f.write_str("unknown protocol version ")?;
    if given.is_empty() || given.contains(|letter: char| !letter.is_ascii_digit()) {
        write!(f, "{}", Quoted(given))?;
    } else {
        f.write_str(given)?;
    }
    write!(f, " ({} to {})", Version::FIRST, Version::LAST)
}

/// Writes that a name is unknown, and asks whether a type was meant if it is that of the type's record.
fn write_unknown_name(f: &mut fmt::Formatter<'_>, name: &str) -> fmt::Result {
    write!(f, "unknown type {}", Quoted(name))?;
    match name.split_once("Message") {
        Some((meant, _)) if Schema::from_name(name).is_some() => {
            write!(f, "; did you mean {}?", Quoted(meant))
        }
        _ => Ok(()),
    }
}

impl error::Error for Error {}

/// The kind is `OutOfMemory` of a failed allocation, `UnexpectedEof` of [`Error::Incomplete`], and otherwise
/// `InvalidData`; `get_ref` has the [`Error`].
impl From<Error> for io::Error {
    fn from(error: Error) -> io::Error {
        let kind = match error {
            Error::OutOfMemory => ErrorKind::OutOfMemory,
            Error::Incomplete(_) => ErrorKind::UnexpectedEof,
            _ => ErrorKind::InvalidData,
        };
        io::Error::new(kind, error)
    }
}

impl fmt::Display for MessageTooLong {
    fn fmt(&self, f: &mut fmt::Formatter<'_>) -> fmt::Result {
        let MessageTooLong {
            code,
            length,
            limit,
            offset,
        } = self;
        let named = name_and_code(*code);
        write!(
            f,
            "a message of type {named} at offset {offset} has {length} bytes, more than the limit of {limit}"
        )
    }
}

impl error::Error for MessageTooLong {}

impl fmt::Display for Incomplete {
    fn fmt(&self, f: &mut fmt::Formatter<'_>) -> fmt::Result {
        let Incomplete { rest, offset, code } = self;
        let item = code.map_or_else(|| "an item".to_owned(), name);
        let came = bytes(*rest);
        write!(
            f,
            "the stream ended within {item} at offset {offset}, after {came} of it"
        )
    }
}

impl error::Error for Incomplete {}

impl fmt::Display for MessagePayload {
    fn fmt(&self, f: &mut fmt::Formatter<'_>) -> fmt::Result {
        f.write_str(&name(self.code))?;
        if let Some(offset) = self.offset {
            write!(f, " at offset {offset}")?;
        }
        write!(f, ": payload of {}", bytes(self.length))
    }
}

/// The name of a type, or its code if no type has it.
fn name(code: u16) -> String {
    type_name(code).unwrap_or_else(|_| format!("code {code:#06x}"))
}

/// The name of a type and its code, or only the code if no type has it.
fn name_and_code(code: u16) -> String {
    match type_name(code) {
        Ok(name) => format!("{name} ({code:#06x})"),
        Err(_) => format!("{code:#06x}"),
    }
}

impl fmt::Display for Argument {
    fn fmt(&self, f: &mut fmt::Formatter<'_>) -> fmt::Result {
        match self {
            Argument::Version(given) => write!(f, "protocol version {}", Quoted(given)),
            Argument::Code(code) => write!(f, "code {code:#06x}"),
            Argument::Schema(number) => write!(f, "schema {number}"),
            Argument::Name(name) => write!(f, "type {}", Quoted(name)),
            Argument::PayloadLength(length) => write!(f, "payload length {length}"),
            Argument::Payload(length) => write!(f, "payload of {}", bytes(*length)),
            Argument::MessagePayload(payload) => payload.fmt(f),
            Argument::Json(length) => write!(f, "JSON of {}", bytes(*length)),
            Argument::First(length) => write!(f, "first payload of {}", bytes(*length)),
            Argument::Second(length) => write!(f, "second payload of {}", bytes(*length)),
            Argument::Set(length) => write!(f, "descriptor set of {}", bytes(*length)),
            Argument::Stream(length) => write!(f, "stream of {}", bytes(*length)),
        }
    }
}

/// A text from outside, as errors print it: on one line, and with no command for a terminal.
pub(crate) struct Escaped<'a>(pub(crate) &'a str);

impl fmt::Display for Escaped<'_> {
    fn fmt(&self, f: &mut fmt::Formatter<'_>) -> fmt::Result {
        for letter in self.0.chars() {
            if is_control(letter) {
                write!(f, "\\u{:04x}", u32::from(letter))?;
            } else {
                f.write_char(letter)?;
            }
        }
        Ok(())
    }
}

/// Whether a character ends a line, is a command for a terminal, or turns the text after it around.
fn is_control(letter: char) -> bool {
    letter.is_control() || matches!(letter, '\u{2028}'..='\u{202e}' | '\u{2066}'..='\u{2069}')
}

/// A name from outside, in quotes, of a long one its beginning.
pub(crate) struct Quoted<'a>(pub(crate) &'a str);

impl fmt::Display for Quoted<'_> {
    fn fmt(&self, f: &mut fmt::Formatter<'_>) -> fmt::Result {
        let Quoted(name) = self;
        match name.char_indices().nth(MOST_SHOWN) {
            None => write!(f, "\"{}\"", Escaped(name)),
            Some((end, _)) => write!(f, "\"{}\"..", Escaped(&name[..end])),
        }
    }
}

/// How many characters of a name are printed.
const MOST_SHOWN: usize = 64;

/// A length in bytes, as text.
fn bytes(length: usize) -> String {
    match length {
        1 => "1 byte".to_owned(),
        _ => format!("{length} bytes"),
    }
}

#[cfg(test)]
mod tests {
    use super::*;

    #[test]
    fn each_error_names_its_argument() {
        let errors = [
            (
                Error::Malformed(Argument::Second(3)),
                "second payload of 3 bytes is malformed",
            ),
            (
                Error::Malformed(Argument::Payload(1)),
                "payload of 1 byte is malformed",
            ),
            (
                Error::NoId(Argument::Payload(0)),
                "payload of 0 bytes has no id",
            ),
            (Error::OutOfMemory, "out of memory"),
            (
                Error::TooLong(Argument::PayloadLength(1 << 32)),
                "payload of 4294967296 bytes is too long: more than 4,294,967,295 bytes",
            ),
            (
                Error::MessageTooLong(MessageTooLong {
                    code: 0x0400,
                    length: 1025,
                    limit: 1024,
                    offset: 106,
                }),
                "a message of type InputCommand (0x0400) at offset 106 has 1025 bytes, more than the limit of 1024",
            ),
            (
                Error::NoFrame(Version::V7, Schema::SuspensionMessageV6),
                "protocol version 7 has no SuspensionMessageV6",
            ),
            (
                Error::TooLong(Argument::Json(3)),
                "payload is too long: more than 4,294,967,295 bytes",
            ),
            (
                Error::NoId(Argument::Payload(2)),
                "payload of 2 bytes has no id",
            ),
            (
                Error::NoResult(Argument::First(2)),
                "first payload of 2 bytes has an id, and no result",
            ),
            (
                Error::Incomplete(Incomplete::of(&[4], 17)),
                "the stream ended within an item at offset 17, after 1 byte of it",
            ),
            (
                Error::Incomplete(Incomplete::of(&[4, 3, 0], 17)),
                "the stream ended within SetStateCommand at offset 17, after 3 bytes of it",
            ),
            (
                Error::Incomplete(Incomplete::of(&[4, 3, 0, 0, 0, 0, 0, 1], 17)),
                "the stream ended within SetStateCommand at offset 17, after 8 bytes of it",
            ),
            (
                Error::Incomplete(Incomplete::of(&[0, 8, 0, 0, 0, 0, 0, 1, 2], 0)),
                "the stream ended within code 0x0008 at offset 0, after 9 bytes of it",
            ),
            (
                Error::NoId(Argument::Payload(2)).of_message(0x800D, Some(3)),
                "CallCompletionNotification at offset 3: payload of 2 bytes has no id",
            ),
            (
                Error::Malformed(Argument::Payload(2)).of_message(0x0403, None),
                "SetStateCommand: payload of 2 bytes is malformed",
            ),
            (
                Error::unexpected("the error", -12),
                "the library returned the error -12, which this package does not know",
            ),
        ];
        for (error, text) in errors {
            assert_eq!(error.to_string(), text);
        }
    }

    #[test]
    fn what_is_unknown_is_named() {
        let errors = [
            (
                Error::Unknown(Argument::Version("4".to_owned())),
                "unknown protocol version 4 (5 to 9)",
            ),
            (
                Error::Unknown(Argument::Code(0x404)),
                "unknown code 0x0404, or not of the kind that the call is for",
            ),
            (
                Error::Unknown(Argument::Name("SuspensionMessageV6".to_owned())),
                "unknown type \"SuspensionMessageV6\"; did you mean \"Suspension\"?",
            ),
            (
                Error::Unknown(Argument::Name("a\u{1b}\n\u{7f}\u{85}\u{202e}".to_owned())),
                r#"unknown type "a\u001b\u000a\u007f\u0085\u202e""#,
            ),
            (
                Error::Unknown(Argument::Name("\u{2067}".repeat(65))),
                &format!("unknown type \"{}\"..", r"\u2067".repeat(64)),
            ),
            (
                Error::Unknown(Argument::Version("8\r".to_owned())),
                r#"unknown protocol version "8\u000d" (5 to 9)"#,
            ),
        ];
        for (error, text) in errors {
            assert_eq!(error.to_string(), text);
        }
        let count = u32::try_from(Schema::ALL.len()).unwrap();
        let text = format!("unknown schema {count} (0 to {})", count - 1);
        assert_eq!(Error::Unknown(Argument::Schema(count)).to_string(), text);
    }

    #[test]
    fn controls_of_a_name_are_escaped() {
        for letter in '\0'..'\u{2100}' {
            let shown = match letter {
                '\0'..='\u{1f}' | '\u{7f}'..='\u{9f}' => format!("\\u{:04x}", u32::from(letter)),
                '\u{2028}'..='\u{202e}' | '\u{2066}'..='\u{2069}' => {
                    format!("\\u{:04x}", u32::from(letter))
                }
                letter => letter.to_string(),
            };
            let error = Error::Unknown(Argument::Name(letter.to_string()));
            assert_eq!(error.to_string(), format!("unknown type \"{shown}\""));
        }
    }

    #[test]
    fn each_refusal_is_an_error() {
        use Refusal::*;
        let (code, payload, second) =
            (Argument::Code(7), Argument::Payload(9), Argument::Second(2));
        for (refusal, error) in [
            (Malformed(About::Payload), Error::Malformed(payload.clone())),
            (Malformed(About::Second), Error::Malformed(second.clone())),
            (OutOfMemory, Error::OutOfMemory),
            (TooLong, Error::TooLong(payload.clone())),
            (Unknown(About::Type), Error::Unknown(code.clone())),
            (NoId, Error::NoId(payload.clone())),
            (NoResult, Error::NoResult(payload.clone())),
            (
                NotCanonical,
                Error::Unexpected("the error that a payload is not canonical".to_owned()),
            ),
            (Unlisted(-12), Error::Unexpected("the error -12".to_owned())),
        ] {
            let found = Error::of(refusal, |about| match about {
                About::Second => second.clone(),
                About::Payload => payload.clone(),
                _ => code.clone(),
            });
            assert_eq!(found, error);
        }
    }
}
