//! The calls that take numbers, names and payloads.

use crate::error::{Argument, Error};
use crate::ffi::{self, About, Refusal};
use crate::schema::Schema;
use crate::version::Version;

/// The version of the library, as `0.3.0`.
///
/// ```
/// assert!(pendratsoa::library_version()?.starts_with("0."));
/// # Ok::<(), pendratsoa::Error>(())
/// ```
pub fn library_version() -> Result<String, Error> {
    // it takes nothing that could be unknown or malformed
    let version =
        ffi::library_version().map_err(|refusal| Error::of(refusal, |_| Argument::Payload(0)))?;
    text(version)
}

/// The number of the schema that payloads of a type have at a version.
///
/// A suspension has another schema before version 7 than later. [`Error::Unknown`] if no named type has the code; a
/// custom entry has no schema.
///
/// ```
/// use pendratsoa::{schema, MessageType, Schema, Version};
///
/// let number = schema(Version::V8, MessageType::SleepCommand.code())?;
/// assert_eq!(number, Schema::SleepCommandMessage.number());
/// # Ok::<(), pendratsoa::Error>(())
/// ```
pub fn schema(version: Version, code: u16) -> Result<u32, Error> {
    let number = ffi::schema(version.into(), code).map_err(|refusal| of_type(refusal, code, 0))?;
    u32::try_from(number).map_err(|_| Error::unexpected("the schema", number))
}

/// The name of the type that has the code, as `SleepCommand`, or `CustomEntry(64513)` of a custom entry.
///
/// It calls the library, which may be later than this crate; [`MessageType`](crate::MessageType) does not.
/// [`Error::Unknown`] if no type has the code.
///
/// ```
/// assert_eq!(pendratsoa::type_name(0x040C)?, "SleepCommand");
/// # Ok::<(), pendratsoa::Error>(())
/// ```
pub fn type_name(code: u16) -> Result<String, Error> {
    let name =
        ffi::type_name(code).map_err(|refusal| Error::of(refusal, |_| Argument::Code(code)))?;
    text(name)
}

/// The code of the named type that has the name, as `SleepCommand`. [`Error::Unknown`] if none has.
///
/// ```
/// assert_eq!(pendratsoa::type_code("SleepCommand")?, 0x040C);
/// # Ok::<(), pendratsoa::Error>(())
/// ```
pub fn type_code(name: &str) -> Result<u16, Error> {
    let code = ffi::type_code(name.as_bytes())
        .map_err(|refusal| Error::of(refusal, |_| Argument::Name(name.to_owned())))?;
    u16::try_from(code).map_err(|_| Error::unexpected("the code", code))
}

/// The header that a message of a type has at a version, by the length of its payload in bytes.
///
/// [`Error::Unknown`] if the code is unassigned; a custom entry has a header. [`Error::TooLong`] if the payload has
/// more than 4,294,967,295 bytes.
///
/// ```
/// use pendratsoa::{header, Version};
///
/// assert_eq!(header(Version::V8, 0x0400, 9)?, [0x04, 0, 0, 0, 0, 0, 0, 9]);
/// # Ok::<(), pendratsoa::Error>(())
/// ```
pub fn header(version: Version, code: u16, payload_length: usize) -> Result<[u8; 8], Error> {
    let too_long = |_| Error::TooLong(Argument::PayloadLength(payload_length));
    let length = u32::try_from(payload_length).map_err(too_long)?;
    let mut header = [0; 8];
    match ffi::header(version.into(), code, length, &mut header) {
        Ok(8) => Ok(header),
        Ok(length) => Err(Error::unexpected("a header's length", length)),
        Err(refusal) => Err(of_type(refusal, code, payload_length)),
    }
}

/// The frame, at a version, of the message of a named type that a payload holds: a header, and the canonical payload
/// after it.
///
/// A suspension is decoded by its schema from version 7 on, and written by that of the version. [`Error::Malformed`],
/// [`Error::TooLong`], [`Error::OutOfMemory`]; [`Error::Unknown`] if no named type has the code.
///
/// ```
/// use pendratsoa::{frame, Version};
///
/// assert_eq!(frame(Version::V8, 0x0003, &[])?, [0, 3, 0, 0, 0, 0, 0, 0]);
/// # Ok::<(), pendratsoa::Error>(())
/// ```
pub fn frame(version: Version, code: u16, payload: &[u8]) -> Result<Vec<u8>, Error> {
    let mut out = Vec::new();
    append_frame(version, code, payload, &mut out)?;
    Ok(out)
}

/// Appends the frame that [`frame`] returns to a vector, without a copy of it, and returns its length.
///
/// The errors are those of [`frame`], and leave the vector as it was.
///
/// ```
/// use pendratsoa::{append_frame, Version};
///
/// let mut out = vec![7];
/// assert_eq!(append_frame(Version::V8, 0x0003, &[], &mut out)?, 8);
/// assert_eq!(out, [7, 0, 3, 0, 0, 0, 0, 0, 0]);
/// # Ok::<(), pendratsoa::Error>(())
/// ```
pub fn append_frame(
    version: Version,
    code: u16,
    payload: &[u8],
    out: &mut Vec<u8>,
) -> Result<usize, Error> {
    ffi::frame(version.into(), code, payload, out)
        .map_err(|refusal| of_type(refusal, code, payload.len()))
}

/// The schema of a type at a version, if the type has another one since.
pub(crate) fn earlier_schema(version: Version, code: u16) -> Option<u32> {
    let found = schema(version, code).ok()?;
    Some(found).filter(|_| schema(Version::LAST, code) != Ok(found))
}

/// Appends the frame of a canonical payload whose schema the type has at earlier versions only, and which [`frame`]
/// would read by the later one. [`Error::NoFrame`] if the version has another.
pub(crate) fn append_earlier_frame(
    version: Version,
    code: u16,
    earlier: u32,
    payload: &[u8],
    out: &mut Vec<u8>,
) -> Result<usize, Error> {
    if schema(version, code)? != earlier {
        return Err(Error::NoFrame(version, Schema::try_from(earlier)?));
    }
    let header = header(version, code, payload.len())?;
    let length = header.len() + payload.len();
    out.try_reserve(length).map_err(|_| Error::OutOfMemory)?;
    out.extend_from_slice(&header);
    out.extend_from_slice(payload);
    Ok(length)
}

/// Whether a payload is well-formed for the schema that has the number.
///
/// [`Error::Unknown`] if no schema has it.
///
/// ```
/// use pendratsoa::{is_well_formed, Schema};
///
/// assert!(is_well_formed(Schema::Value.number(), &[0x0A, 1, b'x'])?);
/// assert!(!is_well_formed(Schema::Value.number(), &[0x0A, 2, b'x'])?);
/// # Ok::<(), pendratsoa::Error>(())
/// ```
pub fn is_well_formed(schema: u32, payload: &[u8]) -> Result<bool, Error> {
    truth(
        ffi::is_well_formed(schema, payload)
            .map_err(|refusal| of_payload(refusal, schema, payload))?,
    )
}

/// The canonical payload of what a payload means, for the schema that has the number.
///
/// [`Error::Malformed`], [`Error::TooLong`], [`Error::OutOfMemory`]; [`Error::Unknown`] if no schema has the number.
///
/// ```
/// use pendratsoa::{canonical, Schema};
///
/// assert_eq!(canonical(Schema::Value.number(), &[0x0A, 0x81, 0, b'x'])?, [0x0A, 1, b'x']);
/// # Ok::<(), pendratsoa::Error>(())
/// ```
pub fn canonical(schema: u32, payload: &[u8]) -> Result<Vec<u8>, Error> {
    ffi::canonical(schema, payload).map_err(|refusal| of_payload(refusal, schema, payload))
}

/// The canonical payload of the result of merging the second payload into the first, as protobuf merges messages.
///
/// [`Error::Malformed`] if one of the two is not well-formed by itself, [`Error::TooLong`], [`Error::OutOfMemory`];
/// [`Error::Unknown`] if no schema has the number.
///
/// ```
/// use pendratsoa::{merge, Schema};
///
/// let keys = Schema::StateKeys.number();
/// assert_eq!(merge(keys, &[0x0A, 1, b'a'], &[0x0A, 1, b'b'])?, [0x0A, 1, b'a', 0x0A, 1, b'b']);
/// # Ok::<(), pendratsoa::Error>(())
/// ```
pub fn merge(schema: u32, first: &[u8], second: &[u8]) -> Result<Vec<u8>, Error> {
    ffi::merge(schema, first, second).map_err(|refusal| {
        Error::of(refusal, |about| match about {
            About::Schema => Argument::Schema(schema),
            About::Second => Argument::Second(second.len()),
            _ => Argument::First(first.len()),
        })
    })
}

/// The JSON of what a payload means, in protobuf's own form, for the schema that has the number.
///
/// [`Error::Malformed`], [`Error::TooLong`], [`Error::OutOfMemory`]; [`Error::Unknown`] if no schema has the number.
///
/// ```
/// use pendratsoa::{to_json, Schema};
///
/// assert_eq!(to_json(Schema::Value.number(), &[0x0A, 1, b'x'])?, r#"{"content":"eA=="}"#);
/// # Ok::<(), pendratsoa::Error>(())
/// ```
pub fn to_json(schema: u32, payload: &[u8]) -> Result<String, Error> {
    ffi::json_text(schema, payload).map_err(|refusal| of_payload(refusal, schema, payload))
}

/// Whether two commands of the type that has the code are the same for a replay.
///
/// If `ignore_payloads`, the content of user data is not compared, but that of a signal is; that there is a value, and
/// no failure or nothing, is compared in any case. [`Error::Unknown`] if the code is that of no command,
/// [`Error::Malformed`] if one of the payloads is not well-formed, [`Error::OutOfMemory`].
///
/// ```
/// use pendratsoa::{header_eq, MessageType};
///
/// let code = MessageType::SetStateCommand.code();
/// let first = [0x0A, 1, b'a', 0x1A, 3, 0x0A, 1, b'1'];
/// let second = [0x0A, 1, b'a', 0x1A, 3, 0x0A, 1, b'2'];
/// assert!(!header_eq(code, &first, &second, false)?);
/// assert!(header_eq(code, &first, &second, true)?);
/// # Ok::<(), pendratsoa::Error>(())
/// ```
pub fn header_eq(
    code: u16,
    first: &[u8],
    second: &[u8],
    ignore_payloads: bool,
) -> Result<bool, Error> {
    truth(
        ffi::header_eq(code, first, second, ignore_payloads)
            .map_err(|refusal| of_commands(refusal, code, first, second))?,
    )
}

/// A line for each printed field in which two commands of the type that has the code differ, each after a line feed; it
/// is empty if they differ in none.
///
/// What is printed is not what is compared: see `journal_difference` in `pendratsoa.h`. The errors are those of
/// [`header_eq`].
///
/// ```
/// use pendratsoa::{difference, MessageType};
///
/// let code = MessageType::SetStateCommand.code();
/// let first = [0x0A, 1, b'a', 0x1A, 3, 0x0A, 1, b'1'];
/// let second = [0x0A, 1, b'a', 0x1A, 3, 0x0A, 1, b'2'];
/// assert_eq!(difference(code, &first, &second)?, "\n   value: '1' != '2'");
/// # Ok::<(), pendratsoa::Error>(())
/// ```
pub fn difference(code: u16, first: &[u8], second: &[u8]) -> Result<String, Error> {
    text(
        ffi::difference(code, first, second)
            .map_err(|refusal| of_commands(refusal, code, first, second))?,
    )
}

/// A text of the library.
pub(crate) fn text(bytes: Vec<u8>) -> Result<String, Error> {
    String::from_utf8(bytes)
        .map_err(|error| Error::unexpected("a text that is not UTF-8:", error.utf8_error()))
}

/// Whether something is so, by the number that the library returned.
fn truth(number: usize) -> Result<bool, Error> {
    match number {
        0 => Ok(false),
        1 => Ok(true),
        _ => Err(Error::unexpected("a truth value", number)),
    }
}

/// The error of a call that takes a code and a payload of a length.
fn of_type(refusal: Refusal, code: u16, length: usize) -> Error {
    Error::of(refusal, |about| match about {
        About::Type => Argument::Code(code),
        _ => Argument::Payload(length),
    })
}

/// The error of a call that takes a schema and a payload.
pub(crate) fn of_payload(refusal: Refusal, schema: u32, payload: &[u8]) -> Error {
    Error::of(refusal, |about| match about {
        About::Schema => Argument::Schema(schema),
        _ => Argument::Payload(payload.len()),
    })
}

/// The error of a call that takes a code and two commands.
pub(crate) fn of_commands(refusal: Refusal, code: u16, first: &[u8], second: &[u8]) -> Error {
    Error::of(refusal, |about| match about {
        About::Type => Argument::Code(code),
        About::Second => Argument::Second(second.len()),
        _ => Argument::First(first.len()),
    })
}
