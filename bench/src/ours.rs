//! The calls of the library that this folder uses: those of pendratsoa.h, by the crate `pendratsoa`, and those of
//! measure.h.

use std::fmt;

use pendratsoa::Error;

/// Why a call fails.
#[derive(Clone, Debug, PartialEq, Eq)]
pub enum Refusal {
    Malformed,
    OutOfMemory,
    NoRoom,
    TooLong,
    Unknown,
    /// What none of these calls lists.
    Unlisted(String),
}

impl From<Error> for Refusal {
    fn from(error: Error) -> Refusal {
        match error {
            Error::Malformed(_) => Refusal::Malformed,
            Error::OutOfMemory => Refusal::OutOfMemory,
            Error::TooLong(_) => Refusal::TooLong,
            Error::Unknown(_) => Refusal::Unknown,
            other => Refusal::Unlisted(other.to_string()),
        }
    }
}

impl From<i64> for Refusal {
    fn from(result: i64) -> Refusal {
        // the kind of the error, which also the errors that name their argument have
        match result % 16 {
            -1 => Refusal::Malformed,
            -2 => Refusal::OutOfMemory,
            -3 => Refusal::NoRoom,
            -4 => Refusal::TooLong,
            -5 => Refusal::Unknown,
            _ => Refusal::Unlisted(result.to_string()),
        }
    }
}

impl fmt::Display for Refusal {
    fn fmt(&self, f: &mut fmt::Formatter<'_>) -> fmt::Result {
        match self {
            Refusal::Malformed => f.write_str("malformed"),
            Refusal::OutOfMemory => f.write_str("out of memory"),
            Refusal::NoRoom => f.write_str("no room"),
            Refusal::TooLong => f.write_str("too long"),
            Refusal::Unknown => f.write_str("unknown"),
            Refusal::Unlisted(result) => write!(f, "the unlisted result {result}"),
        }
    }
}

mod c {
    extern "C" {
        pub fn measure_items(
            version: u32,
            stream: *const u8,
            stream_length: usize,
            chunk: usize,
            rounds: usize,
            words: *mut u64,
            words_room: usize,
        ) -> i64;
        pub fn measure_item_refs(
            version: u32,
            stream: *const u8,
            stream_length: usize,
            rounds: usize,
            words: *mut u64,
            words_room: usize,
        ) -> i64;
        pub fn measure_messages(
            version: u32,
            stream: *const u8,
            stream_length: usize,
            chunk: usize,
            rounds: usize,
        ) -> i64;
        pub fn measure_compare(
            version: u32,
            stream: *const u8,
            stream_length: usize,
            ignore_payloads: u32,
            rounds: usize,
        ) -> i64;
        pub fn measure_frame(
            version: u32,
            code: u16,
            payload: *const u8,
            payload_length: usize,
            rounds: usize,
            out: *mut u8,
            room: usize,
        ) -> i64;
        pub fn measure_frame_vec(
            version: u32,
            code: u16,
            payload: *const u8,
            payload_length: usize,
            rounds: usize,
            out: *mut u8,
            room: usize,
        ) -> i64;
        pub fn measure_frame_into(
            version: u32,
            code: u16,
            payload: *const u8,
            payload_length: usize,
            rounds: usize,
            out: *mut u8,
            room: usize,
        ) -> i64;
        pub fn measure_frame_spare(
            version: u32,
            code: u16,
            payload: *const u8,
            payload_length: usize,
            rounds: usize,
            out: *mut u8,
            room: usize,
        ) -> i64;
        pub fn measure_frame_shared(
            version: u32,
            code: u16,
            payload: *const u8,
            payload_length: usize,
            rounds: usize,
            out: *mut u8,
            room: usize,
        ) -> i64;
        pub fn measure_frame_chunks(
            version: u32,
            code: u16,
            payload: *const u8,
            payload_length: usize,
            rounds: usize,
            out: *mut u8,
            room: usize,
        ) -> i64;
        pub fn measure_well_formed(
            schema: u32,
            payload: *const u8,
            payload_length: usize,
            rounds: usize,
        ) -> i64;
        pub fn measure_fields(
            schema: u32,
            payload: *const u8,
            payload_length: usize,
            rounds: usize,
        ) -> i64;
    }
}

/// A number that is not negative, or an error.
fn count(result: i64) -> Result<usize, Refusal> {
    usize::try_from(result).map_err(|_| Refusal::from(result))
}

/// A word for each item of a stream, of the last of the rounds. There are at most as many as `words` has.
pub fn items(
    version: u32,
    stream: &[u8],
    chunk: usize,
    rounds: usize,
    words: &mut [u64],
) -> Result<usize, Refusal> {
    // SAFETY: the lengths are those of the slices, and only `words` is written
    count(unsafe {
        c::measure_items(
            version,
            stream.as_ptr(),
            stream.len(),
            chunk,
            rounds,
            words.as_mut_ptr(),
            words.len(),
        )
    })
}

/// A word for each item of a stream, as `items`, where it lies: nothing is copied.
pub fn item_refs(
    version: u32,
    stream: &[u8],
    rounds: usize,
    words: &mut [u64],
) -> Result<usize, Refusal> {
    // SAFETY: the lengths are those of the slices, and only `words` is written
    count(unsafe {
        c::measure_item_refs(
            version,
            stream.as_ptr(),
            stream.len(),
            rounds,
            words.as_mut_ptr(),
            words.len(),
        )
    })
}

/// How many messages of a named type a stream has.
pub fn messages(
    version: u32,
    stream: &[u8],
    chunk: usize,
    rounds: usize,
) -> Result<usize, Refusal> {
    // SAFETY: the length is that of the slice, which is only read
    count(unsafe { c::measure_messages(version, stream.as_ptr(), stream.len(), chunk, rounds) })
}

/// How many comparisons of each command of a stream with its second decoding hold.
pub fn compare(
    version: u32,
    stream: &[u8],
    ignore_payloads: bool,
    rounds: usize,
) -> Result<usize, Refusal> {
    // SAFETY: the length is that of the slice, which is only read
    count(unsafe {
        c::measure_compare(
            version,
            stream.as_ptr(),
            stream.len(),
            u32::from(ignore_payloads),
            rounds,
        )
    })
}

/// Whether a payload is well-formed for a schema: 1 or 0.
pub fn is_well_formed(schema: usize, payload: &[u8]) -> Result<usize, Refusal> {
    Ok(usize::from(pendratsoa::is_well_formed(
        schema as u32,
        payload,
    )?))
}

/// The same, this many times.
pub fn is_well_formed_in_rounds(
    schema: usize,
    payload: &[u8],
    rounds: usize,
) -> Result<usize, Refusal> {
    // SAFETY: the length is that of the slice, which is only read
    count(unsafe { c::measure_well_formed(schema as u32, payload.as_ptr(), payload.len(), rounds) })
}

/// The sum of what the fields of a payload hold, which is checked and read this many times.
pub fn fields(schema: usize, payload: &[u8], rounds: usize) -> Result<usize, Refusal> {
    // SAFETY: the length is that of the slice, which is only read
    count(unsafe { c::measure_fields(schema as u32, payload.as_ptr(), payload.len(), rounds) })
}

/// The canonical payload of what a payload means.
pub fn canonical(schema: usize, payload: &[u8]) -> Result<Vec<u8>, Refusal> {
    Ok(pendratsoa::canonical(schema as u32, payload)?)
}

/// The canonical payload of what comes of merging the second payload into the first.
pub fn merge(schema: usize, first: &[u8], second: &[u8]) -> Result<Vec<u8>, Refusal> {
    Ok(pendratsoa::merge(schema as u32, first, second)?)
}

/// The frame of the message that a payload holds.
pub fn frame_once(version: u32, code: u16, payload: &[u8]) -> Result<Vec<u8>, Refusal> {
    Ok(pendratsoa::frame(version.try_into()?, code, payload)?)
}

/// A call that returns a frame's length, and writes it where there is room for it.
pub type FrameCall = fn(u32, u16, &[u8], usize, &mut [u8]) -> Result<usize, Refusal>;

/// The same of the last of the rounds, by one of the calls below.
pub fn frame(
    call: FrameCall,
    version: u32,
    code: u16,
    payload: &[u8],
    rounds: usize,
) -> Result<Vec<u8>, Refusal> {
    // room for the frame of almost any payload; where it does not do, it is made longer
    let mut out = vec![0; 40 + payload.len() + payload.len() / 2];
    let length = call(version, code, payload, rounds, &mut out)?;
    if length > out.len() {
        out.resize(length, 0);
        call(version, code, payload, rounds, &mut out)?;
    }
    out.truncate(length);
    Ok(out)
}

/// A call of measure.h for frames.
type RoundsCall = unsafe extern "C" fn(u32, u16, *const u8, usize, usize, *mut u8, usize) -> i64;

/// The frame that a call of measure.h writes.
fn frame_by(
    call: RoundsCall,
    version: u32,
    code: u16,
    payload: &[u8],
    rounds: usize,
    out: &mut [u8],
) -> Result<usize, Refusal> {
    // SAFETY: these calls take slices so; the lengths are theirs, and only `out` is written
    count(unsafe {
        call(
            version,
            code,
            payload.as_ptr(),
            payload.len(),
            rounds,
            out.as_mut_ptr(),
            out.len(),
        )
    })
}

/// A frame for which each round has a buffer of its own.
pub fn frame_to(
    version: u32,
    code: u16,
    payload: &[u8],
    rounds: usize,
    out: &mut [u8],
) -> Result<usize, Refusal> {
    frame_by(c::measure_frame, version, code, payload, rounds, out)
}

/// The same, where the buffer is a `Vec`.
pub fn frame_vec(
    version: u32,
    code: u16,
    payload: &[u8],
    rounds: usize,
    out: &mut [u8],
) -> Result<usize, Refusal> {
    frame_by(c::measure_frame_vec, version, code, payload, rounds, out)
}

/// A frame for which all rounds have one buffer, which is cleared before each.
pub fn frame_into(
    version: u32,
    code: u16,
    payload: &[u8],
    rounds: usize,
    out: &mut [u8],
) -> Result<usize, Refusal> {
    frame_by(c::measure_frame_into, version, code, payload, rounds, out)
}

/// The same, with a buffer whose spare room is initialized.
pub fn frame_spare(
    version: u32,
    code: u16,
    payload: &[u8],
    rounds: usize,
    out: &mut [u8],
) -> Result<usize, Refusal> {
    frame_by(c::measure_frame_spare, version, code, payload, rounds, out)
}

/// A frame as chunks, which are dropped before each round: long bytes are shared, and all else is in one buffer.
pub fn frame_chunks(
    version: u32,
    code: u16,
    payload: &[u8],
    rounds: usize,
    out: &mut [u8],
) -> Result<usize, Refusal> {
    frame_by(c::measure_frame_chunks, version, code, payload, rounds, out)
}

/// A frame for which the frames of all rounds share the blocks of one buffer; the last 1,024 are held.
pub fn frame_shared(
    version: u32,
    code: u16,
    payload: &[u8],
    rounds: usize,
    out: &mut [u8],
) -> Result<usize, Refusal> {
    frame_by(c::measure_frame_shared, version, code, payload, rounds, out)
}
