//! The calls of `pendratsoa.h` over slices, which `declared` has one by one. No other module has unsafe code.
#![allow(unsafe_code)]
#![warn(clippy::undocumented_unsafe_blocks)]

use std::alloc::{alloc, Layout};

#[rustfmt::skip]
mod declared;
mod items;
mod lists;
mod numbering;
#[rustfmt::skip]
pub(crate) mod structs;
mod table;
mod writer;

pub(crate) use declared::*;
pub(crate) use items::{Found, ItemNumbers};
pub(crate) use lists::append_struct;
pub(crate) use numbering::{renumberings, Renumbering};
pub use table::Table;
pub(crate) use table::{Entry, Room};
pub use writer::Writer;

/// Which argument of a call an error is about.
#[derive(Clone, Copy, Debug, PartialEq, Eq)]
pub(crate) enum About {
    Schema,
    /// The code or the name of a type.
    Type,
    /// The only payload, or the first of two.
    Payload,
    Second,
}

/// A negative result of a call.
#[derive(Clone, Copy, Debug, PartialEq, Eq)]
pub(crate) enum Refusal {
    Malformed(About),
    OutOfMemory,
    TooLong,
    Unknown(About),
    NoId,
    NoResult,
    NotCanonical,
    /// One that the header does not list, or that is about what this crate does not pass.
    Unlisted(i64),
}

pub(crate) type Result<T> = std::result::Result<T, Refusal>;

/// What a call returned, if it is not negative.
#[inline]
fn count(returned: i64) -> Result<usize> {
    usize::try_from(returned).map_err(|_| refused(returned))
}

#[cold]
fn refused(returned: i64) -> Refusal {
    Refusal::from(returned)
}

/// The JSON of a payload.
pub(crate) fn json_text(schema: u32, payload: &[u8]) -> Result<String> {
    let text = crate::ffi::json(schema, payload)?;
    // SAFETY: it is the text of `json_of` of shared_core_json, whose clause `utf8` is proved
    Ok(unsafe { String::from_utf8_unchecked(text) })
}

/// The bytes that a call writes. It is made once if they fit into the room that is guessed, and otherwise again with
/// as much as it returned.
///
/// # Safety
///
/// The call is given a pointer and a number of bytes that it may write there. If what it returns is not negative and at
/// most that number, it has written that many bytes.
unsafe fn written(guess: usize, call: impl FnMut(*mut u8, usize) -> i64) -> Result<Vec<u8>> {
    let mut out = Vec::new();
    // SAFETY: the call does what `appended` requires, as the caller of this promises
    unsafe { appended(&mut out, guess, call)? };
    Ok(out)
}

/// Appends the bytes that a call writes, and returns how many they are. It is made once if they fit into the room that
/// is guessed, and otherwise again with as much as it returned, as where there is no memory for the guess. An error
/// leaves the vector as it was.
///
/// # Safety
///
/// As for `written`.
#[inline(always)]
unsafe fn appended(
    out: &mut Vec<u8>,
    guess: usize,
    call: impl FnMut(*mut u8, usize) -> i64,
) -> Result<usize> {
    let mut call = call;
    // what is guessed may be more than there is, where what is needed is not
    if out.capacity() == 0 {
        *out = with_room(guess).unwrap_or_default();
    } else if out.capacity() - out.len() < guess {
        reserve(out, guess).unwrap_or_default();
    }
    let spare = out.spare_capacity_mut();
    let room = spare.len();
    let length = count(call(spare.as_mut_ptr().cast(), room))?;
    if length > room {
        // SAFETY: the caller of this promises what the one of that has to
        return unsafe { appended_again(out, length, call) };
    }
    // SAFETY: the call has written this number of bytes, as its caller promises, and there is room for them
    unsafe { out.set_len(out.len() + length) };
    Ok(length)
}

/// The same for a call that has returned how much room it needs.
///
/// # Safety
///
/// As for `written`.
#[cold]
unsafe fn appended_again(
    out: &mut Vec<u8>,
    needed: usize,
    call: impl FnMut(*mut u8, usize) -> i64,
) -> Result<usize> {
    let (mut call, mut needed) = (call, needed);
    loop {
        reserve(out, needed)?;
        let spare = out.spare_capacity_mut();
        let room = spare.len();
        needed = count(call(spare.as_mut_ptr().cast(), room))?;
        if needed <= room {
            // SAFETY: as in `appended`
            unsafe { out.set_len(out.len() + needed) };
            return Ok(needed);
        }
    }
}

/// Makes room for this many bytes more.
#[cold]
fn reserve(out: &mut Vec<u8>, room: usize) -> Result<()> {
    // of a vector that holds nothing it is not known that more is appended
    let reserved = if out.is_empty() {
        out.try_reserve_exact(room)
    } else {
        out.try_reserve(room)
    };
    reserved.map_err(|_| Refusal::OutOfMemory)
}

/// An empty vector with room for this many bytes: as `Vec::with_capacity`, which ends the program where there is no
/// memory.
#[inline]
fn with_room(room: usize) -> Result<Vec<u8>> {
    if room == 0 {
        return Ok(Vec::new());
    }
    let layout = Layout::array::<u8>(room).map_err(|_| Refusal::OutOfMemory)?;
    // SAFETY: it has bytes
    let first = unsafe { alloc(layout) };
    if first.is_null() {
        return Err(Refusal::OutOfMemory);
    }
    // SAFETY: this is what was allocated, and nothing is in it
    Ok(unsafe { Vec::from_raw_parts(first, 0, room) })
}

#[cfg(test)]
mod tests {
    use super::*;

    /// A call that writes the first bytes of a text if there is room, as the calls of the library do.
    ///
    /// # Safety
    ///
    /// There is room for this number of bytes.
    unsafe fn text(text: &[u8], out: *mut u8, room: usize) -> i64 {
        if text.len() <= room {
            // SAFETY: there is room for it
            unsafe { out.copy_from_nonoverlapping(text.as_ptr(), text.len()) };
        }
        i64::try_from(text.len()).unwrap()
    }

    #[test]
    fn a_call_is_made_once_if_its_bytes_fit() {
        for length in [0, 1, 31, 32] {
            let expected = vec![7; length];
            let mut calls = 0;
            // SAFETY: it writes as many bytes as it returns
            let found = unsafe {
                written(32, |out, room| {
                    calls += 1;
                    text(&expected, out, room)
                })
            };
            assert_eq!((found, calls), (Ok(expected), 1));
        }
    }

    #[test]
    fn a_call_is_made_again_with_enough_room() {
        for guess in [0, 1, 99] {
            let expected = vec![7; 100];
            let mut rooms = Vec::new();
            // SAFETY: it writes as many bytes as it returns
            let found = unsafe {
                written(guess, |out, room| {
                    rooms.push(room);
                    text(&expected, out, room)
                })
            };
            assert_eq!((found, rooms), (Ok(expected), vec![guess, 100]));
        }
    }

    #[test]
    fn a_guess_that_cannot_be_had_is_no_error() {
        let guess = usize::MAX / 2;
        let mut rooms = Vec::new();
        // SAFETY: it writes as many bytes as it returns
        let found = unsafe {
            written(guess, |out, room| {
                rooms.push(room);
                text(b"text", out, room)
            })
        };
        assert_eq!((found, rooms), (Ok(b"text".to_vec()), vec![0, 4]));
        let mut out = b"a ".to_vec();
        // SAFETY: as above
        let length = unsafe { appended(&mut out, guess, |out, room| text(b"text", out, room)) };
        assert_eq!((length, &out[..]), (Ok(4), &b"a text"[..]));
    }

    #[test]
    fn room_that_cannot_be_had_is_an_error() {
        for returned in [i64::MAX, 1 << 62] {
            // SAFETY: it writes nothing, and returns more than there is room for
            let found = unsafe { written(0, |_, _| returned) };
            assert_eq!(found, Err(Refusal::OutOfMemory));
        }
    }

    #[test]
    fn each_negative_number_is_a_refusal() {
        use Refusal::*;
        for (refusal, returned) in [
            (Malformed(About::Payload), -1),
            (OutOfMemory, -2),
            (TooLong, -4),
            (NoId, -6),
            (NoResult, -7),
            (NotCanonical, -8),
            (Malformed(About::Second), -17),
            (Unknown(About::Schema), -37),
            (Unknown(About::Type), -53),
        ] {
            assert_eq!(count(returned), Err(refusal));
        }
        for returned in [-3, -5, -9, -12, -21, -33, -69, i64::MIN] {
            assert_eq!(count(returned), Err(Unlisted(returned)));
        }
        assert_eq!(count(0), Ok(0));
    }
}
