//! Messages that are cheap to send and expensive to read: one kind of record over and over, as an adversary would fill
//! a payload.

use crate::streams::Frame;
use crate::wire::{key, put_varint, GROUP, GROUP_END, LENGTH, VARINT};

/// How deep futures and groups are nested in one another: the futures below the one that is awaited, the groups down to
/// the last level but one.
const FUTURES_DEEP: usize = 90;
const GROUPS_DEEP: usize = 98;

/// The length of a text that is replaced, in bytes.
const TEXT: usize = 16;

/// One kind of message, with a given number of elements.
pub struct Hostile {
    pub name: &'static str,
    /// The length of the chunks in which the stream comes (0: whole).
    pub chunk: usize,
    code: u16,
    payload: fn(usize) -> Vec<u8>,
}

pub static ALL: [Hostile; 13] = [
    // a Start whose state has entries without a key or a value
    Hostile::whole("state entries", 0x0000, |count| {
        records(count, &message(4, &[]))
    }),
    // a Suspension's completions, as one packed run and one by one
    Hostile::whole("packed numbers", 0x0001, |count| {
        message(4, &message(1, &vec![1; count]))
    }),
    Hostile::whole("single numbers", 0x0001, |count| {
        message(4, &records(count, &number(1, 1)))
    }),
    // its named signals, of no characters
    Hostile::whole("empty texts", 0x0001, |count| {
        message(4, &records(count, &message(3, &[])))
    }),
    Hostile::whole("futures side by side", 0x0001, |count| {
        message(4, &records(count, &message(4, &[])))
    }),
    Hostile::whole("futures ninety deep", 0x0001, |count| {
        let chain = nested(FUTURES_DEEP, |inner| message(4, inner));
        message(4, &records(count / FUTURES_DEEP, &chain))
    }),
    // groups of no field, in an End
    Hostile::whole("groups ninety-eight deep", 0x0003, |count| {
        let groups = nested(GROUPS_DEEP, |inner| group(15, inner));
        records(count / GROUPS_DEEP, &groups)
    }),
    // a notification whose result is nothing and a value of one byte in turn
    Hostile::whole("a result that changes", 0x8002, |count| {
        let value = message(5, &message(1, b"x"));
        let both = [message(4, &[]), value].concat();
        records(count / 2, &both)
    }),
    // a notification whose result is one failure, with its code each time, and with nothing
    Hostile::whole("a failure merged", 0x8011, |count| {
        records(count, &message(6, &number(1, 5)))
    }),
    Hostile::whole("an empty failure merged", 0x8011, |count| {
        records(count, &message(6, &[]))
    }),
    // an Error's message, and the scope of a Start, which is optional
    Hostile::whole("a text replaced", 0x0002, |count| {
        records(count, &message(2, &[b'x'; TEXT]))
    }),
    Hostile::whole("an optional text replaced", 0x0000, |count| {
        records(count, &message(10, &[b'x'; TEXT]))
    }),
    // an Input whose value comes byte by byte
    Hostile {
        chunk: 1,
        ..Hostile::whole("chunks of one byte", 0x0400, |count| {
            message(14, &message(1, &vec![b'x'; count]))
        })
    },
];

impl Hostile {
    const fn whole(name: &'static str, code: u16, payload: fn(usize) -> Vec<u8>) -> Hostile {
        Hostile {
            name,
            chunk: 0,
            code,
            payload,
        }
    }

    /// The message with this many elements. There are as many nested ones as make up complete nests, so up to 97 less.
    pub fn frame(&self, count: usize) -> Frame {
        Frame {
            code: self.code,
            payload: (self.payload)(count),
        }
    }
}

fn records(count: usize, record: &[u8]) -> Vec<u8> {
    record.repeat(count)
}

/// A record of a number.
fn number(field: u32, number: u64) -> Vec<u8> {
    let mut out = Vec::new();
    put_varint(key(field, VARINT), &mut out);
    put_varint(number, &mut out);
    out
}

/// A record of a message, a text or bytes.
fn message(field: u32, content: &[u8]) -> Vec<u8> {
    let mut out = Vec::new();
    put_varint(key(field, LENGTH), &mut out);
    put_varint(content.len() as u64, &mut out);
    out.extend_from_slice(content);
    out
}

/// A record of a group.
fn group(field: u32, content: &[u8]) -> Vec<u8> {
    let mut out = Vec::new();
    put_varint(key(field, GROUP), &mut out);
    out.extend_from_slice(content);
    put_varint(key(field, GROUP_END), &mut out);
    out
}

/// This many nested records; the innermost is empty.
fn nested(depth: usize, around: impl Fn(&[u8]) -> Vec<u8>) -> Vec<u8> {
    (0..depth).fold(Vec::new(), |inner, _| around(&inner))
}
