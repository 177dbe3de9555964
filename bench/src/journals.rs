//! Journals that are compared: long ones, and their comparison as one writes it in ordinary Rust over prost.

use std::io::{self, Read, Write};

use bytes::Bytes;
use prost::{DecodeError, Message};

use crate::peer::{is_command, Header, Item};
use crate::random::Random;
use crate::reading::Reading;
use crate::streams;
use crate::table::with_message;

/// Writes a journal of at least this many bytes, the same each time: what a handler did, again and again.
pub fn write(length: usize, output: &mut impl Write) -> io::Result<()> {
    let mut random = Random::new(2, 0);
    let mut written = 0;
    while written < length {
        let replayed = streams::stream(&streams::replay(&mut random));
        output.write_all(&replayed)?;
        written += replayed.len();
    }
    Ok(())
}

/// How two journals compare.
#[derive(Clone, Copy, Debug, PartialEq, Eq)]
pub enum Verdict {
    /// Both have the same number of commands, and each is the same as the other's at its index.
    Same(u64),
    /// They differ at this index, or one of them ends there.
    DifferAt(u64),
}

/// Why two journals have no verdict.
#[derive(Debug)]
pub enum Refusal {
    Read(io::Error),
    Malformed(DecodeError),
}

impl From<io::Error> for Refusal {
    fn from(error: io::Error) -> Refusal {
        Refusal::Read(error)
    }
}

impl From<DecodeError> for Refusal {
    fn from(error: DecodeError) -> Refusal {
        Refusal::Malformed(error)
    }
}

/// How the baseline compares two commands of one type.
#[derive(Clone, Copy, Debug, PartialEq, Eq)]
pub enum Order {
    /// Both are decoded, and the records compared by the derived `==`.
    Records,
    /// Their payloads are compared first. Only the first of two equal ones is decoded, to see that it is well-formed.
    BytesFirst,
}

/// Compares two journals of a version, command by command: their types, and then the commands, in this order.
pub fn compare(
    version: u32,
    order: Order,
    recorded: impl Read,
    replayed: impl Read,
) -> Result<Verdict, Refusal> {
    let mut recorded = Commands(Reading::new(version, recorded));
    let mut replayed = Commands(Reading::new(version, replayed));
    let mut index = 0;
    loop {
        let same = match (recorded.next_command()?, replayed.next_command()?) {
            (None, None) => return Ok(Verdict::Same(index)),
            (Some((actual, payload)), Some((expected, other))) => {
                actual.code == expected.code && are_same(order, actual.code, payload, other)?
            }
            _ => false,
        };
        if !same {
            return Ok(Verdict::DifferAt(index));
        }
        index += 1;
    }
}

/// Whether two payloads of a type mean the same.
fn are_same(order: Order, code: u16, actual: Bytes, expected: Bytes) -> Result<bool, DecodeError> {
    let equal_bytes = order == Order::BytesFirst && actual == expected;
    with_message!(
        code,
        Record => {
            let actual = Record::decode(actual)?;
            Ok(equal_bytes || actual == Record::decode(expected)?)
        },
        _ => Ok(true),
    )
}

/// The commands of a journal, one after the other.
struct Commands<R>(Reading<R>);

impl<R: Read> Commands<R> {
    fn next_command(&mut self) -> io::Result<Option<(Header, Bytes)>> {
        loop {
            while let Some(item) = self.0.next_item() {
                match item {
                    Item::Message(header, payload) if is_command(header.code) => {
                        return Ok(Some((header, payload)));
                    }
                    _ => {}
                }
            }
            if !self.0.read_chunk()? {
                return Ok(None);
            }
        }
    }
}
