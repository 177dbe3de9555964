//! A stream as JSON, one object per line, as one writes it in ordinary Rust over prost and serde_json.

use std::cell::RefCell;
use std::io::{self, Read, Write};

use base64::STANDARD;
use bytes::Bytes;
use prost::Message;
use serde::ser::{Serialize, SerializeMap, Serializer};

use crate::peer::{Header, Item, FUTURES, PROPOSE_RUN_COMPLETION, SUSPENSION};
use crate::reading::Reading;
use crate::records::SuspensionMessageV6;
use crate::table::{name_of, with_message};

/// Writes the lines that journal_dump writes.
pub fn dump(version: u32, input: impl Read, output: &mut impl Write) -> io::Result<()> {
    let mut stream = Reading::new(version, input);
    let mut lines = Vec::new();
    while stream.read_chunk()? {
        lines.clear();
        let mut offset = stream.offset();
        while let Some(item) = stream.next_item() {
            let line = Line {
                version,
                offset,
                word: stream.word(),
                item,
            };
            serde_json::to_writer(&mut lines, &line)?;
            lines.push(b'\n');
            offset = stream.offset();
        }
        output.write_all(&lines)?;
    }
    let rest = Rest {
        offset: stream.offset(),
        bytes: stream.pending_bytes(),
    };
    serde_json::to_writer(&mut *output, &rest)?;
    output.write_all(b"\n")?;
    output.flush()
}

/// The line of an item that begins at a place of the stream.
struct Line {
    version: u32,
    offset: u64,
    /// The word of its header.
    word: u64,
    item: Item,
}

impl Serialize for Line {
    fn serialize<S: Serializer>(&self, serializer: S) -> Result<S::Ok, S::Error> {
        let mut line = serializer.serialize_map(None)?;
        line.serialize_entry("offset", &self.offset)?;
        write_item(self, &mut line)?;
        line.end()
    }
}

/// The last line: the trailing bytes.
struct Rest {
    offset: u64,
    bytes: Vec<u8>,
}

impl Serialize for Rest {
    fn serialize<S: Serializer>(&self, serializer: S) -> Result<S::Ok, S::Error> {
        let mut line = serializer.serialize_map(None)?;
        line.serialize_entry("offset", &self.offset)?;
        line.serialize_entry("rest", &self.bytes.len())?;
        if !self.bytes.is_empty() {
            line.serialize_entry("bytes", &Base64(&self.bytes))?;
        }
        line.end()
    }
}

fn write_item<O: SerializeMap>(of: &Line, line: &mut O) -> Result<(), O::Error> {
    match &of.item {
        Item::Message(header, payload) => write_message(of, *header, payload, line),
        Item::Unknown(code) => {
            line.serialize_entry("unknown", &true)?;
            line.serialize_entry("code", code)?;
            write_header(of, line)
        }
        Item::Skipped(code, payload) => {
            line.serialize_entry("skipped", &true)?;
            line.serialize_entry("code", code)?;
            line.serialize_entry("length", &payload.len())?;
            write_header(of, line)?;
            line.serialize_entry("bytes", &Base64(payload))
        }
    }
}

/// Writes the bytes of a header that is not as one would write it.
fn write_header<O: SerializeMap>(of: &Line, line: &mut O) -> Result<(), O::Error> {
    if of.word == of.item.word() {
        return Ok(());
    }
    line.serialize_entry("header", &Base64(&of.word.to_be_bytes()))
}

fn write_message<O: SerializeMap>(
    of: &Line,
    header: Header,
    payload: &Bytes,
    line: &mut O,
) -> Result<(), O::Error> {
    let code = header.code;
    match name_of(code) {
        Some(name) => line.serialize_entry("type", name)?,
        None => line.serialize_entry("type", &format_args!("CustomEntry({code})"))?,
    }
    line.serialize_entry("code", &code)?;
    line.serialize_entry("length", &header.length)?;
    if code == PROPOSE_RUN_COMPLETION {
        line.serialize_entry("requestedAck", &header.acknowledge)?;
    }
    write_header(of, line)?;
    match code {
        SUSPENSION if of.version < FUTURES => write_record::<SuspensionMessageV6, O>(payload, line),
        _ => with_message!(
            code,
            Record => write_record::<Record, O>(payload, line),
            _ => line.serialize_entry("bytes", &Base64(payload)),
        ),
    }
}

/// Writes what a payload says, or the payload itself where it is malformed.
fn write_record<M: Message + Default + Serialize, O: SerializeMap>(
    payload: &Bytes,
    line: &mut O,
) -> Result<(), O::Error> {
    match M::decode(payload.clone()) {
        Ok(message) => line.serialize_entry("message", &message),
        Err(_) => {
            line.serialize_entry("malformed", &true)?;
            line.serialize_entry("bytes", &Base64(payload))
        }
    }
}

thread_local! {
    /// What bytes are in base64, before they are written: a text of its own for each of them, or in parts by a
    /// `Display`, takes longer.
    static ENCODED: RefCell<String> = const { RefCell::new(String::new()) };
}

/// Bytes, which JSON has in base64.
pub struct Base64<'a>(pub &'a [u8]);

impl Serialize for Base64<'_> {
    fn serialize<S: Serializer>(&self, serializer: S) -> Result<S::Ok, S::Error> {
        ENCODED.with(|encoded| {
            let mut encoded = encoded.borrow_mut();
            encoded.clear();
            base64::encode_config_buf(self.0, STANDARD, &mut encoded);
            serializer.serialize_str(&encoded)
        })
    }
}

/// Several such.
pub struct Base64List<'a>(pub &'a [Bytes]);

impl Serialize for Base64List<'_> {
    fn serialize<S: Serializer>(&self, serializer: S) -> Result<S::Ok, S::Error> {
        serializer.collect_seq(self.0.iter().map(|bytes| Base64(bytes)))
    }
}

/// A number of 64 bits, which JSON has as a text.
pub struct Quoted<'a>(pub &'a u64);

impl Serialize for Quoted<'_> {
    fn serialize<S: Serializer>(&self, serializer: S) -> Result<S::Ok, S::Error> {
        serializer.collect_str(self.0)
    }
}
