//! The listing of a stream, as one writes it in ordinary Rust over the baseline's decoder.

use std::io::{self, Read, Write};

use crate::peer::{Header, Item};
use crate::reading::Reading;
use crate::table::name_of;

/// Writes the lines that journal_list writes.
pub fn list(version: u32, input: impl Read, output: &mut impl Write) -> io::Result<()> {
    let mut stream = Reading::new(version, input);
    let mut lines = Vec::new();
    while stream.read_chunk()? {
        lines.clear();
        while let Some(item) = stream.next_item() {
            write_line(&item, &mut lines)?;
        }
        output.write_all(&lines)?;
    }
    writeln!(output, "rest {}", stream.pending())?;
    output.flush()
}

fn write_line(item: &Item, lines: &mut Vec<u8>) -> io::Result<()> {
    match item {
        Item::Message(header, _) => write_message(*header, lines),
        Item::Unknown(code) => writeln!(lines, "unknown 0x{code:x}"),
        Item::Skipped(code, payload) => writeln!(lines, "skipped 0x{code:x} {}", payload.len()),
    }
}

fn write_message(header: Header, lines: &mut Vec<u8>) -> io::Result<()> {
    let Header { code, length, .. } = header;
    let mark = if header.acknowledge { " ack" } else { "" };
    match name_of(code) {
        Some(name) => writeln!(lines, "{name} {length}{mark}"),
        None => writeln!(lines, "CustomEntry({code}) {length}{mark}"),
    }
}
