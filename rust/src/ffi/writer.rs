//! The table of a record that is encoded, and the bytes next to it.

use super::{Entry, Refusal, Result};
use super::{FIELD_BOOL, FIELD_BYTES, FIELD_ENUM, FIELD_MESSAGE, FIELD_STRING};
use super::{FIELD_UINT32, FIELD_UINT64};
use crate::ffi;

/// The table of a record, and the bytes that its entries are places in. After an allocation that failed entries are
/// missing. It has no public name, and only the methods of `Fields` take one.
#[derive(Debug, Default)]
pub struct Writer {
    entries: Vec<Entry>,
    bytes: Vec<u8>,
    is_short_of_memory: bool,
}

impl Writer {
    /// The entries; none is missing unless an allocation failed.
    pub(crate) fn entries(&self) -> &[Entry] {
        &self.entries
    }

    pub(crate) fn bytes_beside(&self) -> &[u8] {
        &self.bytes
    }

    /// Appends the payload that the table means for a schema; its length, or why there is none, as the library says it.
    pub(crate) fn payload(&self, schema: u32, out: &mut Vec<u8>) -> Result<(usize, [u64; 2])> {
        if self.is_short_of_memory {
            return Err(Refusal::OutOfMemory);
        }
        let mut writing = [0; 2];
        let length = ffi::payload_of_fields(schema, &self.entries, &self.bytes, &mut writing, out)?;
        Ok((length, writing))
    }

    fn push(&mut self, entry: Entry) {
        if self.entries.try_reserve(1).is_ok() {
            self.entries.push(entry);
        } else {
            self.is_short_of_memory = true;
        }
    }

    /// Appends an entry with bytes, which are copied next to the table.
    fn place(&mut self, level: u64, number: u64, kind: u64, value: &[u8]) {
        let offset = self.bytes.len();
        if self.bytes.try_reserve(value.len()).is_ok() {
            self.bytes.extend_from_slice(value);
        } else {
            self.is_short_of_memory = true;
        }
        self.push([level, number, kind, 0, offset as u64, value.len() as u64]);
    }

    pub(crate) fn number32(&mut self, level: u64, number: u64, value: u32) {
        self.push([level, number, FIELD_UINT32, value.into(), 0, 0]);
    }

    pub(crate) fn number64(&mut self, level: u64, number: u64, value: u64) {
        self.push([level, number, FIELD_UINT64, value, 0, 0]);
    }

    pub(crate) fn flag(&mut self, level: u64, number: u64, value: bool) {
        self.push([level, number, FIELD_BOOL, value.into(), 0, 0]);
    }

    // the same 64 bits, without a sign
    #[allow(clippy::cast_sign_loss)]
    pub(crate) fn signed(&mut self, level: u64, number: u64, value: i32) {
        self.push([level, number, FIELD_ENUM, i64::from(value) as u64, 0, 0]);
    }

    pub(crate) fn bytes(&mut self, level: u64, number: u64, value: &[u8]) {
        self.place(level, number, FIELD_BYTES, value);
    }

    pub(crate) fn text(&mut self, level: u64, number: u64, value: &str) {
        self.place(level, number, FIELD_STRING, value.as_bytes());
    }

    /// Appends the entry of a message, whose fields come after it.
    pub(crate) fn message(&mut self, level: u64, number: u64, schema: u32) {
        self.push([level, number, FIELD_MESSAGE, schema.into(), 0, 0]);
    }
}
