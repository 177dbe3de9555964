//! The table of a payload's fields, which are read one by one.

use std::borrow::Cow;
use std::mem::MaybeUninit;
use std::{slice, str};

use super::{Refusal, Result, FIELD_STRING};
use crate::error::Error;
use crate::ffi;

/// An entry of the table of fields: its level, number, kind and value, and the offset and the length of its bytes.
pub(crate) type Entry = [u64; 6];

/// How many entries there is room for without an allocation.
const ENTRIES: usize = 64;

/// Room for a table, which nothing sets before the library writes it.
pub(crate) struct Room {
    first: [MaybeUninit<Entry>; ENTRIES],
    more: Vec<Entry>,
}

impl Room {
    #[inline]
    pub(crate) fn new() -> Room {
        Room {
            first: [MaybeUninit::uninit(); ENTRIES],
            more: Vec::new(),
        }
    }

    /// The table of a payload for a schema. What is read from it is borrowed from the payload.
    #[inline]
    pub(crate) fn table<'a: 't, 't>(
        &'t mut self,
        schema: u32,
        payload: &'a [u8],
    ) -> Result<Table<'a, 't>> {
        Ok(Table {
            entries: self.entries(schema, payload)?.iter(),
            borrowed: payload,
            payload,
            error: None,
        })
    }

    /// The same, where what is read from it is copied.
    pub(crate) fn copied<'a, 't>(
        &'t mut self,
        schema: u32,
        payload: &'t [u8],
    ) -> Result<Table<'a, 't>> {
        Ok(Table {
            entries: self.entries(schema, payload)?.iter(),
            borrowed: &[],
            payload,
            error: None,
        })
    }

    /// The entries of a payload. The call is made once if there is room for them, and otherwise again with as much as
    /// it returned.
    #[inline]
    fn entries(&mut self, schema: u32, payload: &[u8]) -> Result<&[Entry]> {
        let count = ffi::fields(schema, payload, &mut self.first)?;
        if count > ENTRIES {
            return self.more_entries(schema, payload, count);
        }
        let first = self.first.as_ptr().cast();
        // SAFETY: the call has written as many entries as it returned, since there is room for them
        Ok(unsafe { slice::from_raw_parts(first, count) })
    }

    /// The entries of a payload that has this many.
    #[cold]
    fn more_entries(&mut self, schema: u32, payload: &[u8], count: usize) -> Result<&[Entry]> {
        self.more.clear();
        self.more
            .try_reserve_exact(count)
            .map_err(|_| Refusal::OutOfMemory)?;
        let room = self.more.spare_capacity_mut();
        let written = ffi::fields(schema, payload, room)?.min(room.len());
        // SAFETY: the call has written as many entries as it returned, as far as there is room for them
        unsafe { self.more.set_len(written) };
        Ok(&self.more)
    }
}

/// The entries of a payload that are not read yet: after an error none. It has no public name, and only the methods of
/// `Fields` take one.
#[derive(Debug)]
pub struct Table<'a, 't> {
    entries: slice::Iter<'t, Entry>,
    /// The payload, if what is read may borrow from it.
    borrowed: &'a [u8],
    payload: &'t [u8],
    error: Option<Error>,
}

impl<'a, 't> Table<'a, 't> {
    /// Takes the next entry, if it is of a level.
    #[inline]
    pub(crate) fn next(&mut self, level: u64) -> Option<Field<'t>> {
        let mut rest = self.entries.clone();
        let entry = rest.next().filter(|entry| entry[0] == level)?;
        self.entries = rest;
        Some(Field { entry })
    }

    /// Leaves all entries behind, for an error.
    #[cold]
    pub(crate) fn fail(&mut self, error: Error) {
        self.entries = [].iter();
        self.error.get_or_insert(error);
    }

    /// The first error.
    #[inline]
    pub(crate) fn into_error(self) -> Option<Error> {
        self.error
    }

    #[inline]
    pub(crate) fn number32(&mut self, field: Field<'t>) -> u32 {
        u32::try_from(field.value()).unwrap_or_else(|_| {
            self.fail(Error::unexpected("a number", field.value()));
            0
        })
    }

    /// The number of an enum.
    // the same 64 bits, with a sign
    #[allow(clippy::cast_possible_wrap)]
    #[inline]
    pub(crate) fn signed(&mut self, field: Field<'t>) -> i32 {
        i32::try_from(field.value() as i64).unwrap_or_else(|_| {
            self.fail(Error::unexpected("a number of an enum", field.value()));
            0
        })
    }

    #[inline]
    pub(crate) fn bytes(&mut self, field: Field<'t>) -> Cow<'a, [u8]> {
        match field.part(self.borrowed) {
            Some(part) => Cow::Borrowed(part),
            None => Cow::Owned(self.copy(field)),
        }
    }

    #[inline]
    pub(crate) fn text(&mut self, field: Field<'t>) -> Cow<'a, str> {
        match (field.part(self.borrowed), field.entry[2]) {
            (Some(part), FIELD_STRING) => {
                // SAFETY: the library has checked that the bytes of an entry of this kind are UTF-8
                Cow::Borrowed(unsafe { str::from_utf8_unchecked(part) })
            }
            _ => Cow::Owned(self.copied_text(field)),
        }
    }

    /// Appends an element that is empty. There is none if an allocation failed.
    #[inline]
    pub(crate) fn append<'e, T: Default>(&mut self, elements: &'e mut Vec<T>) -> Option<&'e mut T> {
        if elements.try_reserve(1).is_err() {
            self.fail(Error::OutOfMemory);
            return None;
        }
        elements.push(T::default());
        elements.last_mut()
    }

    /// A copy of the bytes of an entry.
    #[cold]
    fn copy(&mut self, field: Field<'t>) -> Vec<u8> {
        let mut copy = Vec::new();
        match field.part(self.payload) {
            None => self.fail(Error::unexpected("an offset", field.entry[4])),
            Some(part) if copy.try_reserve_exact(part.len()).is_err() => {
                self.fail(Error::OutOfMemory);
            }
            Some(part) => copy.extend_from_slice(part),
        }
        copy
    }

    #[cold]
    fn copied_text(&mut self, field: Field<'t>) -> String {
        let what = "a text that is not UTF-8, of field";
        String::from_utf8(self.copy(field)).unwrap_or_else(|_| {
            self.fail(Error::unexpected(what, field.number()));
            String::new()
        })
    }
}

/// An entry that the library has written.
#[derive(Clone, Copy, Debug)]
pub struct Field<'t> {
    entry: &'t Entry,
}

impl Field<'_> {
    #[inline]
    pub(crate) fn number(self) -> u64 {
        self.entry[1]
    }

    #[inline]
    pub(crate) fn value(self) -> u64 {
        self.entry[3]
    }

    /// The part of a payload that it says.
    #[inline]
    fn part(self, payload: &[u8]) -> Option<&[u8]> {
        let begin = usize::try_from(self.entry[4]).ok()?;
        let length = usize::try_from(self.entry[5]).ok()?;
        payload.get(begin..)?.get(..length)
    }
}
