//! The items of a stream, which are found many at once and taken one by one.

use std::fmt;
use std::mem::MaybeUninit;

use super::Result;
use crate::ffi;

/// The numbers of an item: its kind, its first eight bytes, its code, whether it requests an acknowledgement, its size,
/// and where its payload begins.
pub(crate) type ItemNumbers = [u64; 6];

/// How many items are looked for at once: a call for many costs less than one for each.
const ITEMS: usize = 32;

/// The items that bytes begin with, as far as they were found. Nothing sets the room before the library writes it.
#[derive(Clone)]
pub(crate) struct Found {
    room: [MaybeUninit<ItemNumbers>; ITEMS],
    /// How many of the room the library has written.
    count: usize,
    /// How many of these were taken.
    taken: usize,
}

impl Found {
    pub(crate) fn new() -> Found {
        // by `[MaybeUninit::uninit(); ITEMS]` the compiler clears it
        let room = MaybeUninit::<[MaybeUninit<ItemNumbers>; ITEMS]>::uninit();
        Found {
            // SAFETY: nothing in it needs to be set
            room: unsafe { room.assume_init() },
            count: 0,
            taken: 0,
        }
    }

    /// These, as if the library had written them.
    #[cfg(test)]
    pub(crate) fn of(numbers: &[ItemNumbers]) -> Found {
        let mut found = Found::new();
        for (room, numbers) in found.room.iter_mut().zip(numbers) {
            room.write(*numbers);
            found.count += 1;
        }
        found
    }

    /// Looks for the items that bytes begin with, after all that were found were taken. There are none if no whole one
    /// is there; `Refusal::TooLong` if the payload of the first one has more than `limit` bytes.
    pub(crate) fn look(&mut self, version: u32, limit: u32, bytes: &[u8]) -> Result<()> {
        self.count = 0;
        self.taken = 0;
        // the call writes as many as it returns
        self.count = ffi::items(version, limit, bytes, &mut self.room)?.min(ITEMS);
        Ok(())
    }

    /// The next one that is not taken.
    #[inline]
    pub(crate) fn first(&self) -> Option<&ItemNumbers> {
        if self.taken >= self.count {
            return None;
        }
        // SAFETY: the library has written as many as `count`, which are at most the room
        Some(unsafe { self.room.get_unchecked(self.taken).assume_init_ref() })
    }

    /// Takes the next one.
    #[inline]
    pub(crate) fn take(&mut self) {
        self.taken += 1;
    }

    /// Puts back the one that was taken last, after which nothing was looked for.
    pub(crate) fn put_back(&mut self) {
        self.taken = self.taken.saturating_sub(1);
    }
}

impl fmt::Debug for Found {
    fn fmt(&self, f: &mut fmt::Formatter<'_>) -> fmt::Result {
        f.write_str("..")
    }
}
