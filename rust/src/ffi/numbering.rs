//! The tables of numberings.

use std::mem::MaybeUninit;

use super::{Refusal, Result};
use crate::ffi;

/// A field of a table: its schema and its group, its number where payloads are read and where they are written, and
/// the schema of its messages.
pub(crate) type Renumbering = [u64; 5];

/// How many entries there is room for at first: the protocol has fewer fields.
const ENTRIES: usize = 256;

/// The table of a direction.
pub(crate) fn renumberings(direction: u64, set: &[u8], renames: &[u8]) -> Result<Vec<Renumbering>> {
    let direction = u32::try_from(direction).unwrap_or(u32::MAX);
    // SAFETY: the call writes as many entries as it returns, as far as there is room for them
    unsafe { table(|room| ffi::numbering(direction, set, renames, room)) }
}

/// The table that a call writes. It is made once if there is room for its entries, and otherwise again with as much as
/// it returned.
///
/// # Safety
///
/// The call has written as many entries as it returned, if there was room for them.
unsafe fn table(
    call: impl FnMut(&mut [MaybeUninit<Renumbering>]) -> Result<usize>,
) -> Result<Vec<Renumbering>> {
    let mut call = call;
    let mut table = Vec::new();
    let mut needed = ENTRIES;
    loop {
        table
            .try_reserve_exact(needed)
            .map_err(|_| Refusal::OutOfMemory)?;
        let room = table.spare_capacity_mut();
        let count = room.len();
        needed = call(room)?;
        if needed <= count {
            // SAFETY: the call has written this number of entries, as the caller of this promises
            unsafe { table.set_len(needed) };
            return Ok(table);
        }
    }
}

#[cfg(test)]
mod tests {
    use super::*;

    #[test]
    fn a_call_is_made_again_with_enough_room() {
        for count in [0, 1, ENTRIES, ENTRIES + 1, 10 * ENTRIES] {
            let mut calls = 0;
            // SAFETY: it writes as many entries as it returns, if there is room for them
            let found = unsafe {
                table(|room| {
                    calls += 1;
                    for entry in room.iter_mut().take(count) {
                        entry.write([7; 5]);
                    }
                    Ok(count)
                })
            };
            assert_eq!(found, Ok(vec![[7; 5]; count]));
            assert_eq!(calls, if count > ENTRIES { 2 } else { 1 });
        }
        // SAFETY: it writes nothing
        let found = unsafe { table(|_| Ok(usize::MAX)) };
        assert_eq!(found, Err(Refusal::OutOfMemory));
    }
}
