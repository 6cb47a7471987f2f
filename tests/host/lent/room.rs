//! The room that is lent for a rebuild, at any alignment, with bytes on both sides that are not lent.

use crate::make::good_tables::any_bytes;
use crate::make::seeded::Seeded;
use std::ops::Range;

/// Bytes in front of the room and behind it.
const MARGIN: usize = 64;

pub struct LentRoom {
    store: Vec<u8>,
    before: Vec<u8>,
    room: Range<usize>,
    stray_pointer: usize,
}

impl LentRoom {
    pub fn new(seeded: &mut Seeded, size: usize) -> LentRoom {
        let start = MARGIN + seeded.between(0, 15);
        let room = start..start + size;
        let mut store = match seeded.between(0, 3) {
            0 => any_bytes(seeded, room.end + MARGIN),
            _ => vec![0xA5; room.end + MARGIN],
        };
        // The guards differ from what a table may end with, zero.
        store[..start].fill(0xC3);
        store[room.end..].fill(0xC3);
        LentRoom {
            before: store.clone(),
            store,
            room,
            stray_pointer: seeded.one_of(&[0, 1, usize::MAX]),
        }
    }

    pub fn size(&self) -> usize {
        self.room.len()
    }

    /// The room as it is.
    pub fn bytes(&self) -> &[u8] {
        &self.store[self.room.clone()]
    }

    /// What a call gets: the room's first byte, and how many there are. Without any, the pointer may be
    /// anything.
    pub fn lend(&mut self) -> (*mut u8, usize) {
        match self.room.len() {
            0 => (self.stray_pointer as *mut u8, 0),
            size => (self.store[self.room.start..].as_mut_ptr(), size),
        }
    }

    /// Does the room start with `table`, and is every other byte as it was, of the room and beside it?
    pub fn holds_only(&self, table: &[u8]) -> bool {
        self.first_wrong_byte(table).is_none()
    }

    /// The first byte that is not as `holds_only` has it, counted from the room's start.
    pub fn first_wrong_byte(&self, table: &[u8]) -> Option<isize> {
        let start = self.room.start;
        let end = start + table.len();
        if self.store[..start] == self.before[..start]
            && self.store[start..end] == *table
            && self.store[end..] == self.before[end..]
        {
            return None;
        }
        let mut right = self.before.clone();
        right[start..end].copy_from_slice(table);
        let differs = |at: &usize| self.store[*at] != right[*at];
        let found = (0..right.len()).find(differs)?;
        Some(found as isize - start as isize)
    }
}
