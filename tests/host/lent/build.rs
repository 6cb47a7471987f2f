//! What one build is lent: record, strings and room, in any order and at any alignment, with bytes
//! round them that are not lent, or none. The room shares no byte with the others, as C has to keep.

use crate::call::library::Build;
use crate::make::good_tables::{any_bytes, shuffle};
use crate::make::record::Given;
use crate::make::seeded::Seeded;
use std::ops::Range;

/// Bytes in front of the first range and behind the last.
const MARGIN: usize = 64;

pub struct LentBuild {
    store: Vec<u8>,
    before: Vec<u8>,
    record: Range<usize>,
    strings: Range<usize>,
    room: Range<usize>,
    stray_pointers: [usize; 3],
}

impl LentBuild {
    pub fn new(seeded: &mut Seeded, given: &Given, room_size: usize) -> LentBuild {
        let apart = if given.strings_are_the_record {
            &[]
        } else {
            given.strings()
        };
        let sizes = [given.record.len(), apart.len(), room_size];
        let mut order = [0, 1, 2];
        shuffle(seeded, &mut order);
        let mut starts = [0; 3];
        let mut end = MARGIN + seeded.between(0, 15);
        for range in order {
            starts[range] = end + seeded.one_of(&[0, 0, 1, 2, 5, 8, 33]);
            end = starts[range] + sizes[range];
        }
        let ranges = [0, 1, 2].map(|range| starts[range]..starts[range] + sizes[range]);
        let [record, mut strings, room] = ranges;
        let filler = seeded.one_of(&[0, 0xFF, 0xC3, b'a']);
        let mut store = vec![filler; end + MARGIN];
        store[record.clone()].copy_from_slice(&given.record);
        store[strings.clone()].copy_from_slice(apart);
        store[room.clone()].copy_from_slice(&any_room(seeded, room_size));
        if given.strings_are_the_record {
            strings = record.clone();
        }
        LentBuild {
            before: store.clone(),
            store,
            record,
            strings,
            room,
            stray_pointers: [0; 3].map(|_| seeded.one_of(&[0, 1, usize::MAX])),
        }
    }

    /// The lent ranges as they were made.
    pub fn record(&self) -> &[u8] {
        &self.before[self.record.clone()]
    }

    pub fn strings(&self) -> &[u8] {
        &self.before[self.strings.clone()]
    }

    pub fn room_size(&self) -> usize {
        self.room.len()
    }

    /// The room as it is.
    pub fn room(&self) -> &[u8] {
        &self.store[self.room.clone()]
    }

    /// Calls `build` on the three ranges. An empty one may have any pointer.
    pub fn built_by(&mut self, build: Build) -> u64 {
        let store = self.store.as_mut_ptr();
        let lend = |range: &Range<usize>, stray: usize| match range.len() {
            0 => (stray as *mut u8, 0),
            size => (store.wrapping_add(range.start), size),
        };
        let (record, record_size) = lend(&self.record, self.stray_pointers[0]);
        let (strings, strings_size) = lend(&self.strings, self.stray_pointers[1]);
        let (room, room_size) = lend(&self.room, self.stray_pointers[2]);
        unsafe { build(record, record_size, strings, strings_size, room, room_size) }
    }

    /// Does the room start with `table`, and is every other byte as it was: the rest of the room,
    /// the record, the strings, and what lies round them?
    pub fn holds_only(&self, table: &[u8]) -> bool {
        let end = self.room.start + table.len();
        self.store[..self.room.start] == self.before[..self.room.start]
            && self.store[self.room.start..end] == *table
            && self.store[end..] == self.before[end..]
    }

    /// The first byte that is not as `holds_only` has it, counted from the room's start.
    pub fn first_wrong_byte(&self, table: &[u8]) -> Option<isize> {
        let mut right = self.before.clone();
        right[self.room.start..self.room.start + table.len()].copy_from_slice(table);
        let differs = |at: &usize| self.store[*at] != right[*at];
        let found = (0..right.len()).find(differs)?;
        Some(found as isize - self.room.start as isize)
    }
}

/// What stood in the room before.
fn any_room(seeded: &mut Seeded, size: usize) -> Vec<u8> {
    if seeded.once_in(2) {
        vec![0xA5; size]
    } else {
        any_bytes(seeded, size)
    }
}
