//! Records for the tests, laid as C gives them to a build. Nothing here keeps a caller from giving
//! what is refused; that is what damage is made of. Structures are known by the number of their slot,
//! strings by that of their entry.

use crate::make::table::{dots_between, ALL_SLOTS};
use crate::model::layout::*;
use crate::model::record_range::*;

/// What a build is given beside the room.
#[derive(Clone)]
pub struct Given {
    pub record: Vec<u8>,
    strings: Vec<u8>,
    /// Are the strings lent from the record's own bytes? Both are only read, so they may be.
    pub strings_are_the_record: bool,
    /// The size of the room, where it is to be this one.
    pub room_size: Option<usize>,
}

impl Given {
    /// Nothing present. The record's other bytes are those of `filler`.
    pub fn new(filler: &[u8]) -> Given {
        let mut record = filler[..BASE_SIZE].to_vec();
        record[..IMAGES[0] as usize].fill(0);
        Given {
            record,
            strings: Vec::new(),
            strings_are_the_record: false,
            room_size: None,
        }
    }

    /// The same with so many extras, none of them with a string. The filler has as many bytes as that
    /// takes; what is given for Index, flags and CHAP type is still to be set.
    pub fn with_extras(filler: &[u8], nics: usize, targets: usize) -> Given {
        let mut given = Given::new(filler);
        given.record = filler[..range_size(nics, targets)].to_vec();
        given.record[..IMAGES[0] as usize].fill(0);
        given.record[EXTRA_NICS] = nics as u8;
        given.record[EXTRA_TARGETS] = targets as u8;
        for entry in entries_given(&given.record) {
            given.record[entry.mark] = 0;
        }
        given
    }

    /// The slots and the entries as the range gives them.
    pub fn slots(&self) -> Vec<GivenSlot> {
        slots_given(&self.record)
    }

    pub fn entries(&self) -> Vec<GivenEntry> {
        entries_given(&self.record)
    }

    /// The slots of extras.
    pub fn extra_slots(&self) -> Vec<usize> {
        (SLOTS.len()..self.slots().len()).collect()
    }

    pub fn into_room(mut self, size: usize) -> Given {
        self.room_size = Some(size);
        self
    }

    pub fn strings(&self) -> &[u8] {
        if self.strings_are_the_record {
            &self.record
        } else {
            &self.strings
        }
    }

    pub fn strings_mut(&mut self) -> &mut Vec<u8> {
        if self.strings_are_the_record {
            &mut self.record
        } else {
            &mut self.strings
        }
    }

    // ---- Structures ----

    pub fn mark_slot(&mut self, slot: usize, mark: u8) {
        self.record[SLOT_MARKS.start + slot] = mark;
    }

    pub fn has_slot(&self, slot: usize) -> bool {
        self.slots()[slot].is_present
    }

    pub fn set_control_flags(&mut self, flags: u8) {
        self.record[GIVEN_CONTROL_FLAGS] = flags;
    }

    /// Sets a byte of a slot's image.
    pub fn set(&mut self, slot: usize, at: u64, byte: u8) {
        let image = self.slots()[slot].image;
        self.record[(image + at) as usize] = byte;
    }

    pub fn set_index(&mut self, slot: usize, index: u8) {
        self.set(slot, INDEX_AT, index);
    }

    pub fn set_flags(&mut self, slot: usize, flags: u8) {
        self.set(slot, FLAGS_AT, flags);
    }

    // ---- Strings ----

    pub fn mark_entry(&mut self, entry: usize, mark: u8) {
        let at = self.entries()[entry].mark;
        self.record[at] = mark;
    }

    /// The entries that are part of the record.
    pub fn present_entries(&self) -> Vec<usize> {
        let entries = self.entries();
        (0..entries.len())
            .filter(|entry| entries[*entry].is_present)
            .collect()
    }

    /// The entries whose structure is present.
    pub fn owned_entries(&self) -> Vec<usize> {
        let (slots, entries) = (self.slots(), self.entries());
        (0..entries.len())
            .filter(|entry| slots[entries[*entry].slot].is_present)
            .collect()
    }

    /// Sets the two words of an entry.
    pub fn point(&mut self, entry: usize, start: usize, length: usize) {
        let at = self.entries()[entry].words as usize;
        self.record[at..at + 2].copy_from_slice(&(length as u16).to_le_bytes());
        self.record[at + 2..at + 4].copy_from_slice(&(start as u16).to_le_bytes());
    }

    /// An entry's length, and its start in the strings.
    pub fn words(&self, entry: usize) -> (usize, usize) {
        let (length, start) = given_words(&self.record, &self.entries()[entry]);
        (length as usize, start as usize)
    }

    /// Adds the bytes at the end of the strings, and gives the entry these.
    pub fn give(&mut self, entry: usize, text: &[u8]) {
        let start = self.strings.len();
        self.strings.extend_from_slice(text);
        self.mark_entry(entry, 1);
        self.point(entry, start, text.len());
    }
}

// ---- Records that the tests know by name ----

/// Structures and strings, every flag and field zero.
pub fn record_with(slots: &[usize], texts: &[(usize, &[u8])]) -> Given {
    record_with_extras(slots, &[], &[], texts)
}

/// The same, and extra NICs and targets with these Index values; the range has 419 bytes without any.
pub fn record_with_extras(
    slots: &[usize],
    nics: &[u8],
    targets: &[u8],
    texts: &[(usize, &[u8])],
) -> Given {
    let filler = vec![0; range_size(nics.len(), targets.len())];
    let mut given = match nics.len() + targets.len() {
        0 => Given::new(&filler),
        _ => Given::with_extras(&filler, nics.len(), targets.len()),
    };
    for slot in slots {
        given.mark_slot(*slot, 1);
    }
    for (i, index) in nics.iter().chain(targets).enumerate() {
        given.set_index(SLOTS.len() + i, *index);
    }
    for (entry, text) in texts {
        given.give(*entry, text);
    }
    given
}

/// Six Index values, sparse up to the greatest.
pub const SIX: [u8; 6] = [2, 5, 9, 100, 254, 255];

/// Case 5 of RULES.md: Target 0 alone, CHAP name `depot7`, and its last byte as reverse name.
pub fn case_5() -> Given {
    let mut given = record_with(&[2], &[(3, b"depot7"), (5, b"7")]);
    given.set_flags(2, VALID as u8);
    given
}

/// A common record: initiator, NIC 0 and Target 0, with four strings, one the tail of another. Its
/// table has 414 bytes.
pub fn common_record() -> Given {
    let texts: [(usize, &[u8]); 4] = [
        (0, b"iqn.2026-11.example.depot:cabinet-0417"),
        (1, b"cabinet-0417.depot.example"),
        (2, b"iqn.2026-11.example.depot:volume-0417"),
        (3, b"cabinet-0417"),
    ];
    let mut given = record_with(&[0, 1, 2], &texts);
    for slot in [0, 1, 2] {
        given.set_flags(slot, (VALID | SELECTED) as u8);
    }
    given
}

/// Each string as long as it may be and a host name with a dot at every other byte, and all of them equal
/// from the back but for one byte, at the even place that is named for the longest size. None is a tail.
fn alike(mut given: Given, differs_at: impl Fn(usize) -> usize) -> Given {
    for (i, entry) in given.entries().iter().enumerate() {
        let longest = entry.text.longest as usize;
        let mut text = dots_between((longest + 1) / 2, b'a');
        text[differs_at(longest)] = if i < 25 {
            b'b' + i as u8
        } else {
            b'A' + (i - 25) as u8
        };
        given.give(i, &text);
    }
    given
}

/// Thirteen such strings. The table has 3,702 bytes, the most there is without extras.
fn alike_record(differs_at: impl Fn(usize) -> usize) -> Given {
    alike(record_with(&ALL_SLOTS, &[]), differs_at)
}

/// Six extra NICs and six extra targets, and 49 such strings, the first byte of each another: the table
/// has 13,710 bytes, the most there is.
pub fn worst_record_with_extras() -> Given {
    alike(record_with_extras(&ALL_SLOTS, &SIX, &SIX, &[]), |_| 0)
}

/// A record of the common one's kind with so many targets, two to eight, and as many NICs: of each NIC a
/// host name and of each target its name and CHAP name, one the tail of another.
pub fn record_with_targets(targets: usize) -> Given {
    let extras = &SIX[..targets - 2];
    let mut given = record_with_extras(&ALL_SLOTS, extras, extras, &[]);
    for (number, entry) in given.entries().iter().enumerate() {
        let own = format!("{:02}.depot.example", number);
        let text = match (entry.text.is_host_name, entry.text.at) {
            (true, _) => format!("cabinet-{}", own),
            (false, 34 | 70) => format!("iqn.2026-11.example.depot:volume-{}", own),
            (false, 38) => format!("volume-{:02}.depot.example", number - 1),
            _ => continue,
        };
        given.give(number, text.as_bytes());
    }
    for slot in 0..given.slots().len() {
        given.set_flags(slot, VALID as u8);
    }
    given
}

/// The worst record for who compares from the back: the first byte differs, and all others have to be
/// gone through before it.
pub fn worst_record() -> Given {
    alike_record(|_| 0)
}

/// The byte in the middle differs: one that compares from the front has as far to go as one that
/// compares from the back.
pub fn middle_record() -> Given {
    alike_record(|longest| longest / 4 * 2)
}

/// All five structures, and each of the thirteen strings with bytes of its own, but for the tail
/// that Target 1's CHAP name is of Target 0's.
pub fn full_record() -> Given {
    let texts: [(usize, &[u8]); 13] = [
        (0, b"iqn.i"),
        (1, b"ab.c-d"),
        (2, b"iqn.t0"),
        (3, b"name0"),
        (4, b"secret0"),
        (5, b"back0"),
        (6, b"hush0"),
        (7, b"e."),
        (8, b"iqn.t1"),
        (9, b"me0"),
        (10, b"secret1"),
        (11, b"back1"),
        (12, b"hush1"),
    ];
    let mut given = record_with(&ALL_SLOTS, &texts);
    for (slot, flags) in [(0, 3), (1, 7), (2, 1), (3, 1), (4, 3)] {
        given.set_flags(slot, flags);
    }
    given.set_control_flags(SINGLE_LOGIN as u8);
    given
}
