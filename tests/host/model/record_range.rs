//! The range of bytes that gives a record from C, as docs/C-INTERFACE.md lays it out: 419 bytes for the
//! named structures. It may end there and gives no extra structure then; else the numbers of extra NICs
//! and of extra targets follow, then each extra's image with the marks of its strings behind it.

use crate::model::layout::*;
use std::ops::Range;

/// Where the record range has its parts. Presence marks are 0 or 1.
pub const BASE_SIZE: usize = 419;
pub const GIVEN_OEM_ID: Range<usize> = 0..6;
pub const GIVEN_OEM_TABLE_ID: Range<usize> = 6..14;
pub const GIVEN_CONTROL_FLAGS: usize = 14;
pub const SLOT_MARKS: Range<usize> = 15..20;
pub const ENTRY_MARKS: Range<usize> = 20..33;

/// Where the image of each named structure starts.
pub const IMAGES: [u64; 5] = [33, 107, 209, 263, 365];

/// Where the number of extra NICs stands and that of extra targets, and where the first extra's image.
pub const EXTRA_NICS: usize = 419;
pub const EXTRA_TARGETS: usize = 420;
pub const EXTRAS: usize = 421;

/// An extra's image, and a mark for each of its strings.
pub fn extra_size(kind: &Kind) -> usize {
    kind.length as usize + kind.texts.len()
}

/// How many extra NICs and extra targets a range gives.
pub fn extras_given(record: &[u8]) -> (usize, usize) {
    let count = |at: usize| record.get(at).map_or(0, |count| usize::from(*count));
    (count(EXTRA_NICS), count(EXTRA_TARGETS))
}

/// The size of a range with so many extras.
pub fn range_size(nics: usize, targets: usize) -> usize {
    EXTRAS + nics * extra_size(&NIC) + targets * extra_size(&TARGET)
}

/// Has the range one of the sizes that it may have? One of 419 bytes says nothing of extras.
pub fn has_right_size(record: &[u8]) -> bool {
    let (nics, targets) = extras_given(record);
    record.len() == BASE_SIZE || record.len() == range_size(nics, targets)
}

/// What a range of the right size gives for a slot: the kind, where the image starts and where the first
/// of its strings' marks stands, and whether the structure is present.
#[derive(Clone, Copy)]
pub struct GivenSlot {
    pub kind: Kind,
    pub image: u64,
    pub marks: usize,
    pub is_present: bool,
}

/// By slot: the five that are named, then the extra NICs, then the extra targets, as they are given. One
/// too many is listed too.
pub fn slots_given(record: &[u8]) -> Vec<GivenSlot> {
    let mut slots = Vec::new();
    let mut marks = ENTRY_MARKS.start;
    for (slot, Slot { kind, .. }) in SLOTS.iter().enumerate() {
        slots.push(GivenSlot {
            kind: *kind,
            image: IMAGES[slot],
            marks,
            is_present: record[SLOT_MARKS][slot] == 1,
        });
        marks += kind.texts.len();
    }
    let (nics, targets) = extras_given(record);
    let mut image = EXTRAS;
    for (kind, count) in [(NIC, nics), (TARGET, targets)] {
        for _ in 0..count {
            slots.push(GivenSlot {
                kind,
                image: image as u64,
                marks: image + kind.length as usize,
                is_present: true,
            });
            image += extra_size(&kind);
        }
    }
    slots
}

/// The Index that a slot's structure is given: that of a named one is settled.
pub fn index_given(record: &[u8], slots: &[GivenSlot], slot: usize) -> u64 {
    match SLOTS.get(slot) {
        Some(named) => named.index,
        None => byte(record, slots[slot].image + INDEX_AT),
    }
}

/// What a range gives for an entry: its slot, where its mark and its two words stand (its length, then its
/// start in the strings range), what the string may be, and whether it is part of the record. What is
/// marked in an absent structure is not.
#[derive(Clone, Copy)]
pub struct GivenEntry {
    pub slot: usize,
    pub mark: usize,
    pub words: u64,
    pub text: StringField,
    pub is_present: bool,
}

/// By entry, in the order of the slots.
pub fn entries_given(record: &[u8]) -> Vec<GivenEntry> {
    let mut entries = Vec::new();
    for (slot, given) in slots_given(record).iter().enumerate() {
        for (i, text) in given.kind.texts.iter().enumerate() {
            let mark = given.marks + i;
            entries.push(GivenEntry {
                slot,
                mark,
                words: given.image + text.at,
                text: *text,
                is_present: given.is_present && record[mark] == 1,
            });
        }
    }
    entries
}

/// The length of an entry, and its start in the strings range.
pub fn given_words(record: &[u8], entry: &GivenEntry) -> (u64, u64) {
    (word(record, entry.words), word(record, entry.words + 2))
}

// ---- Of a table ----

/// The range that gives the record of a table that the check accepts. Each structure's image is the structure
/// as it stands; so its strings are given by where they stand in the table, and the table is the range of
/// strings.
pub fn range_of(table: &[u8]) -> Vec<u8> {
    let slots = slots(table);
    let count = |kind: Kind| {
        let extras = slots[SLOTS.len()..].iter();
        extras.filter(|found| found.kind == kind).count()
    };
    let (nics, targets) = (count(NIC), count(TARGET));
    let mut range = vec![0; range_size(nics, targets)];
    range[GIVEN_OEM_ID].copy_from_slice(&table[OEM_ID]);
    range[GIVEN_OEM_TABLE_ID].copy_from_slice(&table[OEM_TABLE_ID]);
    range[GIVEN_CONTROL_FLAGS] = byte(table, CONTROL_START + FLAGS_AT) as u8;
    range[EXTRA_NICS] = nics as u8;
    range[EXTRA_TARGETS] = targets as u8;
    let given = slots_given(&range);
    for (slot, found) in slots.iter().enumerate() {
        let start = match found.start {
            Some(start) => start as usize,
            None => continue,
        };
        if slot < SLOTS.len() {
            range[SLOT_MARKS][slot] = 1;
        }
        let size = found.kind.length as usize;
        range[given[slot].image as usize..][..size].copy_from_slice(&table[start..start + size]);
        for (i, text) in found.kind.texts.iter().enumerate() {
            let is_missing = number(table, start as u64 + text.at, 4) == 0;
            range[given[slot].marks + i] = u8::from(!is_missing);
        }
    }
    range
}
