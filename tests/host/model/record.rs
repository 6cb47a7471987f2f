//! What makes up a record: RULES.md, Record, read a second time from the two ranges that a
//! build is lent, and from a table. Equal records are equal in all that counts.

use crate::model::check::Refusal;
use crate::model::layout::*;
use crate::model::readings::accepted;
use crate::model::record_range::*;
use std::ops::Range;

#[derive(Clone, Debug, PartialEq)]
pub struct Record {
    pub oem_id: Vec<u8>,
    pub oem_table_id: Vec<u8>,
    pub control_flags: u64,
    /// Kind and Index of each extra structure, in the order of the slots from 5 on.
    pub extras: Vec<Extra>,
    /// By slot: none where it is absent, else the structure's bytes from its flags up to the first
    /// word of a string. compare/readings.rs shows that flags and fields are these bytes.
    pub structures: Vec<Option<Vec<u8>>>,
    /// By entry: none where it is missing or its structure absent, else the string.
    pub entries: Vec<Option<Vec<u8>>>,
}

#[derive(Clone, Copy, Debug, PartialEq)]
pub struct Extra {
    pub kind: Kind,
    pub index: u64,
}

impl Record {
    /// By slot, the kind of structure that stands there.
    pub fn kinds(&self) -> Vec<Kind> {
        let named = SLOTS.iter().map(|slot| slot.kind);
        named
            .chain(self.extras.iter().map(|extra| extra.kind))
            .collect()
    }

    /// By entry, whether it is a secret.
    pub fn secrets(&self) -> Vec<bool> {
        let entries = entries_of(&self.kinds());
        entries.iter().map(|entry| entry.is_secret).collect()
    }

    /// The Index of a slot's structure.
    pub fn index(&self, slot: usize) -> u64 {
        match SLOTS.get(slot) {
            Some(named) => named.index,
            None => self.extras[slot - SLOTS.len()].index,
        }
    }
}

/// Where a kind of structure has its flags and fields.
pub fn fields(kind: &Kind) -> Range<usize> {
    let first_string = kind.texts.iter().map(|text| text.at).min().unwrap();
    FLAGS_AT as usize..first_string as usize
}

// ---- From the lent ranges ----

/// The record of ranges that are not refused.
pub fn record_given(record: &[u8], strings: &[u8]) -> Record {
    let slots = slots_given(record);
    let structure = |slot: &GivenSlot| {
        let image = &record[slot.image as usize..];
        slot.is_present.then(|| image[fields(&slot.kind)].to_vec())
    };
    let entry = |entry: &GivenEntry| {
        let (length, start) = given_words(record, entry);
        let text = || strings[start as usize..(start + length) as usize].to_vec();
        entry.is_present.then(text)
    };
    let extra = |slot: usize| Extra {
        kind: slots[slot].kind,
        index: index_given(record, &slots, slot),
    };
    Record {
        oem_id: record[GIVEN_OEM_ID].to_vec(),
        oem_table_id: record[GIVEN_OEM_TABLE_ID].to_vec(),
        control_flags: u64::from(record[GIVEN_CONTROL_FLAGS]),
        extras: (SLOTS.len()..slots.len()).map(extra).collect(),
        structures: slots.iter().map(structure).collect(),
        entries: entries_given(record).iter().map(entry).collect(),
    }
}

// ---- From a table ----

/// The record that a table reads as; none where the check refuses it.
pub fn record_read(table: &[u8]) -> Option<Record> {
    record_checked(table).ok()
}

/// The same, or the check's refusal.
pub fn record_checked(table: &[u8]) -> Result<Record, Refusal> {
    let accepted = accepted(table)?;
    let header = accepted.header()?;
    let extra = |found: &Found| Extra {
        kind: found.kind,
        index: found.index,
    };
    let structure = |found: &Found| {
        let start = found.start? as usize;
        Some(table[start..][fields(&found.kind)].to_vec())
    };
    let entry = |number: usize| {
        let words = accepted.entry(number as u64).ok()?;
        let end = words.offset + words.length;
        Some(table[words.offset as usize..end as usize].to_vec())
    };
    Ok(Record {
        oem_id: header.oem_id.to_vec(),
        oem_table_id: header.oem_table_id.to_vec(),
        control_flags: header.control_flags,
        extras: accepted.slots[SLOTS.len()..].iter().map(extra).collect(),
        structures: accepted.slots.iter().map(structure).collect(),
        entries: (0..accepted.entries.len()).map(entry).collect(),
    })
}
