//! Faults for a record: each changes one thing that a build looks at, mostly for the worse, in what
//! is part of the record or in what is none.

use crate::make::host_names::any_name;
use crate::make::record::Given;
use crate::make::seeded::Seeded;
use crate::model::layout::*;
use crate::model::record_range::*;

pub type Damage = fn(&mut Seeded, &mut Given);

/// What can be wrong with a record range of the right size.
pub const DAMAGES: &[Damage] = &[
    mark,
    oem_tail,
    control_flags,
    structure_flags,
    chap_type,
    entry_outside,
    entry_too_long,
    zero_byte,
    host_name,
];

/// What else can be wrong where there are extras.
pub const EXTRA_DAMAGES: &[Damage] = &[extra_mark, extra_index, index_order, extra_flags];

pub fn any_damage(seeded: &mut Seeded, given: &mut Given) {
    let damage = seeded.one_of(DAMAGES);
    damage(seeded, given);
}

/// Any of the faults, those of extras as often as all others.
pub fn any_damage_with_extras(seeded: &mut Seeded, given: &mut Given) {
    let of_extras = seeded.one_of(EXTRA_DAMAGES);
    let other = seeded.one_of(DAMAGES);
    let damage = seeded.one_of(&[of_extras, other]);
    damage(seeded, given);
}

fn any_extra_slot(seeded: &mut Seeded, given: &Given) -> Option<usize> {
    match given.extra_slots() {
        slots if slots.is_empty() => None,
        slots => Some(seeded.one_of(&slots)),
    }
}

// ---- 25 ----

/// A record range of one byte less or more, or of any other size. It hides every other fault.
pub fn range_size(seeded: &mut Seeded, given: &mut Given) {
    let any = seeded.between(0, 1_000);
    let there = given.record.len();
    let size = seeded.one_of(&[
        there - 1,
        there + 1,
        there - 1,
        there + 1,
        0,
        2 * there,
        any,
    ]);
    let filler = seeded.one_of(&[0, 1]);
    given.record.resize(size, filler);
}

/// Another number of extras than the range has bytes for. It hides every other fault.
pub fn extra_count(seeded: &mut Seeded, given: &mut Given) {
    let at = seeded.one_of(&[EXTRA_NICS, EXTRA_TARGETS]);
    let any = seeded.byte();
    if let Some(count) = given.record.get_mut(at) {
        let beside = count.wrapping_add(seeded.one_of(&[1, 255]));
        *count = seeded.one_of(&[beside, beside, 0, 6, 7, 255, any]);
    }
}

/// A mark of an extra's string other than 0 and 1.
pub fn extra_mark(seeded: &mut Seeded, given: &mut Given) {
    let marks: Vec<usize> = given.entries()[ENTRIES.len()..]
        .iter()
        .map(|e| e.mark)
        .collect();
    if !marks.is_empty() {
        let any = seeded.between(2, 255) as u8;
        given.record[seeded.one_of(&marks)] = seeded.one_of(&[2, 3, 128, 255, any]);
    }
}

/// A mark other than 0 and 1, in an absent structure too.
pub fn mark(seeded: &mut Seeded, given: &mut Given) {
    let at = seeded.between(SLOT_MARKS.start, ENTRY_MARKS.end - 1);
    let any = seeded.between(2, 255) as u8;
    given.record[at] = seeded.one_of(&[2, 3, 128, 255, any]);
}

// ---- 34, 13, 33 ----

/// An Index below 2, or any.
pub fn extra_index(seeded: &mut Seeded, given: &mut Given) {
    if let Some(slot) = any_extra_slot(seeded, given) {
        let any = seeded.byte();
        let index = seeded.one_of(&[0, 1, 1, 2, 255, any]);
        given.set_index(slot, index);
    }
}

/// The Index of the extra before, or a little less or more; or the two exchanged.
pub fn index_order(seeded: &mut Seeded, given: &mut Given) {
    if let Some(slot) = any_extra_slot(seeded, given) {
        let slots = given.slots();
        let index = |slot: usize| given.record[(slots[slot].image + INDEX_AT) as usize];
        let (before, there) = (index(slot - 1), index(slot));
        let beside = seeded.one_of(&[before, before.saturating_sub(1), before.saturating_add(1)]);
        if slot > SLOTS.len() && seeded.once_in(2) {
            given.set_index(slot - 1, there);
            given.set_index(slot, before);
        } else {
            given.set_index(slot, beside);
        }
    }
}

/// A flag bit that an extra's kind has no name for.
pub fn extra_flags(seeded: &mut Seeded, given: &mut Given) {
    if let Some(slot) = any_extra_slot(seeded, given) {
        let bit = seeded.between(2, 7);
        given.set_flags(slot, 1 << bit);
    }
}

// ---- 8, 10, 19 ----

/// A byte after a zero byte in an OEM field.
pub fn oem_tail(seeded: &mut Seeded, given: &mut Given) {
    let field = seeded.one_of(&[0, 1]);
    let field = [GIVEN_OEM_ID, GIVEN_OEM_TABLE_ID][field].clone();
    let zero = seeded.between(field.start, field.end - 2);
    let other = seeded.between(zero + 1, field.end - 1);
    given.record[zero] = 0;
    given.record[other] = seeded.between(1, 255) as u8;
}

pub fn control_flags(seeded: &mut Seeded, given: &mut Given) {
    let any = seeded.byte();
    let flags = seeded.one_of(&[2, 4, 128, any]);
    given.set_control_flags(flags);
}

/// A flag bit that the kind has no name for, perhaps in an absent structure.
pub fn structure_flags(seeded: &mut Seeded, given: &mut Given) {
    let slots = given.slots();
    let slot = seeded.between(0, slots.len() - 1);
    let bit = seeded.between(1, 7);
    let flags = seeded.byte() & slots[slot].kind.named_flags as u8;
    given.set_flags(slot, flags | 1 << bit);
}

pub fn chap_type(seeded: &mut Seeded, given: &mut Given) {
    let any = seeded.byte();
    let slots = given.slots();
    let targets = (0..slots.len()).filter(|slot| slots[*slot].kind == TARGET);
    let slot = seeded.one_of(&targets.collect::<Vec<usize>>());
    let chap_type = seeded.one_of(&[3, 3, 4, 128, 255, any]);
    given.set(slot, CHAP_TYPE_AT, chap_type);
}

// ---- 24, 17, 20, 18 ----

/// An entry: mostly one that is part of the record.
fn any_entry(seeded: &mut Seeded, given: &Given) -> usize {
    let present = given.present_entries();
    if present.is_empty() || seeded.once_in(8) {
        return seeded.between(0, given.entries().len() - 1);
    }
    seeded.one_of(&present)
}

/// Start + length just past the strings' end or just not, far past it, or small if it wraps.
pub fn entry_outside(seeded: &mut Seeded, given: &mut Given) {
    let entry = any_entry(seeded, given);
    let end = given.strings().len();
    let any_length = seeded.between(0, 300);
    let (length, start) = given.words(entry);
    let (length, start) = match seeded.between(0, 5) {
        0 => (length, (end + 1).saturating_sub(length)),
        1 => (end.saturating_sub(start) + 1, start),
        2 => (0, end + 1),
        3 => (0x10000 - seeded.between(1, 20), seeded.between(1, 40)),
        4 => (any_length, 0xFFFF - seeded.between(0, 40)),
        _ => (any_length, (end + 2).saturating_sub(any_length)),
    };
    given.point(entry, start, length);
}

/// Gives the entry more bytes than it may have, or just as many.
pub fn entry_too_long(seeded: &mut Seeded, given: &mut Given) {
    let entry = any_entry(seeded, given);
    let longest = given.entries()[entry].text.longest as usize;
    let size = longest + seeded.one_of(&[0, 1, 1, 1, 2, 32, 33, 256]);
    let text = vec![b'a'; size];
    let start = given.strings().len();
    given.strings_mut().extend(text);
    given.point(entry, start, size);
}

/// A zero byte in a string, or just before or behind it.
pub fn zero_byte(seeded: &mut Seeded, given: &mut Given) {
    let entry = any_entry(seeded, given);
    let (length, start) = given.words(entry);
    let any = start + seeded.between(0, length);
    let last = (start + length).saturating_sub(1);
    let behind = start + length;
    let before = start.saturating_sub(1);
    let at = seeded.one_of(&[any, any, start, last, behind, before]);
    if let Some(byte) = given.strings_mut().get_mut(at) {
        *byte = 0;
    }
}

/// Gives a NIC a host name of any kind, mostly bad ones, or an empty one.
pub fn host_name(seeded: &mut Seeded, given: &mut Given) {
    let entries = given.entries();
    let hosts = (0..entries.len()).filter(|entry| entries[*entry].text.is_host_name);
    let entry = seeded.one_of(&hosts.collect::<Vec<usize>>());
    let mut name = any_name(seeded);
    if seeded.once_in(8) {
        name.clear();
    }
    let start = given.strings().len();
    given.strings_mut().extend(&name);
    given.point(entry, start, name.len());
    if given.has_slot(entries[entry].slot) {
        given.mark_entry(entry, 1);
    }
}
