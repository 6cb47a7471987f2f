//! Records that no build refuses but for want of room, as various as RULES.md lets them be. What
//! is no part of the record holds rubbish; strings lie anywhere in their range and share bytes.

use crate::make::good_tables::{any_bytes, any_extra_index, any_host_name, oem_text, shuffle};
use crate::make::record::Given;
use crate::make::seeded::Seeded;
use crate::make::table::dots_between;
use crate::model::host_name::is_host_name;
use crate::model::layout::*;
use crate::model::record_range::*;

/// How many extra NICs and extra targets; none where the range says nothing of extras.
pub type Extras = Option<(usize, usize)>;

pub fn good_record(seeded: &mut Seeded) -> Given {
    any_record(seeded, None)
}

/// A good record whose range tells how many extras there are: none, some or all.
pub fn good_record_with_extras(seeded: &mut Seeded) -> Given {
    let extras = any_extras(seeded);
    any_record(seeded, Some(extras))
}

fn any_record(seeded: &mut Seeded, extras: Extras) -> Given {
    let slot_odds = seeded.one_of(&[1, 1, 2, 2, 3]);
    let entry_odds = seeded.one_of(&[1, 1, 2, 4]);
    let longest = seeded.one_of(&[4, 8, 12, 40, 255]);
    record_like(seeded, extras, slot_odds, entry_odds, longest)
}

/// Up to six of each kind, often few of one.
fn any_extras(seeded: &mut Seeded) -> (usize, usize) {
    let mut count = || {
        let any = seeded.between(0, 6);
        seeded.one_of(&[0, 1, 2, any, any, any, 6])
    };
    (count(), count())
}

/// A good record with at least one extra.
pub fn record_with_an_extra(seeded: &mut Seeded) -> Given {
    loop {
        let given = good_record_with_extras(seeded);
        if !given.extra_slots().is_empty() {
            return given;
        }
    }
}

/// All structures and all strings, none longer than `longest`.
pub fn whole_record(seeded: &mut Seeded, extras: Extras, longest: usize) -> Given {
    record_like(seeded, extras, 1, 1, longest)
}

/// A good record with at least one structure.
pub fn record_with_structures(seeded: &mut Seeded) -> Given {
    loop {
        let given = good_record(seeded);
        if !given.owned_entries().is_empty() {
            return given;
        }
    }
}

/// A good record with at least one string.
pub fn record_with_strings(seeded: &mut Seeded) -> Given {
    loop {
        let given = good_record(seeded);
        if !given.present_entries().is_empty() {
            return given;
        }
    }
}

/// A named structure is present once in `slot_odds` times, a string once in `entry_odds`.
fn record_like(
    seeded: &mut Seeded,
    extras: Extras,
    slot_odds: usize,
    entry_odds: usize,
    longest: usize,
) -> Given {
    let mut given = record_without_strings(seeded, extras, slot_odds);
    let entries = given.entries();
    let mut family = Family::new(seeded, longest);
    let mut texts = Vec::new();
    for entry in given.owned_entries() {
        if seeded.once_in(entry_odds) {
            texts.push((entry, family.text(seeded, &entries[entry].text)));
        }
    }
    scatter(seeded, &mut given, texts);
    given
}

/// Structures with any flags and fields that are not refused, and no strings. An absent structure's
/// image and what is marked there may be anything; so may the words of a missing string, and of an
/// extra's image its ID, Version and Length.
pub fn record_without_strings(seeded: &mut Seeded, extras: Extras, slot_odds: usize) -> Given {
    let (nics, targets) = extras.unwrap_or((0, 0));
    let filler = any_bytes(seeded, range_size(nics, targets));
    let mut given = match extras {
        None => Given::new(&filler),
        Some(_) => Given::with_extras(&filler, nics, targets),
    };
    for field in [GIVEN_OEM_ID, GIVEN_OEM_TABLE_ID] {
        let text = oem_text(seeded, field.len());
        given.record[field].copy_from_slice(&text);
    }
    let mode = seeded.between(0, 1) as u8;
    given.set_control_flags(mode);
    for slot in 0..SLOTS.len() {
        if seeded.once_in(slot_odds) {
            given.mark_slot(slot, 1);
        }
    }
    let slots = given.slots();
    for (slot, GivenSlot { kind, .. }) in slots.iter().enumerate().filter(|s| s.1.is_present) {
        let flags = seeded.byte() & kind.named_flags as u8;
        given.set_flags(slot, flags);
        if *kind == TARGET {
            let chap_type = seeded.between(0, 2) as u8;
            given.set(slot, CHAP_TYPE_AT, chap_type);
        }
    }
    for (first, count) in [(SLOTS.len(), nics), (SLOTS.len() + nics, targets)] {
        for (i, index) in ascending(seeded, count).iter().enumerate() {
            given.set_index(first + i, *index);
        }
    }
    for (entry, GivenEntry { slot, .. }) in given.entries().iter().enumerate() {
        if !slots[*slot].is_present {
            let mark = seeded.between(0, 1) as u8;
            given.mark_entry(entry, mark);
        }
    }
    given
}

/// So many Index values, each above the one before; more than six are for records with too many.
pub fn ascending(seeded: &mut Seeded, count: usize) -> Vec<u8> {
    let mut values: Vec<u8> = Vec::new();
    while values.len() < count {
        let index = any_extra_index(seeded);
        if !values.contains(&index) {
            values.push(index);
        }
    }
    values.sort_unstable();
    values
}

// ---- Strings that have much in common ----

/// The strings of one record: pieces of a common one, of each other, and some of their own.
struct Family {
    longest: usize,
    common: Vec<u8>,
    made: Vec<Vec<u8>>,
}

impl Family {
    fn new(seeded: &mut Seeded, longest: usize) -> Family {
        let common = match seeded.between(0, 3) {
            0 => dots_between(128, b'a'),
            1 => any_host_name(seeded),
            _ => own_text(seeded, longest),
        };
        Family {
            longest,
            common,
            made: Vec::new(),
        }
    }

    /// A string that the entry may have.
    fn text(&mut self, seeded: &mut Seeded, entry: &StringField) -> Vec<u8> {
        let mut text = self.any_text(seeded);
        let longest = self.longest.min(entry.longest as usize);
        if text.len() > longest {
            text = match seeded.between(0, 3) {
                0 => text[..longest].to_vec(),
                _ => text[text.len() - longest..].to_vec(),
            };
        }
        if entry.is_host_name && !is_host_name(&text) {
            text = any_host_name(seeded);
        }
        self.made.push(text.clone());
        text
    }

    fn any_text(&self, seeded: &mut Seeded) -> Vec<u8> {
        let relative = match self.made.len() {
            0 => &self.common,
            made if seeded.once_in(2) => &self.made[seeded.between(0, made - 1)],
            _ => &self.common,
        };
        let cut = seeded.between(0, relative.len());
        match seeded.between(0, 9) {
            0 | 1 => relative.clone(),
            2..=4 => relative[cut..].to_vec(),
            5 => relative[..cut].to_vec(),
            6 => first_byte_changed(seeded, &relative[cut..]),
            7 => {
                let front = own_text(seeded, 5);
                [&front, &relative[..]].concat()
            }
            8 => Vec::new(),
            _ => own_text(seeded, self.longest),
        }
    }
}

fn first_byte_changed(seeded: &mut Seeded, text: &[u8]) -> Vec<u8> {
    let mut text = text.to_vec();
    if let Some(first) = text.first_mut() {
        *first = seeded.one_of(b"abz09");
    }
    text
}

/// A string of at most `longest` bytes, none of them zero.
fn own_text(seeded: &mut Seeded, longest: usize) -> Vec<u8> {
    let size = seeded.between(0, longest);
    let size = seeded.one_of(&[size, size, size, longest, longest.saturating_sub(1)]);
    match seeded.between(0, 3) {
        0 => vec![seeded.between(1, 255) as u8; size],
        1 => (0..size).map(|_| seeded.between(1, 255) as u8).collect(),
        _ => (0..size).map(|_| seeded.one_of(b"ab")).collect(),
    }
}

// ---- The strings range ----

/// Lays the strings into their range in any order, apart, side by side or over each other, and
/// points the entries there. An empty one may start anywhere, at the range's end too.
pub fn scatter(seeded: &mut Seeded, given: &mut Given, mut texts: Vec<(usize, Vec<u8>)>) {
    shuffle(seeded, &mut texts);
    for (entry, text) in texts.iter().filter(|(_, text)| !text.is_empty()) {
        let start = lay(seeded, given.strings_mut(), text);
        given.mark_entry(*entry, 1);
        given.point(*entry, start, text.len());
    }
    if seeded.once_in(3) {
        let more = any_bytes(seeded, 9);
        given.strings_mut().extend(more);
    }
    let end = given.strings().len();
    for (entry, _) in texts.iter().filter(|(_, text)| text.is_empty()) {
        let any = seeded.between(0, end);
        let start = seeded.one_of(&[0, end, end, any]);
        given.mark_entry(*entry, 1);
        given.point(*entry, start, 0);
    }
}

/// Where the text stands in the strings now. It may have been there, or its front may have.
fn lay(seeded: &mut Seeded, strings: &mut Vec<u8>, text: &[u8]) -> usize {
    if seeded.once_in(2) {
        let mut stretches = strings.windows(text.len());
        if let Some(start) = stretches.position(|stretch| stretch == text) {
            return start;
        }
    }
    if seeded.once_in(4) {
        let size = seeded.between(1, 20);
        let gap = any_bytes(seeded, size);
        strings.extend(gap);
    }
    let common = match seeded.between(0, 2) {
        0 => 0,
        _ => (0..=text.len())
            .rev()
            .find(|front| strings.ends_with(&text[..*front]))
            .unwrap(),
    };
    let start = strings.len() - common;
    strings.extend(&text[common..]);
    start
}
