//! Faults for a table: each changes one thing that the check looks at, mostly for the worse. The
//! sum is mended afterwards by who calls them, so that the fault itself is met.

use crate::make::good_tables::shuffle;
use crate::make::host_names::any_name;
use crate::make::seeded::Seeded;
use crate::make::table::{word_at, Table};
use crate::model::layout::*;

pub type Damage = fn(&mut Seeded, &mut Table);

/// What can be wrong with a table whose sum is right.
pub const DAMAGES: &[Damage] = &[
    signature,
    table_length,
    revision,
    oem_tail,
    control_start_bytes,
    control_flags,
    extensions,
    control_word,
    structure_start_bytes,
    structure_flags,
    chap_type,
    structure_moved,
    structure_onto_another,
    entry_words,
    entry_at_limits,
    entry_closing_byte,
    entry_length,
    entry_too_long,
    host_name,
    missing_or_empty,
];

/// What else can be wrong with a table that has extra words.
pub const EXTRA_DAMAGES: &[Damage] = &[
    control_length,
    extra_word,
    extra_word_elsewhere,
    extra_start_bytes,
    extra_index,
    length_in_a_structure,
    words_shuffled,
    word_unused,
];

pub fn any_damage(seeded: &mut Seeded, table: &mut Table) {
    let damage = seeded.one_of(DAMAGES);
    damage(seeded, table);
}

/// Any of the faults, those of extra words as often as all others.
pub fn any_damage_with_extras(seeded: &mut Seeded, table: &mut Table) {
    let of_extras = seeded.one_of(EXTRA_DAMAGES);
    let other = seeded.one_of(DAMAGES);
    let damage = seeded.one_of(&[of_extras, other]);
    damage(seeded, table);
}

fn any_of<T: Copy>(seeded: &mut Seeded, choices: &[T]) -> Option<T> {
    match choices.len() {
        0 => None,
        _ => Some(seeded.one_of(choices)),
    }
}

fn any_used_word(seeded: &mut Seeded, table: &Table) -> Option<usize> {
    any_of(seeded, &table.used_words())
}

fn any_extra_word(seeded: &mut Seeded, table: &Table) -> Option<usize> {
    any_of(seeded, &table.extra_words())
}

/// An extra word that leads to a structure.
fn any_used_extra_word(seeded: &mut Seeded, table: &Table) -> Option<usize> {
    let mut words = table.extra_words();
    words.retain(|word| table.start(*word) != 0);
    any_of(seeded, &words)
}

fn any_owned_entry(seeded: &mut Seeded, table: &Table) -> Option<usize> {
    any_of(seeded, &table.owned_entries())
}

/// Up to `most` more or less.
fn near(seeded: &mut Seeded, number: usize, most: usize) -> usize {
    (number + seeded.between(0, 2 * most)).saturating_sub(most)
}

// ---- Header and Control ----

pub fn signature(seeded: &mut Seeded, table: &mut Table) {
    let other = seeded.one_of(&[*b"IBFT", *b"ibft", *b"aBFT", *b"sBFT", *b"iBF\0", *b"TFBi"]);
    table.write(0, &other);
    if seeded.once_in(2) {
        table.write(0, SIGNATURE);
        let at = seeded.between(0, 3);
        table.write(at, &[seeded.byte()]);
    }
}

pub fn table_length(seeded: &mut Seeded, table: &mut Table) {
    let (lent, length) = (table.lent as u32, table.length() as u32);
    let near_length = near(seeded, length as usize, 3) as u32;
    let huge = seeded.one_of(&[
        u32::MAX,
        1 << 31,
        1 << 24,
        length | 1 << 16,
        length | 1 << 24,
    ]);
    let small = seeded.one_of(&[0, 1, 47, 48, 64, 65, 66, 67, 72]);
    let claimed = seeded.one_of(&[near_length, near_length, lent, lent + 1, small, huge]);
    table.set_length(claimed);
}

pub fn revision(seeded: &mut Seeded, table: &mut Table) {
    table.write(REVISION as usize, &[seeded.byte()]);
}

/// A zero byte and any byte behind it, in either OEM field.
pub fn oem_tail(seeded: &mut Seeded, table: &mut Table) {
    let field = seeded.one_of(&[(OEM_ID.start, 6), (OEM_TABLE_ID.start, 8)]);
    let zero = seeded.between(0, field.1 - 2);
    let behind = seeded.between(zero + 1, field.1 - 1);
    table.write(field.0 + zero, &[0]);
    table.write(field.0 + behind, &[seeded.byte()]);
}

pub fn control_start_bytes(seeded: &mut Seeded, table: &mut Table) {
    start_bytes(seeded, table, CONTROL_START as usize);
}

pub fn control_flags(seeded: &mut Seeded, table: &mut Table) {
    table.set_control_flags(seeded.byte());
}

pub fn extensions(seeded: &mut Seeded, table: &mut Table) {
    let random = seeded.next() as usize;
    let word = seeded.one_of(&[1, 0x80, 0x100, 0x8000, 72, random, 0]);
    table.write_word(EXTENSIONS as usize, word);
}

/// A start anywhere, whatever stands there.
pub fn control_word(seeded: &mut Seeded, table: &mut Table) {
    let word = seeded.between(0, SLOTS.len() - 1);
    let start = any_start(seeded, table, word);
    table.set_start(word, start);
}

/// A Control Length about the limits, odd ones too. What stands behind Control becomes words or words
/// stand behind it; starts below its end are a fault then.
pub fn control_length(seeded: &mut Seeded, table: &mut Table) {
    let about = seeded.between(16, 44);
    let there = control_length_of(table);
    let far = seeded.one_of(&[0, 1, 6, 17, 43, 44, 46, 255, 256 + 18, 0xFFFF]);
    let near = near(seeded, there, 3);
    let length = seeded.one_of(&[about, about, near, near, far]);
    table.set_control_length(length);
}

fn control_length_of(table: &Table) -> usize {
    table.word((CONTROL_START + LENGTH_AT) as usize)
}

// ---- Extra words ----

/// A start anywhere in an extra word.
pub fn extra_word(seeded: &mut Seeded, table: &mut Table) {
    if let Some(word) = any_extra_word(seeded, table) {
        let near_control = near(seeded, CONTROL_START as usize + control_length_of(table), 9);
        let any = any_start(seeded, table, word);
        let near_end = near(seeded, table.length().min(0xFFFF), 8);
        let start = seeded.one_of(&[
            any,
            any,
            near_control,
            near_control / 8 * 8,
            near_end / 8 * 8,
        ]);
        table.set_start(word, start);
    }
}

/// An extra word to where another word leads, to Control, or to a place with six bytes of a structure of
/// some kind.
pub fn extra_word_elsewhere(seeded: &mut Seeded, table: &mut Table) {
    if let Some(word) = any_extra_word(seeded, table) {
        let there = any_used_word(seeded, table).map_or(0, |other| table.start(other));
        let aligned = 8 * seeded.between(0, table.length().min(0xFFFF) / 8);
        match seeded.between(0, 3) {
            0 | 1 => table.set_start(word, there),
            2 => table.set_start(word, CONTROL_START as usize),
            _ => {
                let kind = seeded.one_of(&[CONTROL, INITIATOR, NIC, TARGET]);
                let index = seeded.one_of(&[0, 1, 2, 9, 255]);
                table.put_extra(word, &kind, index, aligned);
            }
        }
    }
}

/// A byte of an extra's ID, version, length or Index.
pub fn extra_start_bytes(seeded: &mut Seeded, table: &mut Table) {
    if let Some(word) = any_used_extra_word(seeded, table) {
        start_bytes(seeded, table, table.start(word));
    }
}

/// An Index below 2, that of another extra, or any.
pub fn extra_index(seeded: &mut Seeded, table: &mut Table) {
    let one = any_used_extra_word(seeded, table);
    let other = any_used_extra_word(seeded, table);
    if let (Some(one), Some(other)) = (one, other) {
        let at = |word: usize| table.start(word) + INDEX_AT as usize;
        let of_other = table.bytes.get(at(other)).copied().unwrap_or(0);
        let any = seeded.byte();
        let index = seeded.one_of(&[0, 1, of_other, of_other, any]);
        table.write(at(one), &[index]);
    }
}

/// Length ends in a structure or just behind it.
pub fn length_in_a_structure(seeded: &mut Seeded, table: &mut Table) {
    let last = table
        .used_words()
        .into_iter()
        .max_by_key(|word| table.start(*word));
    let any = any_used_word(seeded, table);
    if let (Some(last), Some(any)) = (last, any) {
        let word = seeded.one_of(&[last, last, any]);
        let size = table.kind(word).length as usize;
        let inside = seeded.between(0, size);
        let length = table.start(word) + seeded.one_of(&[inside, 5, 6, 7, size - 1, size]);
        table.set_length(length as u32);
    }
}

/// The extra words in another order, which is no fault.
pub fn words_shuffled(seeded: &mut Seeded, table: &mut Table) {
    let words = table.extra_words();
    let mut starts: Vec<usize> = words.iter().map(|word| table.start(*word)).collect();
    shuffle(seeded, &mut starts);
    for (word, start) in words.iter().zip(starts) {
        table.write_word(word_at(*word), start);
    }
}

/// A word of 0: the structure is no part of the table any more, which is no fault but for strings that
/// stood behind it.
pub fn word_unused(seeded: &mut Seeded, table: &mut Table) {
    if let Some(word) = any_used_word(seeded, table) {
        table.set_start(word, 0);
    }
}

// ---- Structures ----

fn any_start(seeded: &mut Seeded, table: &Table, word: usize) -> usize {
    let length = table.length().min(0xFFFF);
    let last = length.saturating_sub(table.kind(word).length as usize);
    let near_last = near(seeded, last, 9);
    let near_there = near(seeded, table.start(word), 9);
    let aligned = 8 * seeded.between(0, length / 8);
    let any = seeded.between(0, 0xFFFF);
    let low = seeded.between(0, 80);
    let ends = seeded.one_of(&[8, 48, 64, 71, 72, 73, 80, 0xFFF8, 0xFFFF]);
    seeded.one_of(&[near_last, last / 8 * 8, near_there, aligned, any, low, ends])
}

/// Changes a byte of ID, version, length or Index.
fn start_bytes(seeded: &mut Seeded, table: &mut Table, start: usize) {
    let at = start + seeded.between(0, INDEX_AT as usize);
    let there = table.bytes.get(at).copied().unwrap_or(0);
    let beside = there.wrapping_add(seeded.one_of(&[1, 255, 128]));
    let small = seeded.between(0, 5) as u8;
    let any = seeded.byte();
    table.write(at, &[seeded.one_of(&[beside, small, any])]);
}

pub fn structure_start_bytes(seeded: &mut Seeded, table: &mut Table) {
    if let Some(word) = any_used_word(seeded, table) {
        start_bytes(seeded, table, table.start(word));
    }
}

pub fn structure_flags(seeded: &mut Seeded, table: &mut Table) {
    if let Some(word) = any_used_word(seeded, table) {
        let one_bit = 1 << seeded.between(0, 7);
        let any = seeded.byte();
        table.set_flags(word, seeded.one_of(&[one_bit, any]));
    }
}

pub fn chap_type(seeded: &mut Seeded, table: &mut Table) {
    let mut targets = table.used_words();
    targets.retain(|word| table.kind(*word) == TARGET);
    if let Some(word) = any_of(seeded, &targets) {
        let any = seeded.byte();
        let chap_type = seeded.one_of(&[0, 1, 2, 3, 4, 255, any]);
        table.write(table.start(word) + CHAP_TYPE_AT as usize, &[chap_type]);
    }
}

/// Takes a structure to another place, its bytes with it.
pub fn structure_moved(seeded: &mut Seeded, table: &mut Table) {
    if let Some(word) = any_used_word(seeded, table) {
        let to = any_start(seeded, table, word);
        move_structure(table, word, to);
    }
}

/// Takes a structure to a place that another takes up, or just beside.
pub fn structure_onto_another(seeded: &mut Seeded, table: &mut Table) {
    if let (Some(one), Some(other)) = (any_used_word(seeded, table), any_used_word(seeded, table)) {
        let steps = seeded.between(0, 28) as isize - 14;
        let to = table.start(other) as isize / 8 * 8 + 8 * steps;
        move_structure(table, one, to.max(0) as usize);
    }
}

pub fn move_structure(table: &mut Table, word: usize, to: usize) {
    let from = table.start(word);
    let end = from + table.kind(word).length as usize;
    if let Some(image) = table.bytes.get(from..end) {
        let image = image.to_vec();
        table.write(to, &image);
    }
    table.set_start(word, to);
}

// ---- Strings ----

/// Any offset and any length.
pub fn entry_words(seeded: &mut Seeded, table: &mut Table) {
    if let Some(entry) = any_owned_entry(seeded, table) {
        let inside = seeded.between(0, table.length().min(0xFFFF));
        let any = seeded.between(0, 0xFFFF);
        let offset = seeded.one_of(&[inside, inside, inside, any]);
        let rest = table.length().saturating_sub(offset);
        let short = seeded.between(0, 12);
        let length = seeded.one_of(&[short, short, 0, rest, any]);
        table.point(entry, offset, length);
    }
}

/// Offset or end just at the heap's start or at Length.
pub fn entry_at_limits(seeded: &mut Seeded, table: &mut Table) {
    if let Some(entry) = any_owned_entry(seeded, table) {
        let heap = heap_start(&table.bytes) as usize;
        let at_heap = near(seeded, heap, 2);
        let at_end = near(seeded, table.length(), 2);
        let size = seeded.between(0, 20);
        match seeded.between(0, 2) {
            0 => table.point(entry, at_heap, at_end.saturating_sub(at_heap)),
            1 => table.point(entry, at_heap, seeded.one_of(&[0, size])),
            _ => table.point(entry, at_end.saturating_sub(size), size),
        }
    }
}

/// The byte behind a present entry.
pub fn entry_closing_byte(seeded: &mut Seeded, table: &mut Table) {
    if let Some(field) = any_present_entry(seeded, table) {
        let end = table.word(field) + table.word(field + 2);
        table.write(end, &[seeded.byte()]);
    }
}

/// A length that is off by a little.
pub fn entry_length(seeded: &mut Seeded, table: &mut Table) {
    if let Some(field) = any_present_entry(seeded, table) {
        let length = near(seeded, table.word(field), 2);
        table.write_word(field, length);
    }
}

fn any_present_entry(seeded: &mut Seeded, table: &Table) -> Option<usize> {
    let mut fields = Vec::new();
    for entry in table.owned_entries() {
        let field = table.entry_field(entry).unwrap();
        if field + 4 <= table.bytes.len() && table.word(field + 2) != 0 {
            fields.push(field);
        }
    }
    match fields.len() {
        0 => None,
        _ => Some(seeded.one_of(&fields)),
    }
}

/// A string at the limit or past it, closed as it should be or not.
pub fn entry_too_long(seeded: &mut Seeded, table: &mut Table) {
    if let Some(entry) = any_owned_entry(seeded, table) {
        let Entry {
            longest,
            is_host_name,
            ..
        } = table.entries()[entry];
        let size = near(seeded, longest as usize, 2);
        let size = seeded.one_of(&[size, size, 256, 300]);
        let mut text = vec![b'a'; size];
        if is_host_name {
            text.chunks_mut(64).for_each(|label| label[0] = b'.');
            text[0] = b'a';
        }
        table.append_text(entry, &text);
        if seeded.once_in(8) {
            let last = table.bytes.len() - 1;
            table.write(last, b"a");
        }
    }
}

/// A host name of any kind, good or not.
pub fn host_name(seeded: &mut Seeded, table: &mut Table) {
    let entries = table.entries();
    let mut hosts = table.owned_entries();
    hosts.retain(|entry| entries[*entry].is_host_name);
    if let Some(entry) = any_of(seeded, &hosts) {
        let name = any_name(seeded);
        table.append_text(entry, &name);
    }
}

/// Both words 0; an offset without length; a length without offset.
pub fn missing_or_empty(seeded: &mut Seeded, table: &mut Table) {
    if let Some(entry) = any_owned_entry(seeded, table) {
        let heap = heap_start(&table.bytes) as usize;
        let last = table.length().saturating_sub(1);
        let inside = seeded.between(heap, heap.max(last + 2));
        let size = seeded.between(1, 300);
        match seeded.between(0, 3) {
            0 => table.point(entry, 0, 0),
            1 => table.point(entry, 0, size),
            2 => table.point(entry, inside, 0),
            _ => table.point(entry, last, 0),
        }
    }
}
