//! The inputs with extra words in Control, by shape: see shapes/table.rs.

use crate::damage::table::{self as damage, Damage};
use crate::make::good_tables::*;
use crate::make::seeded::Seeded;
use crate::make::table::*;
use crate::model::layout::*;
use crate::shapes::table::{length_near_64_kib, offsets_near_64_kib, Shape};

/// The Length of `three_extras`.
const THREE_LENGTH: usize = 312;

pub const EXTRA_SHAPES: &[Shape] = &[
    ("good tables with extras", 30_000, |_, seeded| {
        table_with_extras(seeded)
    }),
    (
        "each Length and Control Length",
        2 * 30 * 47,
        each_length_of_both,
    ),
    (
        "each Control Length, structures there",
        47 * 60,
        each_control_length,
    ),
    (
        "each byte, three extras",
        THREE_LENGTH * 256,
        each_byte_of_three,
    ),
    ("each Index of each of three", 3 * 256, each_index),
    ("each start of an extra word", 2 * 340, each_start),
    ("extra words in each order", 3_000, each_order),
    ("an Index twice", 6_000, |_, s| damaged(s, index_twice)),
    ("a seventh extra of a kind", 6_000, |_, s| {
        table_with_too_many(s)
    }),
    ("a seventh extra, and more", 4_000, too_many_damaged),
    ("Control Length", 6_000, |_, s| {
        damaged(s, damage::control_length)
    }),
    ("extra words anywhere", 8_000, |_, s| {
        damaged(s, damage::extra_word)
    }),
    ("extra words elsewhere", 8_000, |_, s| {
        damaged(s, damage::extra_word_elsewhere)
    }),
    ("extras' start bytes", 8_000, |_, s| {
        damaged(s, damage::extra_start_bytes)
    }),
    ("extras' Index", 6_000, |_, s| {
        damaged(s, damage::extra_index)
    }),
    ("Length in a structure", 6_000, |_, s| {
        damaged(s, damage::length_in_a_structure)
    }),
    ("words unused", 3_000, |_, s| {
        damaged(s, damage::word_unused)
    }),
    ("extras moved", 5_000, |_, s| {
        damaged(s, damage::structure_moved)
    }),
    ("extras moved onto others", 6_000, |_, s| {
        damaged(s, damage::structure_onto_another)
    }),
    ("extras strewn", 10_000, strewn),
    ("each byte of flags, 17 words", 17 * 256, each_flags),
    ("each CHAP type, eight targets", 8 * 256, each_chap_type),
    ("flags of up to eight targets", 20_000, target_flags),
    ("strings of extras anywhere", 8_000, |_, s| {
        damaged(s, damage::entry_words)
    }),
    ("strings of extras at the limits", 8_000, |_, s| {
        damaged(s, damage::entry_at_limits)
    }),
    ("byte behind a string of 49", 6_000, |_, s| {
        damaged(s, damage::entry_closing_byte)
    }),
    ("strings of 49 one byte off", 6_000, |_, s| {
        damaged(s, damage::entry_length)
    }),
    ("49 strings of each length", 49 * 30, each_length),
    ("host names of eight NICs", 6_000, |_, s| {
        damaged(s, damage::host_name)
    }),
    ("missing, empty, with extras", 5_000, |_, s| {
        damaged(s, damage::missing_or_empty)
    }),
    ("over 64 KiB with extras", 700, |_, seeded| {
        large_table_with_extras(seeded)
    }),
    ("over 64 KiB with extras, damaged", 1_000, large_damaged),
    ("one fault, with extras", 15_000, |_, s| {
        damaged(s, damage::any_damage_with_extras)
    }),
    ("several faults, with extras", 20_000, several_faults),
];

/// A good table with extras that one fault was put in, its sum mended.
fn damaged(seeded: &mut Seeded, damage: Damage) -> Table {
    let mut table = table_with_extras(seeded);
    damage(seeded, &mut table);
    table.mended()
}

/// Target 0 and Control with three extra words: NIC 5, Target 255 and Target 9, in this order of the words
/// and in another of the structures; with a string of each.
fn three_extras() -> Table {
    let mut table = Table::with_words(286, 3);
    table.put_extra(5, &NIC, 5, 72);
    table.put_extra(6, &TARGET, 255, 232);
    table.put_extra(7, &TARGET, 9, 176);
    for (entry, text) in [(13, "ab.c-d"), (14, "iqn.t9"), (20, "seven"), (22, "x")] {
        table.append_text(entry, text.as_bytes());
    }
    table.append_bytes(&[0; 4]);
    for word in [5, 6, 7] {
        table.set_flags(word, VALID as u8);
    }
    table.mended()
}

// ---- Control's Length ----

/// Nothing present; Length from 66 to 95, Control Length from 0 to 46, all words zero or one of them not.
fn each_length_of_both(n: usize, seeded: &mut Seeded) -> Table {
    let mut table = Table::new(66 + n / 2 % 30);
    table.set_control_length(n / 60);
    if n % 2 == 1 {
        let word = seeded.between(FIRST_EXTRA, ALL_WORDS - 1);
        table.set_start(word, 72 + 8 * seeded.between(0, 3));
    }
    table.mended()
}

fn each_control_length(n: usize, seeded: &mut Seeded) -> Table {
    let mut table = table_with_extras(seeded);
    table.set_control_length(n % 47);
    table.mended()
}

// ---- Each value of something ----

/// More bytes are lent than the table has, so that a greater Length is no fault in itself.
fn each_byte_of_three(n: usize, _: &mut Seeded) -> Table {
    let mut table = three_extras();
    assert_eq!(table.length(), THREE_LENGTH);
    table.lend_more(&[0; 120]);
    table.bytes[n / 256] = n as u8;
    table.mended()
}

fn each_index(n: usize, _: &mut Seeded) -> Table {
    let mut table = three_extras();
    let start = table.start(FIRST_EXTRA + n / 256);
    table.write(start + INDEX_AT as usize, &[n as u8]);
    table.mended()
}

/// One extra word, a NIC's or a target's, at start n modulo 340, in a table of 320 bytes.
fn each_start(n: usize, _: &mut Seeded) -> Table {
    let mut table = Table::with_words(320, 4);
    table.bytes.extend([0; 130]);
    let kind = [NIC, TARGET][n / 340];
    table.put_extra(FIRST_EXTRA + 2, &kind, 7, n % 340);
    table.mended()
}

/// All twelve extras, their words in any order.
fn each_order(_: usize, seeded: &mut Seeded) -> Table {
    let mut table = full_table_with_extras();
    damage::words_shuffled(seeded, &mut table);
    table.mended()
}

/// Two extras of one kind with the same Index, where there are two.
fn index_twice(seeded: &mut Seeded, table: &mut Table) {
    let kind = seeded.one_of(&[NIC, TARGET]);
    let mut words = table.extra_words();
    words.retain(|word| table.start(*word) != 0 && table.kind(*word) == kind);
    shuffle(seeded, &mut words);
    if let [one, other, ..] = words[..] {
        let at = |word: usize| table.start(word) + INDEX_AT as usize;
        let index = table.bytes[at(one)];
        table.write(at(other), &[index]);
    }
}

/// Seven extras of a kind and another fault: an Index twice, flags, anything.
fn too_many_damaged(_: usize, seeded: &mut Seeded) -> Table {
    let mut table = table_with_too_many(seeded);
    let damage = seeded.one_of(&[
        index_twice as Damage,
        damage::structure_flags,
        damage::chap_type,
        damage::structure_onto_another,
        damage::any_damage_with_extras,
    ]);
    damage(seeded, &mut table);
    table.mended()
}

// ---- Structures ----

/// Structures at multiples of eight close together, named ones and extras. Their start bytes are laid
/// last, so that little but the sharing is wrong.
fn strewn(_: usize, seeded: &mut Seeded) -> Table {
    let steps = seeded.one_of(&[40, 80, 160, 400]);
    let extra_words = seeded.between(1, 12);
    let first = (CONTROL_END as usize + 2 * extra_words + 7) / 8 * 8;
    let mut table = Table::with_words(first + 8 * steps + NIC.length as usize, extra_words);
    let odds = seeded.one_of(&[1, 2, 3]);
    let mut laid = Vec::new();
    for word in 0..FIRST_EXTRA + extra_words {
        if !seeded.once_in(odds) {
            continue;
        }
        let (kind, index) = match SLOTS.get(word) {
            Some(slot) => (slot.kind, slot.index as u8),
            None if word % 2 == 0 => (TARGET, 2 * word as u8),
            None => (NIC, 200 - word as u8),
        };
        let start = first + 8 * seeded.between(0, steps);
        put_filled_as(seeded, &mut table, word, kind, index, start);
        laid.push((word, kind, index, start));
    }
    for (word, kind, index, start) in laid {
        table.put_extra(word, &kind, index, start);
        if seeded.once_in(2) {
            table.set_flags(word, kind.named_flags as u8 & seeded.byte());
        }
    }
    table.mended()
}

fn each_flags(n: usize, _: &mut Seeded) -> Table {
    let mut table = full_table_with_extras();
    table.set_flags(n / 256, n as u8);
    table.mended()
}

fn each_chap_type(n: usize, _: &mut Seeded) -> Table {
    let mut table = full_table_with_extras();
    let words = table.used_words();
    let mut targets = words.into_iter().filter(|word| table.kind(*word) == TARGET);
    let start = table.start(targets.nth(n / 256).unwrap());
    table.write(start + CHAP_TYPE_AT as usize, &[n as u8]);
    table.mended()
}

/// Tables with many targets, valid and selected as it falls, in both modes.
fn target_flags(_: usize, seeded: &mut Seeded) -> Table {
    let mut table = table_with_extras(seeded);
    let odds = seeded.one_of(&[1, 1, 2, 3]);
    for word in table.used_words() {
        if table.kind(word) == TARGET {
            let valid = if seeded.once_in(odds) { VALID } else { 0 };
            let selected = if seeded.once_in(3) { SELECTED } else { 0 };
            table.set_flags(word, (valid | selected) as u8);
        }
    }
    table.mended()
}

// ---- Strings ----

/// Entry n / 30 with a length about 223, 255 and more.
fn each_length(n: usize, _: &mut Seeded) -> Table {
    let mut table = full_table_with_extras();
    let number = n / 30;
    let entry = table.entries()[number];
    let size = [218, 250, 300][n % 3] + n % 30 / 3;
    let mut text = vec![b'a'; size];
    if entry.is_host_name {
        text.iter_mut().skip(40).step_by(41).for_each(|b| *b = b'.');
        *text.last_mut().unwrap() = b'z';
    }
    table.append_text(number, &text);
    table.mended()
}

// ---- More than one thing ----

fn large_damaged(_: usize, seeded: &mut Seeded) -> Table {
    let mut table = large_table_with_extras(seeded);
    for _ in 0..seeded.between(1, 2) {
        let damage = seeded.one_of(&[
            damage::any_damage_with_extras as Damage,
            length_near_64_kib,
            offsets_near_64_kib,
        ]);
        damage(seeded, &mut table);
    }
    table.mended()
}

fn several_faults(_: usize, seeded: &mut Seeded) -> Table {
    let mut table = table_with_extras(seeded);
    for _ in 0..seeded.between(2, 4) {
        damage::any_damage_with_extras(seeded, &mut table);
    }
    if seeded.once_in(20) {
        return table;
    }
    table.mended()
}
