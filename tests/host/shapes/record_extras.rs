//! The records with extra structures on which the build is compared, by shape: see shapes/record.rs.

use crate::damage::record::{self as damage, Damage};
use crate::make::good_records::*;
use crate::make::good_tables::any_bytes;
use crate::make::record::*;
use crate::make::seeded::Seeded;
use crate::model::layout::*;
use crate::model::record_range::*;
use crate::shapes::record::*;

/// The size of the range of `three_extras`.
const THREE_SIZE: usize = 642;

/// Rooms from nothing up to a little more than `three_extras` needs.
const EACH_ROOM: usize = 600;

const SIX_OF_EACH: Extras = Some((6, 6));

pub const EXTRA_SHAPES: &[Shape] = &[
    ("good records with extras", 40_000, |_, s| {
        record_with_an_extra(s)
    }),
    ("no extras, range of 421 bytes", 4_000, |_, s| {
        good_of(s, 0, 0)
    }),
    ("each number of extras", 7 * 7 * 100, |n, s| {
        good_of(s, n % 7, n / 7 % 7)
    }),
    ("49 strings", 6_000, forty_nine),
    ("49 short strings", 6_000, |_, s| {
        whole_record(s, SIX_OF_EACH, 3)
    }),
    ("strings of one letter, extras", 5_000, |_, s| {
        let given = record_with_an_extra_alone(s);
        with_one_letter(s, given)
    }),
    ("empty or missing, extras", 4_000, |_, s| {
        let given = record_with_an_extra_alone(s);
        with_empty_or_missing(s, given)
    }),
    ("49 strings as long as they may be", 300, |n, s| {
        let given = record_without_strings(s, SIX_OF_EACH, 1);
        with_longest_strings(n, s, given)
    }),
    ("each room, three extras", EACH_ROOM, |n, _| {
        three_extras().into_room(n)
    }),
    ("each size of the range, extras", 1_500, each_size),
    ("sizes that two numbers may have", 4_000, sizes_of_others),
    (
        "each byte of what gives extras",
        (THREE_SIZE - 419) * 256,
        each_byte,
    ),
    ("each Index of each extra", 12 * 256, each_index),
    ("pairs of Index values", 20_000, index_pairs),
    ("each value of each extra's mark", 36 * 64, each_mark),
    ("each byte of flags, extras", 12 * 256, each_flags),
    ("each CHAP type, extras", 6 * 256, each_chap_type),
    ("49 strings of each length", 49 * 30, each_length),
    ("a seventh extra", 8_000, too_many),
    ("a seventh extra and a fault", 8_000, too_many_damaged),
    ("record range of another size", 4_000, |_, s| {
        damaged(s, damage::range_size)
    }),
    ("other numbers of extras", 4_000, |_, s| {
        damaged(s, damage::extra_count)
    }),
    ("extras' marks", 4_000, |_, s| {
        damaged(s, damage::extra_mark)
    }),
    ("extras' Index", 6_000, |_, s| {
        damaged(s, damage::extra_index)
    }),
    ("order of Index", 8_000, |_, s| {
        damaged(s, damage::index_order)
    }),
    ("extras' flags", 5_000, |_, s| {
        damaged(s, damage::extra_flags)
    }),
    ("CHAP types, extras", 3_000, |_, s| {
        damaged(s, damage::chap_type)
    }),
    ("strings past the range, extras", 8_000, |_, s| {
        damaged(s, damage::entry_outside)
    }),
    ("strings too long, extras", 8_000, |_, s| {
        damaged(s, damage::entry_too_long)
    }),
    ("zero bytes, extras", 8_000, |_, s| {
        damaged(s, damage::zero_byte)
    }),
    ("host names of extras", 6_000, |_, s| {
        damaged(s, damage::host_name)
    }),
    ("one fault, extras", 15_000, |_, s| {
        damaged(s, damage::any_damage_with_extras)
    }),
    ("several faults, extras", 16_000, several_faults),
];

// ---- Good records ----

fn good_of(seeded: &mut Seeded, nics: usize, targets: usize) -> Given {
    let longest = seeded.one_of(&[1, 3, 12, 40]);
    let mut given = whole_record(seeded, Some((nics, targets)), longest);
    for slot in 0..SLOTS.len() {
        if seeded.once_in(3) {
            given.mark_slot(slot, 0);
        }
    }
    given
}

/// Extras with no string yet.
fn record_with_an_extra_alone(seeded: &mut Seeded) -> Given {
    let extras = (seeded.between(0, 3), seeded.between(1, 3));
    record_without_strings(seeded, Some(extras), 2)
}

fn forty_nine(_: usize, seeded: &mut Seeded) -> Given {
    let longest = seeded.one_of(&[1, 2, 6, 40, 255]);
    whole_record(seeded, SIX_OF_EACH, longest)
}

/// Target 0, NIC 5, Target 9 and Target 255, with strings of each.
fn three_extras() -> Given {
    let texts: [(usize, &[u8]); 6] = [
        (3, b"depot7"),
        (13, b"ab.c-d"),
        (14, b"iqn.t9"),
        (15, b"7"),
        (19, b"depot7"),
        (23, b""),
    ];
    record_with_extras(&[2], &[5], &[9, 255], &texts)
}

// ---- The range ----

/// Ranges of each size up to a little more than the longest, with numbers of extras that fit or do not.
fn each_size(n: usize, seeded: &mut Seeded) -> Given {
    let mut given = good_record_with_extras(seeded);
    let filler = seeded.one_of(&[0, 1]);
    given.record.resize(n, filler);
    if seeded.once_in(2) && n > EXTRA_TARGETS {
        given.record[EXTRA_NICS] = seeded.between(0, 7) as u8;
        given.record[EXTRA_TARGETS] = seeded.between(0, 7) as u8;
    }
    given
}

/// The size of a range with other numbers of extras, or one byte off it.
fn sizes_of_others(_: usize, seeded: &mut Seeded) -> Given {
    let mut given = good_record_with_extras(seeded);
    let size = range_size(seeded.between(0, 8), seeded.between(0, 8));
    let size = seeded.one_of(&[size, size, size + 1, size - 1, BASE_SIZE, BASE_SIZE + 1]);
    given.record.resize(size, 0);
    given
}

fn each_byte(n: usize, _: &mut Seeded) -> Given {
    let mut given = three_extras();
    assert_eq!(given.record.len(), THREE_SIZE);
    given.record[BASE_SIZE + n / 256] = (n % 256) as u8;
    given
}

/// Each of the 36 marks of extras, with 0, 1 and values above.
fn each_mark(n: usize, seeded: &mut Seeded) -> Given {
    let mut given = whole_record(seeded, SIX_OF_EACH, 3);
    let mark = given.entries()[ENTRIES.len() + n / 64].mark;
    given.record[mark] = (n % 64 * 4 + n % 3) as u8;
    given
}

// ---- Index ----

fn each_index(n: usize, seeded: &mut Seeded) -> Given {
    let mut given = good_of(seeded, 6, 6);
    given.set_index(SLOTS.len() + n / 256, (n % 256) as u8);
    given
}

/// Two extras of one kind, sometimes one of the other, with Index values near each other or any.
fn index_pairs(_: usize, seeded: &mut Seeded) -> Given {
    let (nics, targets) = seeded.one_of(&[(2, 0), (0, 2), (2, 1), (1, 2), (2, 2)]);
    let mut given = record_without_strings(seeded, Some((nics, targets)), 3);
    for slot in given.extra_slots() {
        let any = seeded.byte();
        let index = seeded.one_of(&[0, 1, 2, 3, 4, 5, 254, 255, any, any]);
        given.set_index(slot, index);
    }
    given
}

// ---- Structures and strings ----

fn each_flags(n: usize, seeded: &mut Seeded) -> Given {
    let mut given = good_of(seeded, 6, 6);
    given.set_flags(SLOTS.len() + n / 256, (n % 256) as u8);
    given
}

fn each_chap_type(n: usize, seeded: &mut Seeded) -> Given {
    let mut given = good_of(seeded, 6, 6);
    given.set(SLOTS.len() + 6 + n / 256, CHAP_TYPE_AT, (n % 256) as u8);
    given
}

/// Each entry alone with lengths about 0, 63, 223, 255 and more.
fn each_length(n: usize, seeded: &mut Seeded) -> Given {
    let mut given = record_without_strings(seeded, SIX_OF_EACH, 1);
    let (entry, step) = (n / 30, n % 30);
    let size = [0, 62, 220, 252, 510][step % 5] + step / 5;
    given.give(entry, &vec![b'q'; size]);
    given
}

// ---- Faults ----

/// More than six of a kind, with ascending Index values; marks and strings as it falls.
fn too_many(_: usize, seeded: &mut Seeded) -> Given {
    let fewer = seeded.between(0, 6);
    let many = seeded.between(7, 8);
    let (nics, targets) = seeded.one_of(&[(many, fewer), (fewer, many), (many, many)]);
    let filler = any_bytes(seeded, range_size(nics, targets));
    let mut given = Given::with_extras(&filler, nics, targets);
    for (first, count) in [(0, nics), (nics, targets)] {
        for (i, index) in ascending(seeded, count).iter().enumerate() {
            given.set_index(SLOTS.len() + first + i, *index);
        }
    }
    given
}

fn too_many_damaged(n: usize, seeded: &mut Seeded) -> Given {
    let mut given = too_many(n, seeded);
    damage::any_damage_with_extras(seeded, &mut given);
    given
}

/// A good record with extras that one fault was put in.
fn damaged(seeded: &mut Seeded, damage: Damage) -> Given {
    let mut given = record_with_an_extra(seeded);
    damage(seeded, &mut given);
    given
}

fn several_faults(_: usize, seeded: &mut Seeded) -> Given {
    let mut given = record_with_an_extra(seeded);
    for _ in 0..seeded.between(2, 5) {
        damage::any_damage_with_extras(seeded, &mut given);
    }
    if seeded.once_in(20) {
        damage::range_size(seeded, &mut given);
    }
    given
}
