//! The inputs on which check, readings and login order are compared, by shape. An input is the same
//! on every machine and for every comparison.

use crate::damage::table::{self as damage, Damage};
use crate::known::samples::SAMPLES;
use crate::lent::table::LentTable;
use crate::make::good_tables::*;
use crate::make::seeded::Seeded;
use crate::make::table::*;
use crate::model::layout::*;
use crate::shapes::table_extras::EXTRA_SHAPES;

/// A name, how many inputs, and how number `n` of them is made.
pub type Shape = (&'static str, usize, fn(usize, &mut Seeded) -> Table);

const CASE_5_LENGTH: usize = 133;
const FULL_LENGTH: usize = 552;

const SHAPES: &[Shape] = &[
    ("each size from 0 to 700", 701, each_size),
    ("random bytes behind a header", 3_000, random_behind_header),
    ("good tables", 20_000, |_, seeded| lent_table(seeded)),
    ("samples with bytes changed", 8_000, sample_changed),
    ("cut after any byte", 5_000, cut),
    ("signature", 1_000, |_, s| damaged(s, damage::signature)),
    ("Length off by a little", 8_000, length_off),
    ("sum wrong", 4_000, sum_wrong),
    ("sum right over all that is lent", 3_000, sum_over_lent),
    (
        "each byte of case 5",
        CASE_5_LENGTH * 256,
        each_byte_of_case_5,
    ),
    (
        "each byte of a full table",
        FULL_LENGTH * 256,
        each_byte_of_full,
    ),
    ("OEM fields, zeros at each place", 1 << 14, oem_zeros),
    ("OEM tails", 2_000, |_, s| damaged(s, damage::oem_tail)),
    ("Control's start", 3_000, |_, s| {
        damaged(s, damage::control_start_bytes)
    }),
    ("Extensions", 3_000, |_, s| damaged(s, damage::extensions)),
    ("each byte of flags", 6 * 256, each_flags),
    ("each CHAP type", 2 * 256, each_chap_type),
    ("each start of each structure", 5 * 261, each_start),
    ("Control words anywhere", 8_000, |_, s| {
        damaged(s, damage::control_word)
    }),
    ("structures' start bytes", 8_000, |_, s| {
        damaged(s, damage::structure_start_bytes)
    }),
    ("structures moved", 8_000, |_, s| {
        damaged(s, damage::structure_moved)
    }),
    ("structures moved onto others", 8_000, |_, s| {
        damaged(s, damage::structure_onto_another)
    }),
    ("structures strewn", 12_000, strewn),
    ("each offset and length", 164 * 164, each_offset),
    ("each place of a host name", 48 * 46, each_host_name_place),
    ("strings point anywhere", 12_000, |_, s| {
        damaged(s, damage::entry_words)
    }),
    ("strings at the heap's limits", 10_000, |_, s| {
        damaged(s, damage::entry_at_limits)
    }),
    ("strings in a gap", 3_000, string_in_gap),
    ("byte behind a string", 8_000, |_, s| {
        damaged(s, damage::entry_closing_byte)
    }),
    ("strings one byte off", 8_000, |_, s| {
        damaged(s, damage::entry_length)
    }),
    ("strings of each length", 13 * 90, each_length),
    ("host names of every kind", 14_000, host_names),
    ("missing, empty, no offset", 8_000, |_, s| {
        damaged(s, damage::missing_or_empty)
    }),
    ("each pair of target flags", 2 * 17 * 17, each_target_flags),
    ("over 64 KiB", 1_200, |_, seeded| large_table(seeded)),
    ("over 64 KiB, damaged", 1_800, large_damaged),
    ("one fault", 12_000, |_, s| damaged(s, damage::any_damage)),
    ("several faults", 20_000, several_faults),
];

/// One input, and how to make it again.
pub struct Input {
    pub shape: &'static str,
    pub seed: u64,
    pub table: LentTable,
    pub seeded: Seeded,
}

/// Tables without extra words, mostly, then tables with them.
fn shapes() -> impl Iterator<Item = (usize, Shape)> {
    SHAPES.iter().chain(EXTRA_SHAPES).copied().enumerate()
}

/// Shows every input to `agrees`, until one does not.
pub fn all_agree(agrees: impl FnMut(Input) -> bool) -> bool {
    inputs_agree(shapes(), 1, agrees)
}

/// Shows one input in `step` of each shape.
pub fn some_agree(step: usize, agrees: impl FnMut(Input) -> bool) -> bool {
    inputs_agree(shapes(), step, agrees)
}

/// Shows one input in `step` of each of these shapes, whose numbers keep their seeds apart.
pub fn inputs_agree(
    shapes: impl Iterator<Item = (usize, Shape)>,
    step: usize,
    mut agrees: impl FnMut(Input) -> bool,
) -> bool {
    for (i, shape @ (_, inputs, _)) in shapes {
        for n in (0..inputs).step_by(step) {
            if !agrees(input(i, shape, n)) {
                return false;
            }
        }
    }
    true
}

/// About `count` inputs of each shape, from its first to its last.
pub fn some_of_each(count: usize) -> Vec<Input> {
    let mut some = Vec::new();
    for (i, shape @ (_, inputs, _)) in shapes() {
        // An odd step meets every remainder in shapes that count through bytes.
        let step = (inputs / count) | 1;
        some.extend((0..inputs).step_by(step).map(|n| input(i, shape, n)));
    }
    some
}

fn input(i: usize, (shape, _, make): Shape, n: usize) -> Input {
    let seed = ((i as u64) << 32) + n as u64;
    let mut seeded = Seeded::new(seed);
    let table = make(n, &mut seeded);
    Input {
        shape,
        seed,
        table: LentTable::new(&mut seeded, &table),
        seeded,
    }
}

/// A good table that one fault was put in, its sum mended.
fn damaged(seeded: &mut Seeded, damage: Damage) -> Table {
    let mut table = table_with_structures(seeded);
    damage(seeded, &mut table);
    table.mended()
}

// ---- Bytes, Length and sum ----

fn each_size(n: usize, seeded: &mut Seeded) -> Table {
    let bytes = any_bytes(seeded, n);
    let mut table = Table { bytes, lent: n };
    if seeded.once_in(2) {
        table.write(0, SIGNATURE);
    }
    table
}

/// The first rules hold; what follows may be anything.
fn random_behind_header(_: usize, seeded: &mut Seeded) -> Table {
    let length = seeded.between(CONTROL_END as usize, 300);
    let mut table = Table::new(length);
    let from = seeded.one_of(&[8, 10, 16, 24, 48, 53, 54, 56]);
    let random = seeded.bytes(length - from);
    table.write(from, &random);
    table.mended()
}

fn sample_changed(n: usize, seeded: &mut Seeded) -> Table {
    let bytes = SAMPLES[n % SAMPLES.len()].table.to_vec();
    let lent = bytes.len();
    let mut table = Table { bytes, lent };
    for _ in 0..seeded.between(1, 2) {
        if n < SAMPLES.len() {
            break;
        }
        let anywhere = seeded.between(0, lent - 1);
        let in_structures = seeded.between(0, 480.min(lent - 1));
        let at = seeded.one_of(&[anywhere, in_structures, in_structures]);
        table.bytes[at] = seeded.byte();
    }
    table.mended()
}

/// The rest of the table stands behind the lent bytes.
fn cut(_: usize, seeded: &mut Seeded) -> Table {
    let mut table = good_table(seeded);
    let length = table.length();
    let early = seeded.between(0, 70.min(length));
    let anywhere = seeded.between(0, length);
    table.lent = seeded.one_of(&[early, anywhere, length - 1, length]);
    table
}

/// Length changed, with bytes behind the table that are lent or not; the sum is right over the new
/// Length or the old.
fn length_off(_: usize, seeded: &mut Seeded) -> Table {
    let mut table = good_table(seeded);
    let more = any_bytes(seeded, 10);
    table.lend_more(&more);
    table.lent -= seeded.one_of(&[0, 0, 9, 10]);
    let length = table.length();
    match seeded.between(0, 2) {
        0 => damage::table_length(seeded, &mut table),
        1 => table.set_length(length as u32 - 1),
        _ => table.set_length(length as u32 + 1),
    }
    if seeded.once_in(5) {
        return table;
    }
    table.mended()
}

fn sum_wrong(_: usize, seeded: &mut Seeded) -> Table {
    let mut table = lent_table(seeded);
    let at = seeded.between(0, table.length() - 1);
    let at = seeded.one_of(&[at, at, CHECKSUM as usize]);
    table.bytes[at] = table.bytes[at].wrapping_add(seeded.one_of(&[1, 0x80, 0xFF]));
    table
}

/// More is lent than Length, and the sum is right over the one or the other.
fn sum_over_lent(_: usize, seeded: &mut Seeded) -> Table {
    let mut table = good_table(seeded);
    let more = seeded.between(1, 40);
    let more = seeded.bytes(more);
    table.lend_more(&more);
    if seeded.once_in(2) {
        let sum = table.bytes.iter().fold(0u8, |sum, b| sum.wrapping_add(*b));
        table.bytes[CHECKSUM as usize] = table.bytes[CHECKSUM as usize].wrapping_sub(sum);
    }
    table
}

fn each_byte_of_case_5(n: usize, _: &mut Seeded) -> Table {
    with_byte(case_5(), n)
}

/// More bytes are lent than the table has, so that a greater Length is no fault in itself.
fn each_byte_of_full(n: usize, _: &mut Seeded) -> Table {
    let mut table = full_table();
    assert_eq!(table.length(), FULL_LENGTH);
    table.lend_more(&[0; 120]);
    with_byte(table, n)
}

/// Byte n / 256 becomes n modulo 256.
fn with_byte(mut table: Table, n: usize) -> Table {
    table.bytes[n / 256] = n as u8;
    table.mended()
}

// ---- Header and Control ----

/// Bit i of `n` says whether byte i of the two OEM fields is zero.
fn oem_zeros(n: usize, seeded: &mut Seeded) -> Table {
    let mut table = case_5();
    for i in 0..14 {
        if n >> i & 1 == 0 {
            table.bytes[OEM_ID.start + i] = seeded.between(1, 255) as u8;
        }
    }
    table.mended()
}

fn each_flags(n: usize, _: &mut Seeded) -> Table {
    let mut table = full_table();
    match n / 256 {
        0 => table.set_control_flags(n as u8),
        i => table.set_flags(i - 1, n as u8),
    }
    table.mended()
}

fn each_chap_type(n: usize, _: &mut Seeded) -> Table {
    let mut table = full_table();
    let start = table.start(2 + 2 * (n / 256));
    table.write(start + CHAP_TYPE_AT as usize, &[n as u8]);
    table.mended()
}

/// Control multi or single; each target absent or with each of its 16 flags; structures anywhere.
fn each_target_flags(n: usize, seeded: &mut Seeded) -> Table {
    let mut table = loop {
        let table = good_table(seeded);
        if table.start(2) != 0 && table.start(4) != 0 {
            break table;
        }
    };
    table.set_control_flags((n % 2) as u8);
    for (slot, flags) in [(2, n / 2 % 17), (4, n / 34)] {
        match flags {
            16 => table.set_start(slot, 0),
            _ => table.set_flags(slot, flags as u8),
        }
    }
    table.mended()
}

// ---- Structures ----

/// One structure alone, at start n modulo 261, in a table of 240 bytes.
fn each_start(n: usize, _: &mut Seeded) -> Table {
    let mut table = Table::new(240);
    table.bytes.extend([0; 130]);
    table.put_structure(n / 261, n % 261);
    table.mended()
}

/// Structures at multiples of eight close together. Their start bytes are laid last, so that little
/// but the sharing is wrong.
fn strewn(_: usize, seeded: &mut Seeded) -> Table {
    let steps = seeded.one_of(&[20, 40, 60, 90]);
    let mut table = Table::new(FIRST_START as usize + 8 * steps + NIC.length as usize);
    let odds = seeded.one_of(&[1, 1, 2]);
    let slots: Vec<usize> = (0..5).filter(|_| seeded.once_in(odds)).collect();
    for slot in &slots {
        let start = FIRST_START as usize + 8 * seeded.between(0, steps);
        put_filled(seeded, &mut table, *slot, start);
    }
    for slot in &slots {
        table.put_structure(*slot, table.start(*slot));
        if seeded.once_in(2) {
            let flags = SLOTS[*slot].kind.named_flags as u8 & seeded.byte();
            table.set_flags(*slot, flags);
        }
    }
    table.mended()
}

// ---- Strings ----

/// Target 0 alone in 160 bytes: an entry with each offset and length up to a little past Length.
fn each_offset(n: usize, _: &mut Seeded) -> Table {
    let mut table = structures(&[2]);
    table.append_bytes(b"\0\0a\0bc\0def\0\0ghijk\0l\0\0mnopqrst\0uv");
    table.point(3, n / 164, n % 164);
    table.mended()
}

/// NIC 0 alone: its host name from each place to each other of a heap with good names and bad.
fn each_host_name_place(n: usize, _: &mut Seeded) -> Table {
    let mut table = structures(&[1]);
    let heap = table.length();
    table.append_bytes(b"ab.c\0d-e.\0.f..g\0-h\0i-\0j.k.\0l--m.n\0o_\0");
    table.point(1, heap - 3 + n / 46, n % 46);
    table.mended()
}

/// A string that would be good, but stands in a gap below the last structure's end.
fn string_in_gap(_: usize, seeded: &mut Seeded) -> Table {
    let mut table = structures(&[0, 1, 2, 3, 4]);
    let present = seeded.between(1, 31);
    let mut last = 0;
    for slot in 0..5 {
        if present >> slot & 1 == 0 {
            table.set_start(slot, 0);
        } else {
            last = last.max(table.start(slot));
        }
    }
    let entries = table.owned_entries();
    let entry = seeded.one_of(&entries);
    let free = seeded.between(CONTROL_END as usize, last + 60);
    let offset = seeded.one_of(&[free, free, 66, 67, last, last - 3]);
    table.append_bytes(&[0; 16]);
    if table.bytes[offset..offset + 3] == [0; 3] {
        table.write(offset, b"ab");
    }
    table.point(entry, offset, 2);
    table.mended()
}

/// Entry n / 90 with a length from 215 to 304.
fn each_length(n: usize, _: &mut Seeded) -> Table {
    let mut table = full_table();
    let entry = &ENTRIES[n / 90];
    let mut text = vec![b'a'; 215 + n % 90];
    if entry.is_host_name {
        text.iter_mut().skip(40).step_by(41).for_each(|b| *b = b'.');
        *text.last_mut().unwrap() = b'z';
    }
    table.append_text(n / 90, &text);
    table.mended()
}

fn host_names(_: usize, seeded: &mut Seeded) -> Table {
    let mut table = match seeded.between(0, 2) {
        0 => structures(&[1]),
        1 => structures(&[3]),
        _ => full_table(),
    };
    damage::host_name(seeded, &mut table);
    damage::host_name(seeded, &mut table);
    table.mended()
}

// ---- More than one thing ----

/// Starts, offsets and Length about 64 KiB, one or more of them wrong.
fn large_damaged(_: usize, seeded: &mut Seeded) -> Table {
    let mut table = large_table(seeded);
    for _ in 0..seeded.between(1, 2) {
        let damage = seeded.one_of(&[
            damage::any_damage as Damage,
            length_near_64_kib,
            start_near_64_kib,
            offsets_near_64_kib,
        ]);
        damage(seeded, &mut table);
    }
    table.mended()
}

pub fn length_near_64_kib(seeded: &mut Seeded, table: &mut Table) {
    let low = 0x10000 - 50;
    let high = table.bytes.len().min(0x10000 + 200);
    table.set_length(seeded.between(low, high) as u32);
}

fn start_near_64_kib(seeded: &mut Seeded, table: &mut Table) {
    let slot = seeded.between(0, 4);
    let start = 0xFFF8 - 8 * seeded.between(0, 14);
    put_filled(seeded, table, slot, start);
}

pub fn offsets_near_64_kib(seeded: &mut Seeded, table: &mut Table) {
    for entry in table.owned_entries() {
        let offset = 0xFFFF - seeded.between(0, 300);
        let length = seeded.between(0, 600);
        let to_end = table.length().saturating_sub(offset + 1);
        table.point(entry, offset, seeded.one_of(&[length, to_end, 0]));
    }
}

fn several_faults(_: usize, seeded: &mut Seeded) -> Table {
    let mut table = table_with_structures(seeded);
    for _ in 0..seeded.between(2, 4) {
        damage::any_damage(seeded, &mut table);
    }
    if seeded.once_in(20) {
        return table;
    }
    table.mended()
}
