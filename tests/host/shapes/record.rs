//! The inputs on which the build is compared, by shape. An input is the same on every machine.

use crate::damage::record::{self as damage, Damage};
use crate::lent::build::LentBuild;
use crate::make::good_records::*;
use crate::make::good_tables::{any_bytes, any_host_name};
use crate::make::record::*;
use crate::make::seeded::Seeded;
use crate::make::table::dots_between;
use crate::model::build::least_table;
use crate::model::layout::*;
use crate::model::record_range::*;
use crate::shapes::record_extras::EXTRA_SHAPES;

/// A name, how many inputs, and how number `n` of them is made.
pub type Shape = (&'static str, usize, fn(usize, &mut Seeded) -> Given);

const SHAPES: &[Shape] = &[
    ("good records", 50_000, |_, seeded| good_record(seeded)),
    ("thirteen strings", 12_000, thirteen),
    ("short strings", 12_000, |_, seeded| {
        whole_record(seeded, None, 3)
    }),
    ("strings of one letter", 6_000, one_letter),
    ("strings empty or missing", 4_000, empty_or_missing),
    ("strings as long as they may be", 1_500, longest_strings),
    ("strings in the record's own bytes", 2_000, in_the_record),
    ("strings about 64 KiB on", 400, about_64_kib),
    ("each room of four records", EACH_ROOM, each_room),
    ("each size of the record range", 901, each_size),
    ("each byte of a full record", BASE_SIZE * 256, each_byte),
    ("each value of each mark", 18 * 256, each_mark),
    ("each byte of flags", 6 * 256, each_flags),
    ("each CHAP type", 4 * 256, each_chap_type),
    ("OEM fields, zeros at each place", 1 << 14, oem_zeros),
    ("strings of each length", 13 * 90, each_length),
    ("strings at the end of the range", 13 * 13 * 13, at_the_end),
    ("record range of another size", 1_000, |_, s| {
        damaged(s, damage::range_size)
    }),
    ("marks", 2_000, |_, s| damaged(s, damage::mark)),
    ("OEM tails", 2_000, |_, s| damaged(s, damage::oem_tail)),
    ("structures' flags", 4_000, |_, s| {
        damaged(s, damage::structure_flags)
    }),
    ("CHAP types", 2_000, |_, s| damaged(s, damage::chap_type)),
    ("strings past the range", 8_000, |_, s| {
        damaged(s, damage::entry_outside)
    }),
    ("strings too long", 6_000, |_, s| {
        damaged(s, damage::entry_too_long)
    }),
    ("zero bytes", 8_000, |_, s| damaged(s, damage::zero_byte)),
    ("host names of every kind", 10_000, |_, s| {
        damaged(s, damage::host_name)
    }),
    ("faults of what is no part", 8_000, faults_of_no_part),
    ("one fault", 12_000, |_, s| damaged(s, damage::any_damage)),
    ("several faults", 16_000, several_faults),
];

/// One input, and how to make it again.
pub struct BuildInput {
    pub shape: &'static str,
    pub seed: u64,
    pub lent: LentBuild,
    pub seeded: Seeded,
}

/// Shows every input to `agrees`, until one does not.
pub fn all_agree(agrees: impl FnMut(BuildInput) -> bool) -> bool {
    some_agree(1, agrees)
}

/// Shows one input in `step` of each shape.
pub fn some_agree(step: usize, mut agrees: impl FnMut(BuildInput) -> bool) -> bool {
    for (i, (shape, inputs, make)) in SHAPES.iter().chain(EXTRA_SHAPES).enumerate() {
        for n in (0..*inputs).step_by(step) {
            let seed = 0xB000_0000_0000 + ((i as u64) << 32) + n as u64;
            let mut seeded = Seeded::new(seed);
            let given = make(n, &mut seeded);
            let room_size = room_size(&mut seeded, &given);
            let input = BuildInput {
                shape,
                seed,
                lent: LentBuild::new(&mut seeded, &given, room_size),
                seeded,
            };
            if !agrees(input) {
                return false;
            }
        }
    }
    true
}

/// A room of the least Length, of one byte less, of a little or much more; or any, where the
/// contents are refused.
fn room_size(seeded: &mut Seeded, given: &Given) -> usize {
    if let Some(size) = given.room_size {
        return size;
    }
    match least_table(&given.record, given.strings()) {
        Ok(table) => {
            let least = table.len();
            let less = seeded.between(0, least - 1);
            let more = least + seeded.between(1, 90);
            seeded.one_of(&[
                least,
                least,
                least,
                least - 1,
                less,
                least + 1,
                more,
                16_384,
            ])
        }
        Err(_) => {
            let any = seeded.between(0, 700);
            seeded.one_of(&[0, any, any, 16_384])
        }
    }
}

// ---- Good records ----

fn thirteen(_: usize, seeded: &mut Seeded) -> Given {
    let longest = seeded.one_of(&[1, 2, 6, 40, 255]);
    whole_record(seeded, None, longest)
}

fn one_letter(_: usize, seeded: &mut Seeded) -> Given {
    let given = record_without_strings(seeded, None, 2);
    with_one_letter(seeded, given)
}

/// Each string is a tail of every longer one, host names that are too long for a label apart.
pub fn with_one_letter(seeded: &mut Seeded, mut given: Given) -> Given {
    let entries = given.entries();
    let longest = seeded.one_of(&[1, 3, 8, 63, 223]);
    let mut texts = Vec::new();
    for entry in given.owned_entries() {
        let is_host_name = entries[entry].text.is_host_name;
        let size = seeded.between(usize::from(is_host_name), longest);
        if !(is_host_name && size > 63 || seeded.once_in(4)) {
            texts.push((entry, vec![b'x'; size]));
        }
    }
    scatter(seeded, &mut given, texts);
    given
}

fn empty_or_missing(_: usize, seeded: &mut Seeded) -> Given {
    let given = record_without_strings(seeded, None, 2);
    with_empty_or_missing(seeded, given)
}

pub fn with_empty_or_missing(seeded: &mut Seeded, mut given: Given) -> Given {
    let entries = given.entries();
    if seeded.once_in(2) {
        let strings = any_bytes(seeded, 30);
        given.strings_mut().extend(strings);
    }
    let mut texts = Vec::new();
    for entry in given.owned_entries() {
        if !entries[entry].text.is_host_name && seeded.once_in(2) {
            texts.push((entry, Vec::new()));
        }
    }
    if seeded.once_in(6) && given.has_slot(1) {
        texts.push((1, any_host_name(seeded)));
    }
    scatter(seeded, &mut given, texts);
    given
}

fn longest_strings(n: usize, seeded: &mut Seeded) -> Given {
    let given = record_without_strings(seeded, None, 1);
    with_longest_strings(n, seeded, given)
}

/// Strings with no byte in common but by chance, each as long as it may be or nearly so.
pub fn with_longest_strings(n: usize, seeded: &mut Seeded, mut given: Given) -> Given {
    let mut texts = Vec::new();
    for (number, entry) in given.entries().iter().enumerate() {
        let mut text = dots_between(128, b'a');
        for at in (0..text.len()).step_by(2) {
            text[at] = seeded.one_of(b"abyz09");
        }
        let less = if n % 2 == 0 { 0 } else { seeded.between(0, 2) };
        // An even number of bytes more than the longest keeps a letter in front.
        text.drain(..text.len() - entry.text.longest as usize + 2 * less);
        texts.push((number, text));
    }
    scatter(seeded, &mut given, texts);
    given
}

/// NIC 1 and Target 1 are absent, and the strings stand in their images.
fn in_the_record(_: usize, seeded: &mut Seeded) -> Given {
    let mut given = record_without_strings(seeded, None, 1);
    given.strings_are_the_record = true;
    for slot in [3, 4] {
        given.mark_slot(slot, 0);
    }
    let from = IMAGES[3] as usize;
    for byte in &mut given.record[from..] {
        *byte = seeded.one_of(b"abc");
    }
    for entry in given.owned_entries() {
        let start = seeded.between(from, BASE_SIZE);
        let length = seeded.between(0, (BASE_SIZE - start).min(63));
        if length > 0 && seeded.once_in(2) {
            given.mark_entry(entry, 1);
            given.point(entry, start, length);
        }
    }
    given
}

/// Strings that start below 64 KiB and end past it, some past the range.
fn about_64_kib(_: usize, seeded: &mut Seeded) -> Given {
    let mut given = record_without_strings(seeded, None, 1);
    let size = 0x10000 + seeded.one_of(&[0, 1, 2, 63, 255, 70_000]) - seeded.between(0, 2);
    given.strings_mut().resize(size, b'a');
    for entry in given.owned_entries() {
        let longest = match ENTRIES[entry].is_host_name {
            true => 63,
            false => ENTRIES[entry].longest as usize,
        };
        let length = seeded.between(1, longest);
        let latest = (size - length).min(0xFFFF);
        let start = latest - seeded.one_of(&[0, 0, 0, 1, 300]);
        given.mark_entry(entry, 1);
        given.point(entry, start, length);
    }
    if seeded.once_in(3) {
        let entry = seeded.between(0, ENTRIES.len() - 1);
        let any = seeded.between(256, 0xFFFF);
        let length = seeded.one_of(&[1, 2, 255, 256, any, 0xFFFF]);
        let start = seeded.one_of(&[0, 1, 0xFFFF, 0xFFFE]);
        given.point(entry, start, length);
    }
    given
}

// ---- Each value of something ----

/// Rooms from nothing up to a little more than is needed.
const ROOMS: [usize; 4] = [150, 440, 620, 3_720];
const EACH_ROOM: usize = 150 + 440 + 620 + 3_720;

fn each_room(n: usize, _: &mut Seeded) -> Given {
    let records = [case_5, common_record, full_record, worst_record];
    let mut room = n;
    for (record, rooms) in records.iter().zip(ROOMS) {
        if room < rooms {
            return record().into_room(room);
        }
        room -= rooms;
    }
    unreachable!()
}

fn each_size(n: usize, seeded: &mut Seeded) -> Given {
    let mut given = good_record(seeded);
    let filler = seeded.one_of(&[0, 1]);
    given.record.resize(n, filler);
    given
}

fn each_byte(n: usize, _: &mut Seeded) -> Given {
    let mut given = full_record();
    given.record[n / 256] = (n % 256) as u8;
    given
}

/// Each value of each mark, where the structure is present or not.
fn each_mark(n: usize, seeded: &mut Seeded) -> Given {
    let mut given = good_record(seeded);
    given.record[SLOT_MARKS.start + n / 256] = (n % 256) as u8;
    given
}

fn each_flags(n: usize, seeded: &mut Seeded) -> Given {
    let mut given = good_record(seeded);
    let flags = (n % 256) as u8;
    match n / 256 {
        5 => given.set_control_flags(flags),
        slot => given.set_flags(slot, flags),
    }
    given
}

/// The byte where targets have their CHAP type, in NICs too.
fn each_chap_type(n: usize, seeded: &mut Seeded) -> Given {
    let mut given = good_record(seeded);
    given.set(1 + n / 256, CHAP_TYPE_AT, (n % 256) as u8);
    given
}

/// Every choice of zero bytes among the fourteen of both OEM fields.
fn oem_zeros(n: usize, seeded: &mut Seeded) -> Given {
    let mut given = good_record(seeded);
    for at in 0..GIVEN_OEM_TABLE_ID.end {
        let is_zero = n >> at & 1 == 1;
        given.record[at] = if is_zero { 0 } else { b'x' };
    }
    given
}

/// Each entry alone with lengths about 0, 63, 223, 255 and more, where the range holds them.
fn each_length(n: usize, seeded: &mut Seeded) -> Given {
    let mut given = record_without_strings(seeded, None, 1);
    let (entry, step) = (n / 90, n % 90);
    let size = [0, 62, 220, 250, 510][step % 5] + step / 5;
    let text: Vec<u8> = match ENTRIES[entry].is_host_name && step % 2 == 0 {
        true => dots_between(size / 2 + 1, b'a')[..size].to_vec(),
        false => vec![b'q'; size],
    };
    given.give(entry, &text);
    given
}

/// Starts and lengths about the end of a range of six bytes.
fn at_the_end(n: usize, seeded: &mut Seeded) -> Given {
    let mut given = record_without_strings(seeded, None, 1);
    given.give(0, b"depot7");
    given.mark_entry(0, seeded.between(0, 1) as u8);
    let (entry, start, length) = (n / 169, n / 13 % 13, n % 13);
    given.mark_entry(entry, 1);
    given.point(entry, start, length);
    given
}

// ---- Faults ----

/// A good record that one fault was put in.
fn damaged(seeded: &mut Seeded, damage: Damage) -> Given {
    let mut given = match seeded.once_in(3) {
        true => record_with_structures(seeded),
        false => record_with_strings(seeded),
    };
    damage(seeded, &mut given);
    given
}

fn several_faults(_: usize, seeded: &mut Seeded) -> Given {
    let mut given = record_with_structures(seeded);
    for _ in 0..seeded.between(2, 5) {
        damage::any_damage(seeded, &mut given);
    }
    if seeded.once_in(20) {
        damage::range_size(seeded, &mut given);
    }
    given
}

/// Faults in absent structures and missing strings, which are not looked at; marks stay 0 and 1.
fn faults_of_no_part(_: usize, seeded: &mut Seeded) -> Given {
    let mut given = good_record(seeded);
    for slot in 0..SLOTS.len() {
        if !given.has_slot(slot) {
            given.set_flags(slot, 0xFF);
            given.set(slot, CHAP_TYPE_AT, 3);
        }
    }
    let present = given.present_entries();
    for entry in (0..ENTRIES.len()).filter(|entry| !present.contains(entry)) {
        let any = seeded.next() as usize;
        let (length, start) = seeded.one_of(&[(0xFFFF, 0xFFFF), (256, 0), (any, any >> 16)]);
        given.point(entry, start, length);
    }
    given
}
