//! The tables that are rebuilt, by shape, beside those on which the check is compared: see shapes/table.rs.
//! Most of them have no string with a zero byte, so that they are rebuilt and not refused.

use crate::damage::table as damage;
use crate::make::good_records::{good_record, record_with_an_extra};
use crate::make::good_tables::*;
use crate::make::seeded::Seeded;
use crate::make::table::Table;
use crate::model::build::table_with_no_secret;
use crate::model::layout::*;
use crate::model::record::record_given;
use crate::model::string_stretches::stretches;
use crate::shapes::table::Shape;

/// Seeds of these shapes are numbered on from here.
pub const FIRST_SHAPE: usize = 1_000;

pub const REBUILD_SHAPES: &[Shape] = &[
    ("no zero bytes", 17_000, |_, s| clean(s, lent_table)),
    ("no zero bytes, extras", 23_000, |_, s| {
        clean(s, table_with_extras)
    }),
    ("packed in any order", 10_000, |_, s| clean(s, packed_table)),
    ("rubbish in all unused bytes", 8_000, rubbish),
    ("strings that end in strings", 10_000, nested),
    ("Length longer than needed", 3_000, longer),
    ("no zero bytes, over 64 KiB", 500, |_, s| {
        clean(s, large_table)
    }),
    ("no zero bytes, over 64 KiB, extras", 500, |_, s| {
        clean(s, large_table_with_extras)
    }),
    ("zero bytes in some strings", 10_000, zeros),
    ("zero bytes, and a fault", 8_000, zeros_and_fault),
    ("CHAP types, extras", 3_000, chap_types),
    ("strings too long, extras", 3_000, too_long),
    ("built as if there were no secrets", 12_000, built_to_share),
    ("packed, secrets end other strings", 12_000, packed_to_share),
];

/// A table without zero bytes in its strings.
fn clean(seeded: &mut Seeded, make: fn(&mut Seeded) -> Table) -> Table {
    let table = make(seeded);
    without_zeros(seeded, table)
}

fn any_table(seeded: &mut Seeded) -> Table {
    let make = seeded.one_of(&[
        lent_table as fn(&mut Seeded) -> Table,
        table_with_extras,
        packed_table,
    ]);
    clean(seeded, make)
}

/// A string that has zero bytes becomes what stands behind the last of them, or missing.
fn without_zeros(seeded: &mut Seeded, mut table: Table) -> Table {
    for (field, _) in string_fields(&table) {
        let (size, offset) = (table.word(field), table.word(field + 2));
        let text = &table.bytes[offset..offset + size];
        if let Some(zero) = text.iter().rposition(|byte| *byte == 0) {
            let (mut size, mut offset) = (size - zero - 1, offset + zero + 1);
            if offset > 0xFFFF || seeded.once_in(4) {
                (size, offset) = (0, 0);
            }
            table.write_word(field, size);
            table.write_word(field + 2, offset);
        }
    }
    table.mended()
}

/// Where each string of a structure that is there has its length, with what it may be.
fn string_fields(table: &Table) -> Vec<(usize, Entry)> {
    let slots = slots(&table.bytes);
    let field = |entry: Entry| {
        let start = slots[entry.slot].start?;
        Some(((start + entry.at) as usize, entry))
    };
    entries(&slots).into_iter().filter_map(field).collect()
}

/// Any bytes wherever nothing looks: in the header's reserved bytes, in gaps, and where no string of the
/// heap stands.
fn rubbish(_: usize, seeded: &mut Seeded) -> Table {
    let mut table = any_table(seeded);
    let mut is_used = vec![false; table.length()];
    let mut used = |from: u64, to: u64| is_used[from as usize..to as usize].fill(true);
    used(0, OEM_TABLE_ID.end as u64);
    used(CONTROL_START, control_end(&table.bytes));
    for found in by_word(&table.bytes) {
        if let Some(start) = found.start {
            used(start, start + found.kind.length);
        }
    }
    for (field, _) in string_fields(&table) {
        let (size, offset) = (table.word(field) as u64, table.word(field + 2) as u64);
        if offset != 0 {
            used(offset, offset + size + 1);
        }
    }
    for (at, is_used) in is_used.into_iter().enumerate() {
        if !is_used {
            table.bytes[at] = seeded.byte();
        }
    }
    table.mended()
}

/// A few strings behind the table, and entries that point anywhere into them, up to their ends. Host names
/// point into labels.
fn nested(_: usize, seeded: &mut Seeded) -> Table {
    let mut table = any_table(seeded);
    let mut runs = Vec::new();
    for _ in 0..seeded.between(1, 4) {
        let is_label = seeded.once_in(2);
        let size = seeded.between(1, if is_label { 63 } else { 255 });
        let letters: &[u8] = if is_label { b"ab" } else { b"a-\xFF" };
        let text: Vec<u8> = (0..size).map(|_| seeded.one_of(letters)).collect();
        runs.push((is_label, table.length(), size));
        table.append_bytes(&text);
        table.append_bytes(&[0]);
    }
    for (field, entry) in string_fields(&table) {
        let (is_label, start, size) = seeded.one_of(&runs);
        if entry.is_host_name && !is_label || seeded.once_in(5) {
            continue;
        }
        let most = size.min(entry.longest as usize);
        let some = seeded.between(0, most);
        let size_of = seeded.one_of(&[most, some, some, 1, 0]);
        let size_of = size_of.max(usize::from(entry.is_host_name));
        table.write_word(field, size_of);
        table.write_word(field + 2, start + size - size_of);
    }
    table.mended()
}

/// The table of a record in which secrets share their bytes as other strings do: what a build made before
/// secrets had bytes of their own.
fn built_to_share(_: usize, seeded: &mut Seeded) -> Table {
    let given = match seeded.once_in(2) {
        true => good_record(seeded),
        false => record_with_an_extra(seeded),
    };
    let bytes = table_with_no_secret(&record_given(&given.record, given.strings()));
    let lent = bytes.len();
    Table { bytes, lent }
}

/// Nothing to spare and no byte for secrets alone: each that there is stands at the end of another string.
fn packed_to_share(_: usize, seeded: &mut Seeded) -> Table {
    let mut table = clean(seeded, |s| packed_table_where(s, |entry| !entry.is_secret));
    let strings = stretches(&table.bytes);
    let odds = seeded.one_of(&[1, 1, 2]);
    for (field, entry) in string_fields(&table) {
        if strings.is_empty() || !entry.is_secret || !seeded.once_in(odds) {
            continue;
        }
        let host = &strings[seeded.between(0, strings.len() - 1)].bytes;
        let some = seeded.between(0, host.len() - 1);
        let size = seeded.one_of(&[host.len() - 1, some, some, 0]);
        table.write_word(field, size);
        table.write_word(field + 2, host.end - 1 - size);
    }
    table.mended()
}

fn longer(_: usize, seeded: &mut Seeded) -> Table {
    let mut table = any_table(seeded);
    let size = seeded.one_of(&[1, 2, 7, 300, 1_500]);
    let more = any_bytes(seeded, size);
    table.append_bytes(&more);
    table.mended()
}

/// One to three strings, each with a zero byte at its first, its last or any place.
fn zeros(_: usize, seeded: &mut Seeded) -> Table {
    let mut table = any_table(seeded);
    let numbers = table.owned_entries();
    let entries = table.entries();
    for _ in 0..seeded.between(1, 3) {
        let number = match numbers.len() {
            0 => break,
            _ => seeded.one_of(&numbers),
        };
        if entries[number].is_host_name {
            continue;
        }
        let size = seeded.between(1, 9);
        let mut text: Vec<u8> = (0..size).map(|_| seeded.one_of(b"ab7")).collect();
        let anywhere = seeded.between(0, size - 1);
        text[seeded.one_of(&[0, size - 1, anywhere])] = 0;
        table.append_text(number, &text);
    }
    table.mended()
}

fn chap_types(_: usize, seeded: &mut Seeded) -> Table {
    let mut table = clean(seeded, table_with_extras);
    damage::chap_type(seeded, &mut table);
    table.mended()
}

fn too_long(_: usize, seeded: &mut Seeded) -> Table {
    let mut table = clean(seeded, table_with_extras);
    damage::entry_too_long(seeded, &mut table);
    table.mended()
}

fn zeros_and_fault(n: usize, seeded: &mut Seeded) -> Table {
    let mut table = zeros(n, seeded);
    damage::any_damage_with_extras(seeded, &mut table);
    table.mended()
}
