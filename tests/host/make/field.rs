//! Values that are told in ways of their own: addresses with runs of zero groups, numbers at their
//! limits, strings with bytes that have to be escaped.

use crate::make::seeded::Seeded;
use crate::make::table::Table;
use crate::model::layout::{slots, FLAGS_AT};
use crate::model::notation::Notation;
use crate::model::record::Record;
use crate::model::text::{fields_of, Group, Place};

/// Gives about half of the fields of the structures that are present such a value.
pub fn note_record(seeded: &mut Seeded, record: &mut Record) {
    for field in fields_of(record) {
        if field.value(record).is_some() && seeded.once_in(2) {
            if let Some(value) = any_of_note(seeded, field.notation) {
                field.set(record, value);
            }
        }
    }
}

/// The same for the structures of a table, wherever they stand. Its sum is still to be mended.
pub fn note_table(seeded: &mut Seeded, table: &mut Table) {
    for found in slots(&table.bytes) {
        let (kind, index) = (found.kind, found.index);
        for field in (Group { kind, index }).fields() {
            if let (Place::Byte { at, .. }, Some(start)) = (field.place, found.start) {
                let value = any_of_note(seeded, field.notation);
                if let (Some(value), true) = (value, seeded.once_in(2)) {
                    table.write(start as usize + FLAGS_AT as usize + at, &value);
                }
            }
        }
    }
}

/// Adds strings of note behind a table.
pub fn note_strings(seeded: &mut Seeded, table: &mut Table) {
    let entries = table.entries();
    for entry in table.owned_entries() {
        if !entries[entry].is_host_name && seeded.once_in(3) {
            let text = string_of_note(seeded);
            table.append_text(entry, &text);
        }
    }
}

pub fn string_of_note(seeded: &mut Seeded) -> Vec<u8> {
    let known: [&[u8]; 16] = [
        b"",
        b"\"",
        b"\"\"",
        b"\\",
        b"\\x41",
        b"\\\\",
        b" ",
        b" a",
        b"a ",
        b"\ta\r",
        b"#",
        b"# a",
        b"\n",
        b"\x1F\x20\x21\x22\x5B\x5C\x5D\x7E\x7F\x80\xFF",
        b"\xC3\xBC",
        b"none",
    ];
    if seeded.once_in(2) {
        return seeded.one_of(&known).to_vec();
    }
    let size = seeded.between(0, 12);
    (0..size)
        .map(|_| seeded.one_of(b"a\\\"x0 \t\x7F\xFC#"))
        .collect()
}

/// A value of the notation, of the bytes that it has in a structure; none for strings.
pub fn any_of_note(seeded: &mut Seeded, notation: Notation) -> Option<Vec<u8>> {
    match notation {
        Notation::Flags(words) => Some(vec![seeded.byte() & ((1 << words.len()) - 1)]),
        Notation::Choice(words) => Some(vec![seeded.between(0, words.len() - 1) as u8]),
        Notation::Address => Some(address_of_note(seeded)),
        Notation::Number(width) => Some(number_of_note(seeded, width)),
        Notation::Mac => Some(bytes_of_note(seeded, 6)),
        Notation::Pairs(count) => Some(bytes_of_note(seeded, count)),
        Notation::Pci => Some(bytes_of_note(seeded, 2)),
        Notation::Text | Notation::Filled(_) => None,
    }
}

fn number_of_note(seeded: &mut Seeded, width: usize) -> Vec<u8> {
    let any = seeded.next() >> seeded.between(0, 63);
    let number = seeded.one_of(&[0, 1, 9, 10, 255, 256, 3260, any, any, u64::MAX]);
    number.to_le_bytes()[..width].to_vec()
}

fn bytes_of_note(seeded: &mut Seeded, count: usize) -> Vec<u8> {
    let any = seeded.bytes(count);
    (0..count)
        .map(|i| seeded.one_of(&[0, 1, 0x0A, 0xA0, 0xFF, any[i], any[i]]))
        .collect()
}

/// All zeros, IPv4-mapped, nearly so, or groups of which many are zero.
fn address_of_note(seeded: &mut Seeded) -> Vec<u8> {
    let odds = seeded.one_of(&[2, 3, 4]);
    let mut address = Vec::new();
    for _ in 0..8 {
        let any = seeded.next() as u16;
        let group = seeded.one_of(&[1, 0xF, 0x10, 0xFF, 0x100, 0xFFF, 0x1000, 0xFFFF, any]);
        let group = if seeded.once_in(odds) { group } else { 0 };
        address.extend(group.to_be_bytes());
    }
    let last_four = bytes_of_note(seeded, 4);
    match seeded.between(0, 7) {
        0 | 1 => [&[0; 10][..], &[0xFF, 0xFF], &last_four].concat(),
        2 => [&[0; 12][..], &last_four].concat(),
        3 => [&[0; 9][..], &[1, 0xFF, 0xFF], &last_four].concat(),
        4 => vec![0; 16],
        _ => address,
    }
}
