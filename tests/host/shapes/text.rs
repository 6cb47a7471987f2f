//! The tables on which `tell` is compared and the texts on which `enter` is, by shape. An input is
//! the same on every machine.

use crate::call::programs::{fed, Fed};
use crate::damage::text::{any_byte, any_damage, string_too_long};
use crate::known::extras::worked_tables;
use crate::known::samples::SAMPLES;
use crate::known::texts::{known_texts, EXAMPLE};
use crate::known::values::{known_values, told_tables};
use crate::make::field::{note_record, note_strings, note_table, string_of_note};
use crate::make::good_records::*;
use crate::make::good_tables::*;
use crate::make::record::Given;
use crate::make::seeded::Seeded;
use crate::make::table::*;
use crate::make::text::{lines_of, text_of_lines, Line};
use crate::model::build::least_table;
use crate::model::layout::*;
use crate::model::record::{record_given, Record};
use crate::model::text::{all_fields, Field, LONGEST_TEXT};
use crate::shapes::table::some_of_each;
use crate::shapes::text_extras::{texts_by_number, EXTRA_FIELDS, EXTRA_TEXTS};

/// Inputs of a shape: a name, how many, and how each is made.
pub type Shape = (&'static str, usize, fn(&mut Seeded) -> Vec<u8>);

fn made(shapes: &[Shape], first_seed: u64) -> Vec<Fed> {
    let mut inputs = Vec::new();
    for (i, (name, count, make)) in shapes.iter().enumerate() {
        for n in 0..*count {
            let mut seeded = Seeded::new(first_seed + ((i as u64) << 32) + n as u64);
            inputs.push(fed(name, make(&mut seeded)));
        }
    }
    inputs
}

// ---- Tables ----

const TABLES: &[Shape] = &[
    ("good tables", 500, |seeded| lent_table(seeded).bytes),
    ("fields of note", 700, |seeded| {
        noted_fields(seeded, table_with_structures)
    }),
    ("strings of note", 300, |seeded| {
        noted_strings(seeded, good_table)
    }),
    ("built records", 400, |seeded| {
        built_record(good_record(seeded))
    }),
    ("good tables with extras", 700, |seeded| {
        table_with_extras(seeded).bytes
    }),
    ("fields of note, extras", 700, |seeded| {
        noted_fields(seeded, table_with_extras)
    }),
    ("strings of note, extras", 500, |seeded| {
        noted_strings(seeded, table_with_extras)
    }),
    ("built records with extras", 500, |seeded| {
        built_record(record_with_an_extra(seeded))
    }),
];

/// How many of each shape of the check's tables, most of them refused.
const OF_EACH_SHAPE: usize = 4;

pub fn all_tables() -> Vec<Fed> {
    let mut inputs: Vec<Fed> = SAMPLES
        .iter()
        .map(|sample| fed("samples", sample.table.to_vec()))
        .collect();
    inputs.extend(SAMPLES.iter().map(|sample| Fed {
        name: "samples in pieces",
        bytes: sample.table.to_vec(),
        piece: 100,
    }));
    for table in [
        structures(&[]),
        full_table(),
        largest_table(),
        common_table(),
        full_table_with_extras(),
        largest_table_with_extras(),
        table_of_the_longest_text(),
    ] {
        inputs.push(fed("tables known by name", table.mended().bytes));
    }
    for table in worked_tables() {
        inputs.push(fed("tables known by name", table.bytes));
    }
    for n in 0..7 * 7 {
        let table = structures_and_extras(&[], n % 7, n / 7);
        inputs.push(fed("each number of extras", table.mended().bytes));
    }
    for table in told_tables() {
        inputs.push(fed("values known by name", table));
    }
    for length in [4_096, 16_383, 16_384, 16_385, 65_536] {
        inputs.push(fed("about 16,384 bytes", table_of_length(length)));
    }
    inputs.extend(made(TABLES, 0x7E11_0000_0000_0000));
    for input in some_of_each(OF_EACH_SHAPE) {
        inputs.push(fed(input.shape, input.table.bytes().to_vec()));
    }
    inputs
}

/// A good table of just that Length, with bytes behind it.
fn table_of_length(length: usize) -> Vec<u8> {
    let mut table = with_texts(&[4], &[(9, b"ab")]);
    let end = table.length();
    table.append_bytes(&vec![0x5A; length - end]);
    table.lend_more(&[0x5A; 700]);
    table.mended().bytes
}

/// All structures and all strings there can be, each field and each string with as many letters as it
/// can be told with.
pub fn table_of_the_longest_text() -> Table {
    let mut table = structures_and_extras(&[0, 1, 2, 3, 4], 6, 6);
    for word in table.used_words() {
        let (kind, start) = (table.kind(word), table.start(word));
        let first_string = kind.texts[0].at as usize;
        table.write(start + 6, &vec![0xFF; first_string - 6]);
        table.set_flags(word, kind.named_flags as u8);
        if kind == TARGET {
            table.write(start + CHAP_TYPE_AT as usize, &[1]);
        }
        if word >= FIRST_EXTRA {
            let index = 255 - (word - FIRST_EXTRA) as u8;
            table.write(start + INDEX_AT as usize, &[index]);
        }
    }
    for (number, entry) in table.entries().iter().enumerate() {
        let text = match entry.is_host_name {
            true => dots_between(128, b'h'),
            false => vec![0xFF; entry.longest as usize],
        };
        table.append_text(number, &text);
    }
    table.write(OEM_ID.start, &[0xFF; 14]);
    table.set_control_flags(SINGLE_LOGIN as u8);
    table.mended()
}

fn noted_fields(seeded: &mut Seeded, make: fn(&mut Seeded) -> Table) -> Vec<u8> {
    let mut table = make(seeded);
    note_table(seeded, &mut table);
    table.mended().bytes
}

fn noted_strings(seeded: &mut Seeded, make: fn(&mut Seeded) -> Table) -> Vec<u8> {
    let mut table = make(seeded);
    note_strings(seeded, &mut table);
    table.mended().bytes
}

fn built_record(given: Given) -> Vec<u8> {
    least_table(&given.record, given.strings()).unwrap()
}

// ---- Texts ----

const TEXTS: &[Shape] = &[
    ("records in any notation", 1_200, |seeded| {
        any_text(seeded).1
    }),
    ("one fault", 1_200, |seeded| faulty(seeded, 1)),
    ("several faults", 400, |seeded| faulty(seeded, 4)),
    ("a string too long", 200, long_string),
    ("bytes changed", 600, bytes_changed),
    ("the example, bytes changed", 300, example_changed),
    ("about 65,536 bytes", 60, about_the_limit),
    ("random bytes", 100, random_bytes),
    ("random lines", 200, random_lines),
];

pub fn all_texts() -> Vec<Fed> {
    let mut inputs = vec![fed("the example", EXAMPLE.as_bytes().to_vec())];
    inputs.push(Fed {
        name: "the example",
        bytes: EXAMPLE.as_bytes().to_vec(),
        piece: 100,
    });
    inputs.extend(SAMPLES.iter().map(|sample| Fed {
        name: "samples in pieces",
        bytes: sample.told.as_bytes().to_vec(),
        piece: 100,
    }));
    for known in known_texts() {
        inputs.push(fed("known texts", known.text));
    }
    inputs.extend(each_value());
    inputs.extend(made(TEXTS, 0xE17E_0000_0000_0000));
    inputs.extend(texts_by_number());
    inputs.extend(made(EXTRA_TEXTS, 0xE17E_4000_0000_0000));
    inputs
}

/// Each known value in each field of its notation, of an extra NIC's and an extra target's too, and in
/// one of another.
fn each_value() -> Vec<Fed> {
    let mut fields = all_fields();
    fields.extend(EXTRA_FIELDS.iter().flat_map(|group| group.fields()));
    let mut inputs = Vec::new();
    let mut add = |field: &Field, value: &[u8]| {
        let line = [b"\n", field.name.as_bytes(), b" ", value, b"\n"].concat();
        inputs.push(fed("each known value", line));
    };
    let mut others = fields.iter().cycle();
    for (notation, values) in known_values() {
        for (value, _) in values {
            let own = fields.iter().filter(|field| field.notation == notation);
            own.for_each(|field| add(field, value));
            let other = others.find(|field| field.notation != notation);
            add(other.unwrap(), value);
        }
    }
    inputs
}

/// A record without extras, and a text that gives it.
pub fn any_text(seeded: &mut Seeded) -> (Record, Vec<u8>) {
    let (record, lines) = any_lines(seeded);
    (record, text_of_lines(seeded, lines))
}

fn any_lines(seeded: &mut Seeded) -> (Record, Vec<Line>) {
    let given = match seeded.once_in(8) {
        true => whole_record(seeded, None, 255),
        false => good_record(seeded),
    };
    noted_lines(seeded, &given)
}

/// A record with some values of note in place of its own, and lines that give it.
pub fn noted_lines(seeded: &mut Seeded, given: &Given) -> (Record, Vec<Line>) {
    let mut record = record_given(&given.record, given.strings());
    note_record(seeded, &mut record);
    for (number, entry) in entries_of(&record.kinds()).iter().enumerate() {
        let may_be_noted = record.entries[number].is_some() && !entry.is_host_name;
        if may_be_noted && seeded.once_in(3) {
            record.entries[number] = Some(string_of_note(seeded));
        }
    }
    let lines = lines_of(seeded, &record);
    (record, lines)
}

/// A record with a string as long as it may be, or longer.
fn long_string(seeded: &mut Seeded) -> Vec<u8> {
    let (_, mut lines) = any_lines(seeded);
    string_too_long(seeded, &mut lines);
    text_of_lines(seeded, lines)
}

fn faulty(seeded: &mut Seeded, faults: usize) -> Vec<u8> {
    let (_, mut lines) = any_lines(seeded);
    for _ in 0..faults {
        any_damage(seeded, &mut lines);
    }
    text_of_lines(seeded, lines)
}

fn bytes_changed(seeded: &mut Seeded) -> Vec<u8> {
    let (_, mut text) = any_text(seeded);
    for _ in 0..seeded.one_of(&[1, 1, 2, 5]) {
        any_byte(seeded, &mut text);
    }
    text
}

fn example_changed(seeded: &mut Seeded) -> Vec<u8> {
    let mut text = EXAMPLE.as_bytes().to_vec();
    any_byte(seeded, &mut text);
    text
}

/// A comment makes the text nearly too long, or too long; the lines stand before it or behind.
fn about_the_limit(seeded: &mut Seeded) -> Vec<u8> {
    let text = match seeded.once_in(2) {
        true => any_text(seeded).1,
        false => bytes_changed(seeded),
    };
    let more = seeded.one_of(&[100, 5_000, 300_000]);
    let size = LONGEST_TEXT + seeded.one_of(&[0, 0, 1, 2, more]) - seeded.one_of(&[0, 0, 1]);
    let mut comment = vec![b'#'; size.saturating_sub(text.len() + 1)];
    if seeded.once_in(3) {
        comment
            .iter_mut()
            .skip(1)
            .step_by(2)
            .for_each(|byte| *byte = b'\n');
    }
    match seeded.once_in(2) {
        true => [text, comment].join(&b'\n'),
        false => [comment, text].join(&b'\n'),
    }
}

fn random_bytes(seeded: &mut Seeded) -> Vec<u8> {
    let size = seeded.one_of(&[1, 2, 10, 100, 1_000]);
    seeded.bytes(size)
}

/// Fields and known values put together anyhow.
fn random_lines(seeded: &mut Seeded) -> Vec<u8> {
    let (fields, values) = (all_fields(), known_values());
    let mut lines = Vec::new();
    for _ in 0..seeded.between(1, 6) {
        let field = fields[seeded.between(0, fields.len() - 1)].clone();
        let own = values
            .iter()
            .find(|(notation, _)| *notation == field.notation);
        let value = seeded.one_of(own.unwrap().1).0.to_vec();
        let field = field.name;
        lines.push(Line { field, value });
    }
    text_of_lines(seeded, lines)
}
