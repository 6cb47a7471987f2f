//! The texts with extra NICs and targets on which `enter` is compared, by shape: see shapes/text.rs.

use crate::call::programs::{fed, Fed};
use crate::damage::text::*;
use crate::known::values::known_values;
use crate::make::good_records::*;
use crate::make::record::SIX;
use crate::make::seeded::Seeded;
use crate::make::text::{line_of, text_in_order, text_of_lines, Line};
use crate::model::layout::*;
use crate::model::notation::Notation;
use crate::model::record::Record;
use crate::model::text::*;
use crate::shapes::text::{noted_lines, Shape};

/// Whose fields have each known value.
pub const EXTRA_FIELDS: [Group; 2] = [nic(5), target(255)];

pub const EXTRA_TEXTS: &[Shape] = &[
    ("extras in any notation", 1_500, |seeded| {
        any_text_with_extras(seeded).1
    }),
    ("extras by Index, down", 200, |seeded| {
        by_index(seeded, false)
    }),
    ("extras by Index, up", 100, |seeded| by_index(seeded, true)),
    ("extras, a line each", 300, a_line_each),
    ("Indexes of note", 500, |seeded| {
        let lines = lines_of_note(seeded);
        text_of_lines(seeded, lines)
    }),
    ("seven or eight extras", 500, |seeded| too_many(seeded, 0)),
    ("seven or eight, and faults", 500, |seeded| {
        too_many(seeded, 2)
    }),
    ("groups misspelt", 600, misspelt),
    ("one fault, extras", 1_200, |seeded| faulty(seeded, 1)),
    ("several faults, extras", 400, |seeded| faulty(seeded, 4)),
    ("a string too long, extras", 300, long_string),
    ("bytes changed, extras", 600, bytes_changed),
    ("random lines, extras", 300, random_lines),
];

/// A record with extras, and a text that gives it.
pub fn any_text_with_extras(seeded: &mut Seeded) -> (Record, Vec<u8>) {
    let (record, lines) = any_lines(seeded);
    (record, text_of_lines(seeded, lines))
}

fn any_lines(seeded: &mut Seeded) -> (Record, Vec<Line>) {
    let given = match seeded.once_in(8) {
        true => whole_record(seeded, Some((6, 6)), 255),
        false => record_with_an_extra(seeded),
    };
    noted_lines(seeded, &given)
}

// ---- Extras in orders of their own ----

/// The groups by Index, NICs and targets as it falls, a group's lines together.
fn by_index(seeded: &mut Seeded, up: bool) -> Vec<u8> {
    let (_, mut lines) = any_lines(seeded);
    let index = |line: &Line| {
        let group = field_named(&line.field).and_then(|field| field.group());
        group.map_or(0, |group| group.index)
    };
    lines.sort_by_key(index);
    if !up {
        lines.reverse();
    }
    text_in_order(seeded, lines)
}

/// Up to six of each kind, each given by one line or two, in any order.
fn a_line_each(seeded: &mut Seeded) -> Vec<u8> {
    let mut lines = Vec::new();
    for make in [nic as fn(u64) -> Group, target] {
        let count = seeded.between(0, EXTRAS_OF_A_KIND);
        for index in ascending(seeded, count) {
            add_lines(seeded, &mut lines, make(u64::from(index)));
        }
    }
    text_of_lines(seeded, lines)
}

fn add_lines(seeded: &mut Seeded, lines: &mut Vec<Line>, group: Group) {
    let fields = group.fields();
    for _ in 0..seeded.one_of(&[1, 1, 2]) {
        let field = &fields[seeded.between(0, fields.len() - 1)];
        if lines.iter().all(|line| line.field != field.name) {
            lines.push(Line {
                field: field.name.clone(),
                value: good_value(seeded, field.notation),
            });
        }
    }
}

/// Lines of groups at the edges of what an Index may be, 0 and 1 among them. A few are seven of a kind.
fn lines_of_note(seeded: &mut Seeded) -> Vec<Line> {
    let mut lines = Vec::new();
    for _ in 0..seeded.between(1, 8) {
        let index = index_of_note(seeded);
        let index = seeded.one_of(&[0, 1, index, index, index, index]);
        let group = seeded.one_of(&[nic(index), target(index)]);
        add_lines(seeded, &mut lines, group);
    }
    lines
}

// ---- Too many, and other faults ----

/// A seventh extra of a kind; so many faults as well.
fn too_many(seeded: &mut Seeded, faults: usize) -> Vec<u8> {
    let mut lines = match seeded.once_in(2) {
        true => any_lines(seeded).1,
        false => lines_of_note(seeded),
    };
    too_many_extras(seeded, &mut lines);
    for _ in 0..faults {
        any_damage(seeded, &mut lines);
    }
    match seeded.once_in(3) {
        true => text_in_order(seeded, lines),
        false => text_of_lines(seeded, lines),
    }
}

/// One group's name is wrong, most often its number; or two.
fn misspelt(seeded: &mut Seeded) -> Vec<u8> {
    let mut lines = match seeded.once_in(2) {
        true => any_lines(seeded).1,
        false => lines_of_note(seeded),
    };
    for _ in 0..seeded.one_of(&[1, 1, 1, 2]) {
        group_misspelt(seeded, &mut lines);
    }
    text_of_lines(seeded, lines)
}

fn faulty(seeded: &mut Seeded, faults: usize) -> Vec<u8> {
    let (_, mut lines) = any_lines(seeded);
    for _ in 0..faults {
        any_damage(seeded, &mut lines);
    }
    text_of_lines(seeded, lines)
}

fn long_string(seeded: &mut Seeded) -> Vec<u8> {
    let (_, mut lines) = any_lines(seeded);
    string_too_long(seeded, &mut lines);
    text_of_lines(seeded, lines)
}

fn bytes_changed(seeded: &mut Seeded) -> Vec<u8> {
    let (_, mut text) = any_text_with_extras(seeded);
    for _ in 0..seeded.one_of(&[1, 1, 2, 5]) {
        any_byte(seeded, &mut text);
    }
    text
}

/// Fields of any group and known values put together anyhow.
fn random_lines(seeded: &mut Seeded) -> Vec<u8> {
    let values = known_values();
    let mut lines = Vec::new();
    for _ in 0..seeded.between(1, 10) {
        let index = seeded.between(0, 255) as u64;
        let index = seeded.one_of(&[0, 1, 2, 7, 7, 255, index]);
        let fields = seeded.one_of(&[nic(index), target(index)]).fields();
        let field = &fields[seeded.between(0, fields.len() - 1)];
        let own = values
            .iter()
            .find(|(notation, _)| *notation == field.notation);
        lines.push(Line {
            field: field.name.clone(),
            value: seeded.one_of(own.unwrap().1).0.to_vec(),
        });
    }
    text_of_lines(seeded, lines)
}

// ---- Each number of something ----

/// Past 255 and past 256, with and without a zero before it.
const INDEXES: std::ops::Range<usize> = 0..300;

pub fn texts_by_number() -> Vec<Fed> {
    let mut inputs = Vec::new();
    for n in INDEXES {
        for number in [n.to_string(), format!("0{}", n)] {
            let nic = format!("nic{}.vlan 7\n", number);
            let target = format!("target{}.chap-name c\n", number);
            inputs.push(fed("each Index", nic.into_bytes()));
            inputs.push(fed("each Index", target.into_bytes()));
        }
    }
    for n in 0..7 * 7 * 4 {
        let seeded = &mut Seeded::new(0xE17E_8000_0000_0000 + n as u64);
        let given = whole_record(seeded, Some((n % 7, n / 7 % 7)), 12);
        let (_, lines) = noted_lines(seeded, &given);
        inputs.push(fed("texts of each number", text_of_lines(seeded, lines)));
    }
    inputs.extend(each_string_refused());
    inputs.extend(each_field_behind_six());
    inputs
}

/// All 49 strings, and one of them too long, with a zero byte or no host name; with twelve extras, and
/// with so few that the last strings have other numbers.
fn each_string_refused() -> Vec<Fed> {
    let mut inputs = Vec::new();
    for (nics, targets) in [(6, 6), (2, 3)] {
        let mut groups: Vec<Group> = Vec::new();
        groups.extend(SLOTS.iter().map(|Slot { kind, index, .. }| Group {
            kind: *kind,
            index: *index,
        }));
        groups.extend(SIX[..nics].iter().map(|index| nic(u64::from(*index))));
        groups.extend(SIX[..targets].iter().map(|index| target(u64::from(*index))));
        let fields = groups.iter().flat_map(|group| group.fields());
        let strings: Vec<Field> = fields.filter(|f| f.notation == Notation::Text).collect();
        for n in 0..3 * strings.len() {
            let seeded = &mut Seeded::new(0xE17E_9000_0000_0000 + n as u64);
            let wrong: &[u8] = [&[b'a'; 256][..], b"a\0b", b"a_b"][n % 3];
            let mut lines = Vec::new();
            for (i, field) in strings.iter().enumerate() {
                let value = if i == n / 3 { wrong } else { b"ab.c" };
                lines.push(line_of(seeded, field, value));
            }
            inputs.push(fed("each string refused", text_of_lines(seeded, lines)));
        }
    }
    inputs
}

/// Six extras of a kind, then a line of each field of a seventh, with a good value and a bad one; of
/// the last of the six; and of one of the other kind with the seventh's Index.
fn each_field_behind_six() -> Vec<Fed> {
    let mut inputs = Vec::new();
    for (make, other) in [
        (nic as fn(u64) -> Group, target as fn(u64) -> Group),
        (target, nic),
    ] {
        let mut six = String::new();
        for index in SIX {
            six += &format!("{}.flags valid\n", make(u64::from(index)).name());
        }
        for group in [make(3), make(255), other(3)] {
            for (n, field) in group.fields().iter().enumerate() {
                let seeded = &mut Seeded::new(0xE17E_A000_0000_0000 + n as u64);
                for value in [good_value(seeded, field.notation), b"\\".to_vec()] {
                    let line = [b"", field.name.as_bytes(), b" ", &value[..], b"\n"].concat();
                    let text = [six.as_bytes(), &line].concat();
                    inputs.push(fed("a field behind six extras", text));
                }
            }
        }
    }
    inputs
}
