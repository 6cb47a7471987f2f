//! Faults that are put into a text: into one of its lines, or into its bytes.

use crate::known::values::known_values;
use crate::make::good_tables::shuffle;
use crate::make::host_names::any_name;
use crate::make::seeded::Seeded;
use crate::make::text::{any_value, line_of, Line};
use crate::model::layout::{StringField, EXTRAS_OF_A_KIND};
use crate::model::notation::Notation;
use crate::model::text::{all_fields, field_named, nic, target, Field, Group, Place, ALL_STRINGS};

pub type Damage = fn(&mut Seeded, &mut Vec<Line>);

const DAMAGES: &[Damage] = &[
    line_doubled,
    field_given_again,
    field_misspelt,
    field_of_another,
    group_misspelt,
    line_of_another_index,
    value_known,
    value_of_another,
    value_emptied,
    value_byte,
    number_out_of_range,
    string_too_long,
    zero_byte,
    oem_text,
    host_name,
];

pub fn any_damage(seeded: &mut Seeded, lines: &mut Vec<Line>) {
    let damage = seeded.one_of(DAMAGES);
    damage(seeded, lines);
}

// ---- Lines ----

fn any_line<'a>(seeded: &mut Seeded, lines: &'a mut [Line]) -> Option<&'a mut Line> {
    match lines.len() {
        0 => None,
        count => lines.get_mut(seeded.between(0, count - 1)),
    }
}

/// A field of those that have no extra's name, or of the extras that the lines name.
fn any_field(seeded: &mut Seeded, lines: &[Line], is_fit: impl Fn(&Field) -> bool) -> Field {
    let mut fields = all_fields();
    for group in extras_named(lines) {
        fields.extend(group.fields());
    }
    fields.retain(is_fit);
    fields[seeded.between(0, fields.len() - 1)].clone()
}

/// The extras that the lines name, each once, in the order of the lines.
pub fn extras_named(lines: &[Line]) -> Vec<Group> {
    let mut extras = Vec::new();
    for field in lines.iter().filter_map(|line| field_named(&line.field)) {
        if let Some(group) = field.group() {
            if group.is_extra() && !extras.contains(&group) {
                extras.push(group);
            }
        }
    }
    extras
}

/// Gives the field this value in place of the one that it has.
fn give(lines: &mut Vec<Line>, line: Line) {
    lines.retain(|other| other.field != line.field);
    lines.push(line);
}

fn line_doubled(seeded: &mut Seeded, lines: &mut Vec<Line>) {
    if let Some(line) = any_line(seeded, lines) {
        let line = line.clone();
        lines.push(line);
    }
}

/// The second value may be good or bad.
fn field_given_again(seeded: &mut Seeded, lines: &mut Vec<Line>) {
    if let Some(line) = any_line(seeded, lines) {
        let mut line = line.clone();
        line.value = seeded
            .one_of(&[&b"0"[..], b"valid", b"::1", b"a", b"", b"\\"])
            .to_vec();
        lines.push(line);
    }
}

fn field_misspelt(seeded: &mut Seeded, lines: &mut Vec<Line>) {
    if let Some(line) = any_line(seeded, lines) {
        let mut name = line.field.clone().into_bytes();
        let at = seeded.between(0, name.len() - 1);
        match seeded.between(0, 4) {
            0 => name[at] = name[at].to_ascii_uppercase(),
            1 => name[at] = seeded.one_of(b"a0129.-_x"),
            2 => name.insert(at, seeded.one_of(b"a01.- \t")),
            3 => name.truncate(at),
            _ => {
                name.remove(at);
            }
        }
        line.field = name.into_iter().map(char::from).collect();
    }
}

/// Such as `initiator.mac` or `nic2.lun`.
fn field_of_another(seeded: &mut Seeded, lines: &mut Vec<Line>) {
    let last = any_field(seeded, lines, |field| field.name.contains('.')).name;
    let last = last.split_once('.').unwrap().1.to_string();
    let first = seeded.one_of(&[
        "oem",
        "control",
        "initiator",
        "nic0",
        "nic2",
        "nic255",
        "target1",
        "target9",
        "target",
    ]);
    if let Some(line) = any_line(seeded, lines) {
        line.field = format!("{}.{}", first, last);
    }
}

// ---- Groups ----

/// An Index at which the number of its digits or of its bits changes, or any.
pub fn index_of_note(seeded: &mut Seeded) -> u64 {
    let any = seeded.between(2, 255) as u64;
    seeded.one_of(&[
        2, 3, 9, 10, 11, 99, 100, 101, 127, 128, 254, 255, any, any, any,
    ])
}

/// How an Index is not written; of a group that has none, how it is not written either.
pub fn group_misspelt(seeded: &mut Seeded, lines: &mut Vec<Line>) {
    let groups: Vec<usize> = (0..lines.len())
        .filter(|i| lines[*i].field.contains('.'))
        .collect();
    if groups.is_empty() {
        return;
    }
    let line = &mut lines[seeded.one_of(&groups)];
    let (group, last) = line.field.split_once('.').unwrap();
    let kind = group.trim_end_matches(|c: char| c.is_ascii_digit());
    let index: u64 = group[kind.len()..].parse().unwrap_or(0);
    let wrong = match seeded.between(0, 19) {
        0 | 1 => format!("0{}", index),
        2 => format!("00{}", index),
        3 => format!("{:03}", index + 1_000),
        4 => format!("{:#x}", index),
        5 => format!("x{}", index),
        6 => format!("+{}", index),
        7 => format!("-{}", index),
        8 => String::new(),
        9 => format!("{}", 256 + index),
        10 => "256".to_string(),
        11 => format!(
            "{}",
            (1u128 << seeded.one_of(&[16, 32, 64])) + u128::from(index)
        ),
        12 => format!("{}a", index),
        13 => format!("{}.{}", index, index),
        14 => format!("_{}", index),
        15 => format!("[{}]", index),
        16 => format!("{}0000000000", index),
        17 => format!("{}:", index),
        18 => format!("/{}", index),
        _ => format!("{}\u{663}", index),
    };
    let kind = match seeded.once_in(12) {
        true => seeded.one_of(&[
            "Nic", "NIC", "nics", "tgt", "Target", "targets", "ni", "nict",
        ]),
        false => kind,
    };
    line.field = format!("{}{}.{}", kind, wrong, last);
}

/// One line goes to another structure of its kind, which may be there or not, and be one too many.
fn line_of_another_index(seeded: &mut Seeded, lines: &mut Vec<Line>) {
    let index = index_of_note(seeded);
    let index = seeded.one_of(&[0, 1, index, index, index]);
    if let Some(line) = any_line(seeded, lines) {
        if let Some(Group { kind, .. }) = field_named(&line.field).and_then(|field| field.group()) {
            let last = line.field.split_once('.').unwrap().1;
            line.field = format!("{}.{}", Group { kind, index }.name(), last);
        }
    }
}

/// Lines of further extras of a kind, so that there are seven or eight of it. They stand anywhere;
/// their values are those of the kind's other lines, of no use, or good.
pub fn too_many_extras(seeded: &mut Seeded, lines: &mut Vec<Line>) {
    let make = seeded.one_of(&[nic as fn(u64) -> Group, target]);
    let kind = make(2).kind;
    let many = EXTRAS_OF_A_KIND + seeded.one_of(&[1, 1, 1, 2]);
    let mut groups = extras_named(lines);
    groups.retain(|group| group.kind == kind);
    while groups.len() < many {
        let group = make(index_of_note(seeded));
        if groups.contains(&group) {
            continue;
        }
        groups.push(group);
        let mut fields = group.fields();
        shuffle(seeded, &mut fields);
        for field in &fields[..seeded.one_of(&[1, 1, 2, 4])] {
            let value = match seeded.once_in(12) {
                true => b"rubbish\\".to_vec(),
                false => good_value(seeded, field.notation),
            };
            let at = seeded.between(0, lines.len());
            let field = field.name.clone();
            lines.insert(at, Line { field, value });
        }
    }
}

/// Some value that can be read.
pub fn good_value(seeded: &mut Seeded, notation: Notation) -> Vec<u8> {
    let values = known_values();
    let own = values.iter().find(|(known, _)| *known == notation);
    let is_good = |value: &&(&'static [u8], Option<&'static [u8]>)| value.1.is_some();
    let good: Vec<&[u8]> = own.unwrap().1.iter().filter(is_good).map(|v| v.0).collect();
    seeded.one_of(&good).to_vec()
}

// ---- Values ----

fn notation_of(line: &Line) -> Option<Notation> {
    field_named(&line.field).map(|field| field.notation)
}

/// One of the values that are known of the field's notation, or of any other.
fn value_known(seeded: &mut Seeded, lines: &mut Vec<Line>) {
    if let Some(line) = any_line(seeded, lines) {
        let mut values = known_values();
        if let (Some(own), false) = (notation_of(line), seeded.once_in(4)) {
            values.retain(|(notation, _)| *notation == own);
        }
        let (_, values) = seeded.one_of(&values);
        line.value = seeded.one_of(values).0.to_vec();
    }
}

fn value_of_another(seeded: &mut Seeded, lines: &mut Vec<Line>) {
    if let Some(other) = any_line(seeded, lines) {
        let value = other.value.clone();
        any_line(seeded, lines).unwrap().value = value;
    }
}

fn value_emptied(seeded: &mut Seeded, lines: &mut Vec<Line>) {
    if let Some(line) = any_line(seeded, lines) {
        line.value.clear();
    }
}

/// A byte changed, added, left out or doubled.
fn value_byte(seeded: &mut Seeded, lines: &mut Vec<Line>) {
    if let Some(line) = any_line(seeded, lines) {
        change_byte(seeded, &mut line.value);
    }
}

pub fn change_byte(seeded: &mut Seeded, bytes: &mut Vec<u8>) {
    let any = seeded.byte();
    let byte = seeded.one_of(b"0189afgAFGx:.-+\\\"# \t\r\n\0\x1F\x7F\xFF");
    let byte = seeded.one_of(&[byte, byte, byte, any]);
    let at = seeded.between(0, bytes.len());
    match seeded.between(0, 3) {
        0 if at < bytes.len() => bytes[at] = byte,
        1 if at < bytes.len() => {
            bytes.remove(at);
        }
        2 if at < bytes.len() => bytes.insert(at, bytes[at]),
        _ => bytes.insert(at, byte),
    }
}

fn number_out_of_range(seeded: &mut Seeded, lines: &mut Vec<Line>) {
    let field = any_field(seeded, lines, |field| {
        matches!(field.notation, Notation::Number(_))
    });
    let limits: [u128; 4] = [1 << 8, 1 << 16, 1 << 32, 1 << 64];
    let limit = seeded.one_of(&limits);
    let more = seeded.one_of(&[0, 0, 1, 10, 255]);
    let number = seeded.one_of(&[limit - 1, limit + more, limit * 10, limit * 16 + more]);
    let text = match seeded.between(0, 2) {
        0 => format!("{:#x}", number),
        1 => format!("0x{:X}", number),
        _ => number.to_string(),
    };
    let value = text.into_bytes();
    give(
        lines,
        Line {
            field: field.name,
            value,
        },
    );
}

// ---- Strings ----

fn any_entry(seeded: &mut Seeded, lines: &[Line]) -> (Field, StringField) {
    let field = any_field(seeded, lines, |field| field.notation == Notation::Text);
    match field.place {
        Place::Entry { text, .. } => (field, text),
        _ => unreachable!(),
    }
}

/// A little too long, or so long that all strings together may be.
pub fn string_too_long(seeded: &mut Seeded, lines: &mut Vec<Line>) {
    for _ in 0..seeded.one_of(&[1, 1, 2, 3, 5]) {
        let (field, entry) = any_entry(seeded, lines);
        let longest = entry.longest as usize;
        let any = seeded.between(longest, ALL_STRINGS + 4);
        let size = seeded.one_of(&[longest, longest + 1, longest + 2, 1_000, any]);
        let letter = seeded.one_of(b"a0-.\xFC");
        let line = line_of(seeded, &field, &vec![letter; size]);
        give(lines, line);
    }
}

fn zero_byte(seeded: &mut Seeded, lines: &mut Vec<Line>) {
    let (field, entry) = any_entry(seeded, lines);
    let size = seeded.one_of(&[
        1,
        2,
        5,
        223,
        entry.longest as usize,
        entry.longest as usize + 1,
    ]);
    let mut string = vec![b'a'; size];
    string[seeded.between(0, size - 1)] = 0;
    let line = line_of(seeded, &field, &string);
    give(lines, line);
}

/// Text after a zero byte, a byte too many, or neither.
fn oem_text(seeded: &mut Seeded, lines: &mut Vec<Line>) {
    let field = any_field(seeded, lines, |field| {
        matches!(field.notation, Notation::Filled(_))
    });
    let size = seeded.between(1, 10);
    let string: Vec<u8> = (0..size).map(|_| seeded.one_of(b"AB\0")).collect();
    let value = any_value(seeded, Notation::Text, &string);
    give(
        lines,
        Line {
            field: field.name,
            value,
        },
    );
}

fn host_name(seeded: &mut Seeded, lines: &mut Vec<Line>) {
    let field = any_field(seeded, lines, |field| field.name.ends_with(".host"));
    let name = any_name(seeded);
    let line = line_of(seeded, &field, &name);
    give(lines, line);
}

// ---- Bytes of the whole text ----

/// A byte changed, added or left out, a line end lost, or the text cut.
pub fn any_byte(seeded: &mut Seeded, text: &mut Vec<u8>) {
    let ends: Vec<usize> = (0..text.len()).filter(|at| text[*at] == b'\n').collect();
    match seeded.between(0, 7) {
        0 => text.truncate(seeded.between(0, text.len())),
        1 if !ends.is_empty() => {
            text.remove(seeded.one_of(&ends));
        }
        _ => change_byte(seeded, text),
    }
}
