//! Texts for the tests: a record's fields as lines, each written in any of the ways that
//! docs/RECORD-FORMAT.md allows, in any order, with anything between them that says nothing.

use crate::make::good_tables::shuffle;
use crate::make::seeded::Seeded;
use crate::model::layout::number;
use crate::model::notation::Notation;
use crate::model::record::Record;
use crate::model::text::{fields_of, Field, ISCSI_PORT, USUAL_FLAGS};

/// A line that says something.
#[derive(Clone, Debug)]
pub struct Line {
    pub field: String,
    pub value: Vec<u8>,
}

impl Line {
    /// What stands before the field's dot.
    pub fn group(&self) -> &str {
        self.field.split('.').next().unwrap()
    }
}

// ---- Which fields ----

/// Lines that give the record. Those that need not be given are left out or not.
pub fn lines_of(seeded: &mut Seeded, record: &Record) -> Vec<Line> {
    let mut lines: Vec<Line> = Vec::new();
    let fields = fields_of(record);
    for field in &fields {
        if let Some(value) = field.value(record) {
            let can_be_left_out = is_default(field, &value);
            if !can_be_left_out || seeded.once_in(3) {
                lines.push(line_of(seeded, field, &value));
            }
        }
    }
    for field in fields.iter().filter(|f| f.name.ends_with(".flags")) {
        let structure = field.name.strip_suffix(".flags").unwrap();
        let is_named = lines.iter().any(|line| line.group() == structure);
        if let (Some(value), false) = (field.value(record), is_named) {
            lines.push(line_of(seeded, field, &value));
        }
    }
    lines
}

pub fn line_of(seeded: &mut Seeded, field: &Field, value: &[u8]) -> Line {
    Line {
        field: field.name.clone(),
        value: any_value(seeded, field.notation, value),
    }
}

/// Would the record be the same if the field were not given, its structure being there?
fn is_default(field: &Field, value: &[u8]) -> bool {
    match field.notation {
        Notation::Flags(_) => value == [USUAL_FLAGS],
        Notation::Text => false,
        _ if field.name.ends_with(".port") => value == ISCSI_PORT.to_le_bytes(),
        _ => value.iter().all(|byte| *byte == 0),
    }
}

// ---- Values ----

/// One of the ways to write a value.
pub fn any_value(seeded: &mut Seeded, notation: Notation, value: &[u8]) -> Vec<u8> {
    let text = match notation {
        Notation::Flags(words) => return any_flags(seeded, value[0], words),
        Notation::Text => return any_string(seeded, value),
        Notation::Filled(size) => return any_filled(seeded, value, size),
        Notation::Choice(words) => words[usize::from(value[0])].to_string(),
        Notation::Address => any_address(seeded, value.try_into().unwrap()),
        Notation::Number(width) => any_number(seeded, number(value, 0, width as u64)),
        Notation::Mac | Notation::Pairs(_) | Notation::Pci => any_case(seeded, &notation.written(value)),
    };
    text.into_bytes()
}

/// Each letter small or capital.
fn any_case(seeded: &mut Seeded, text: &str) -> String {
    let odds = seeded.one_of(&[1, 2, 1_000]);
    text.chars()
        .map(|letter| match seeded.once_in(odds) {
            true => letter.to_ascii_uppercase(),
            false => letter,
        })
        .collect()
}

fn any_number(seeded: &mut Seeded, number: u64) -> String {
    let zeros = "0".repeat(seeded.one_of(&[0, 0, 0, 1, 2, 30]));
    if seeded.once_in(2) {
        return format!("{}{}", zeros, number);
    }
    let digits = format!("{:x}", number);
    format!("0x{}{}", zeros, any_case(seeded, &digits))
}

fn any_flags(seeded: &mut Seeded, flags: u8, words: &[&str]) -> Vec<u8> {
    let mut set: Vec<&str> = Vec::new();
    for (bit, word) in words.iter().enumerate() {
        if flags >> bit & 1 == 1 {
            set.push(word);
        }
    }
    if set.is_empty() {
        return b"none".to_vec();
    }
    shuffle(seeded, &mut set);
    let mut text = set[0].as_bytes().to_vec();
    for word in &set[1..] {
        text.extend(some_blanks(seeded));
        text.extend(word.as_bytes());
    }
    text
}

/// One blank or more; most often one space.
fn some_blanks(seeded: &mut Seeded) -> Vec<u8> {
    if seeded.once_in(2) {
        return b" ".to_vec();
    }
    let count = seeded.one_of(&[1, 1, 2, 3, 12]);
    (0..count).map(|_| seeded.one_of(b"  \t\r")).collect()
}

fn any_address(seeded: &mut Seeded, address: [u8; 16]) -> String {
    let is_mapped = address[..12] == [0, 0, 0, 0, 0, 0, 0, 0, 0, 0, 0xFF, 0xFF];
    if is_mapped && !seeded.once_in(4) {
        return any_dotted(seeded, &address[12..]);
    }
    let mut groups: Vec<String> = Vec::new();
    for pair in address.chunks(2) {
        groups.push(any_group(seeded, pair[0], pair[1]));
    }
    if seeded.once_in(4) {
        groups.truncate(6);
        groups.push(any_dotted(seeded, &address[12..]));
    }
    let groups = match any_zero_run(seeded, &address, groups.len()) {
        Some((start, end)) => {
            let (front, back) = (groups[..start].join(":"), groups[end..].join(":"));
            format!("{}::{}", front, back)
        }
        None => groups.join(":"),
    };
    any_case(seeded, &groups)
}

/// Four numbers, some with zeros in front, of three digits at most.
fn any_dotted(seeded: &mut Seeded, octets: &[u8]) -> String {
    let mut numbers: Vec<String> = Vec::new();
    for octet in octets {
        let width = seeded.one_of(&[1, 1, 1, 2, 3]);
        numbers.push(format!("{:0width$}", octet, width = width));
    }
    numbers.join(".")
}

fn any_group(seeded: &mut Seeded, high: u8, low: u8) -> String {
    let group = u16::from(high) * 256 + u16::from(low);
    let width = seeded.one_of(&[1, 1, 1, 2, 3, 4]);
    format!("{:0width$x}", group, width = width)
}

/// Some run of groups that are zero, for `::` to stand for; where the last two are written as IPv4,
/// these stay.
fn any_zero_run(seeded: &mut Seeded, address: &[u8; 16], pieces: usize) -> Option<(usize, usize)> {
    let groups = if pieces == 8 { 8 } else { 6 };
    let is_zero = |group: usize| address[2 * group..2 * group + 2] == [0, 0];
    let mut runs = Vec::new();
    for start in 0..groups {
        for end in start + 1..=groups {
            if (start..end).all(is_zero) {
                runs.push((start, end));
            }
        }
    }
    let longest = runs
        .iter()
        .copied()
        .max_by_key(|(start, end)| end - start)?;
    let any = seeded.one_of(&runs);
    seeded.one_of(&[None, Some(any), Some(longest), Some(longest)])
}

/// Bytes as they are, or as `\xHH` where they must be or may.
fn any_string(seeded: &mut Seeded, string: &[u8]) -> Vec<u8> {
    if string.is_empty() {
        return b"\"\"".to_vec();
    }
    let odds = seeded.one_of(&[1, 2, 8, 1_000, 1_000]);
    let mut text = Vec::new();
    for (at, byte) in string.iter().enumerate() {
        let at_an_end = at == 0 || at == string.len() - 1;
        let is_quotes = string == b"\"\"" && at == 0;
        let must = *byte < 0x20 || *byte == 0x7F || *byte == b' ' && at_an_end || is_quotes;
        if must || seeded.once_in(odds) {
            let digits = format!("{:02x}", byte);
            text.extend(b"\\x");
            text.extend(any_case(seeded, &digits).into_bytes());
        } else if *byte == b'\\' {
            text.extend(b"\\\\");
        } else {
            text.push(*byte);
        }
    }
    text
}

/// The string of an OEM field; zeros behind it may be given too.
fn any_filled(seeded: &mut Seeded, value: &[u8], size: usize) -> Vec<u8> {
    let end = value
        .iter()
        .rposition(|byte| *byte != 0)
        .map_or(0, |last| last + 1);
    let more = seeded.between(end, size);
    let end = seeded.one_of(&[end, end, end, more, size]);
    any_string(seeded, &value[..end])
}

// ---- Texts ----

/// The lines as they are, from the last to the first, group by group in any order, with a line of
/// each group in turn, or in any order.
fn in_any_order(seeded: &mut Seeded, mut lines: Vec<Line>) -> Vec<Line> {
    match seeded.between(0, 9) {
        0 | 1 => {}
        2 => lines.reverse(),
        3 => {
            let mut groups: Vec<String> = lines.iter().map(|l| l.group().to_string()).collect();
            shuffle(seeded, &mut groups);
            lines.sort_by_key(|line| groups.iter().position(|group| group == line.group()));
        }
        4 => {
            let before = |i: usize| {
                let same = |line: &&Line| line.group() == lines[i].group();
                lines[..i].iter().filter(same).count()
            };
            let mut turns: Vec<usize> = (0..lines.len()).collect();
            turns.sort_by_key(|i| before(*i));
            lines = turns.iter().map(|i| lines[*i].clone()).collect();
        }
        _ => shuffle(seeded, &mut lines),
    }
    lines
}

/// The lines in any order, with comments and lines of nothing between, as Unix or Windows ends
/// them; the last one may have no end.
pub fn text_of_lines(seeded: &mut Seeded, lines: Vec<Line>) -> Vec<u8> {
    let lines = in_any_order(seeded, lines);
    text_in_order(seeded, lines)
}

/// The same in this order.
pub fn text_in_order(seeded: &mut Seeded, lines: Vec<Line>) -> Vec<u8> {
    let end = seeded.one_of(&["\n", "\n", "\r\n"]);
    let odds = seeded.one_of(&[2, 5, 1_000]);
    let mut text = Vec::new();
    for line in lines {
        while seeded.once_in(odds) {
            text.extend(line_of_nothing(seeded));
            text.extend(end.as_bytes());
        }
        text.extend(with_blanks(seeded, odds, line.field.as_bytes()));
        text.extend(some_blanks(seeded));
        text.extend(with_blanks(seeded, odds, &line.value));
        text.extend(end.as_bytes());
    }
    if seeded.once_in(3) {
        text.extend(line_of_nothing(seeded));
    } else if seeded.once_in(3) {
        text.truncate(text.len().saturating_sub(end.len()));
    }
    text
}

/// Blanks in front of a field, or behind a value. Either way they say nothing, and those between a
/// field and its value are `some_blanks`.
fn with_blanks(seeded: &mut Seeded, odds: usize, piece: &[u8]) -> Vec<u8> {
    let mut text = Vec::new();
    if seeded.once_in(odds) {
        text.extend(some_blanks(seeded));
    }
    text.extend(piece);
    if seeded.once_in(odds) {
        text.extend(some_blanks(seeded));
    }
    text
}

fn line_of_nothing(seeded: &mut Seeded) -> Vec<u8> {
    let mut line = match seeded.between(0, 2) {
        0 => some_blanks(seeded),
        _ => Vec::new(),
    };
    if seeded.once_in(2) {
        let comment: [&[u8]; 5] = [
            b"#",
            b"# control single",
            b"#\0\x7F\xFF",
            b"##",
            b"#nic77.mac x",
        ];
        line.extend(seeded.one_of(&comment));
    }
    line
}
