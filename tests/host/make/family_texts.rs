//! Texts of aBFT and sBFT records: good ones, and such in which a line cannot be read, is of another family, or
//! makes a record that is refused.

use crate::damage::text::change_byte;
use crate::make::field::any_of_note;
use crate::make::good_tables::{oem_text, shuffle};
use crate::make::seeded::Seeded;
use crate::make::text::{any_value, text_in_order, text_of_lines, Line};
use crate::model::family_text::{rows, Row};
use crate::model::notation::Notation;
use crate::model::scan::{Family, ABFT, SBFT};

pub fn any_family(seeded: &mut Seeded) -> Family {
    seeded.one_of(&[ABFT, SBFT])
}

fn line(field: &str, value: &[u8]) -> Line {
    Line {
        field: field.to_string(),
        value: value.to_vec(),
    }
}

/// A line with any value that the field can have.
fn good_line(seeded: &mut Seeded, row: &Row) -> Line {
    let (name, notation) = *row;
    let value = match notation {
        Notation::Filled(size) => oem_text(seeded, size),
        _ => any_of_note(seeded, notation).unwrap(),
    };
    line(name, &any_value(seeded, notation, &value))
}

/// Some of the family's fields or all, at least one that is no OEM field.
fn good_lines(seeded: &mut Seeded, family: &Family) -> Vec<Line> {
    let rows = rows(family);
    let odds = seeded.one_of(&[1, 2, 3]);
    let sure = seeded.between(2, rows.len() - 1);
    let mut lines = Vec::new();
    for (i, row) in rows.iter().enumerate() {
        if i == sure || seeded.once_in(odds) {
            lines.push(good_line(seeded, row));
        }
    }
    lines
}

pub fn good_text(seeded: &mut Seeded) -> Vec<u8> {
    let family = any_family(seeded);
    let lines = good_lines(seeded, &family);
    text_of_lines(seeded, lines)
}

/// Fields that a family has not, names that are nearly right, and lines without a value.
pub fn text_with_odd_field(seeded: &mut Seeded) -> Vec<u8> {
    let family = any_family(seeded);
    let mut lines = good_lines(seeded, &family);
    let odd = match family {
        ABFT => [
            "abft.lun",
            "abft.",
            "abft.shelf1",
            "abft.Mac",
            "oem.name",
            "abft",
            "rubbish",
        ],
        _ => [
            "sbft.shelf",
            "sbft.",
            "sbft.port",
            "sbft.ib",
            "oem.",
            "sbft",
            "Sbft.lun",
        ],
    };
    let at = seeded.between(0, lines.len());
    lines.insert(at, line(seeded.one_of(&odd), b"1"));
    text_in_order(seeded, lines)
}

/// A field given a second time, with the same value or another.
pub fn text_with_field_twice(seeded: &mut Seeded) -> Vec<u8> {
    let family = any_family(seeded);
    let mut lines = good_lines(seeded, &family);
    let mut again = lines[seeded.between(0, lines.len() - 1)].clone();
    if seeded.once_in(2) {
        again.value = b"rubbish".to_vec();
    }
    lines.push(again);
    text_of_lines(seeded, lines)
}

/// Values that are nearly right, or right for another field.
pub fn text_with_odd_value(seeded: &mut Seeded) -> Vec<u8> {
    let family = any_family(seeded);
    let mut lines = good_lines(seeded, &family);
    for _ in 0..seeded.one_of(&[1, 1, 2]) {
        let at = seeded.between(0, lines.len() - 1);
        let other = lines[seeded.between(0, lines.len() - 1)].value.clone();
        let value = &mut lines[at].value;
        match seeded.between(0, 5) {
            0 => *value = other,
            1 => value.clear(),
            2 => value.extend(b":00"),
            3 => {
                *value = seeded
                    .one_of(&[
                        &b"65536"[..],
                        b"256",
                        b"65535",
                        b"255",
                        b"0xffff",
                        b"0x10000",
                        b"-1",
                    ])
                    .to_vec()
            }
            4 => value.truncate(value.len().saturating_sub(3)),
            _ => change_byte(seeded, value),
        }
    }
    text_in_order(seeded, lines)
}

/// OEM strings with a zero byte inside, or a byte too many.
pub fn text_with_odd_oem(seeded: &mut Seeded) -> Vec<u8> {
    let family = any_family(seeded);
    let mut lines = good_lines(seeded, &family);
    lines.retain(|line| !line.field.starts_with("oem."));
    for name in ["oem.id", "oem.table"] {
        let size = seeded.between(0, 10);
        let string: Vec<u8> = (0..size).map(|_| seeded.one_of(b"AB\0")).collect();
        if seeded.once_in(2) {
            lines.push(line(name, &any_value(seeded, Notation::Text, &string)));
        }
    }
    text_of_lines(seeded, lines)
}

/// Lines of an iBFT's text, the last two of which cannot be read.
const IBFT_LINES: [(&str, &[u8]); 6] = [
    ("control", b"multi"),
    ("nic0.mac", b"02:00:5e:10:00:07"),
    ("target7.lun", b"1"),
    ("initiator.name", b"iqn.a"),
    ("nic0.vlan", b"rubbish"),
    ("targets", b"x"),
];

/// A line of another family. What else may be wrong is wrong in it or behind it.
pub fn text_with_stray_line(seeded: &mut Seeded) -> Vec<u8> {
    let family = any_family(seeded);
    let other = if family == ABFT { SBFT } else { ABFT };
    let mut lines = good_lines(seeded, &family);
    shuffle(seeded, &mut lines);
    let small = good_lines(seeded, &other)
        .into_iter()
        .find(|line| !line.field.starts_with("oem."))
        .unwrap();
    let own = lines
        .iter()
        .position(|line| !line.field.starts_with("oem."))
        .unwrap();
    let at = seeded.one_of(&[0, own, own + 1, lines.len()]);
    // Before the text's own lines it is the text that is of the other family, and they are the stray ones.
    let can_be_odd = at > own;
    let (field, value) = seeded.one_of(&IBFT_LINES[..if can_be_odd { 6 } else { 4 }]);
    let stray = if seeded.once_in(2) {
        small
    } else {
        line(field, value)
    };
    lines.insert(at, stray);
    if seeded.once_in(3) {
        lines.push(line("rubbish", b"1"));
    }
    text_in_order(seeded, lines)
}

/// OEM fields alone are a text of an iBFT.
pub fn text_of_oem_fields(seeded: &mut Seeded) -> Vec<u8> {
    let rows = rows(&ABFT);
    let lines = rows[..2].iter().map(|row| good_line(seeded, row)).collect();
    text_of_lines(seeded, lines)
}
