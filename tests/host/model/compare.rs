//! Two tables compared by meaning, read a second time from the words of the request: every difference once and in the
//! order named, where each table has it, and what is shown of it from the left one.
//!
//! What a structure is called, its kind and Index, is gathered from each table by itself; the names of both are put
//! together and sorted. Numbers of slots and of entries are not spoken of.

use crate::model::check::{check, Refusal};
use crate::model::layout::*;
use crate::model::text::Group;

/// Bytes of a table. Nothing that is named stands at 0: start 0 with length 0 says that the table has none.
#[derive(Clone, Copy, Debug, Default, PartialEq)]
pub struct Stretch {
    pub start: u64,
    pub length: u64,
}

const NONE: Stretch = stretch(0, 0);

const fn stretch(start: u64, length: u64) -> Stretch {
    Stretch { start, length }
}

impl Stretch {
    pub fn end(&self) -> u64 {
        self.start + self.length
    }

    pub fn bytes<'a>(&self, table: &'a [u8]) -> &'a [u8] {
        &table[self.start as usize..self.end() as usize]
    }
}

/// What differs. A field is known by where its structure has it, a string by where that has its length.
#[derive(Clone, Copy, Debug, PartialEq)]
pub enum What {
    OemId,
    OemTableId,
    ControlFlags,
    Presence(Group),
    Field(Group, u64),
    Text(Group, StringField),
}

#[derive(Clone, Copy, Debug, PartialEq)]
pub struct Difference {
    pub what: What,
    pub left: Stretch,
    pub right: Stretch,
    pub shown: Stretch,
}

/// A refusal, and of which table: 0 the left one, 1 the right one.
#[derive(Clone, Copy, Debug, PartialEq)]
pub struct RefusedSide {
    pub refusal: Refusal,
    pub side: u64,
}

pub type Compared = Result<Vec<Difference>, RefusedSide>;

pub fn compared(left: &[u8], right: &[u8]) -> Compared {
    for (table, side) in [(left, 0), (right, 1)] {
        check(table).map_err(|refusal| RefusedSide { refusal, side })?;
    }
    Ok(differences(&Side::of(left), &Side::of(right)))
}

/// In the order named: what stands at the same place in both tables, presence, fields, strings.
fn differences(left: &Side, right: &Side) -> Vec<Difference> {
    let mut list = fixed_differences(left.table, right.table);
    let names = names_in_order(left, right);
    let both = |name: &Group| (left.start(name), right.start(name));
    list.extend(names.iter().filter_map(|name| presence(name, both(name))));
    for name in &names {
        if let (Some(l), Some(r)) = both(name) {
            list.extend(field_differences(name, (left, l), (right, r)));
        }
    }
    for name in &names {
        if let (Some(l), Some(r)) = both(name) {
            list.extend(text_differences(name, (left, l), (right, r)));
        }
    }
    list
}

// ---- Structures ----

/// A table, and by name where its structures start.
struct Side<'a> {
    table: &'a [u8],
    structures: Vec<(Group, u64)>,
}

impl Side<'_> {
    fn of(table: &[u8]) -> Side<'_> {
        let named = |found: Found| {
            let Found { kind, index, .. } = found;
            Some((Group { kind, index }, found.start?))
        };
        Side {
            table,
            structures: by_word(table).into_iter().filter_map(named).collect(),
        }
    }

    /// None where the table has no such structure.
    fn start(&self, name: &Group) -> Option<u64> {
        let mut same = self.structures.iter().filter(|(other, _)| other == name);
        same.next().map(|(_, start)| *start)
    }

    /// Where a string stands; none where it is missing.
    fn text(&self, start: u64, at: u64) -> Option<Stretch> {
        let (length, offset) = (word(self.table, start + at), word(self.table, start + at + 2));
        (length != 0 || offset != 0).then_some(stretch(offset, length))
    }
}

/// The names of both tables, each once: initiator, NIC 0, Target 0, NIC 1, Target 1, the other NICs by Index, the other
/// targets by Index.
fn names_in_order(left: &Side, right: &Side) -> Vec<Group> {
    let all = left.structures.iter().chain(&right.structures);
    let mut names: Vec<Group> = all.map(|(name, _)| *name).collect();
    names.sort_by_key(turn);
    names.dedup();
    names
}

/// Where a structure stands in that order.
pub fn turn(name: &Group) -> (u64, u64) {
    match (name.kind.id, name.index) {
        (2, _) => (0, 0),
        (3, 0) => (1, 0),
        (4, 0) => (2, 0),
        (3, 1) => (3, 0),
        (4, 1) => (4, 0),
        (3, index) => (5, index),
        (_, index) => (6, index),
    }
}

// ---- Differences ----

fn difference(what: What, left: Stretch, right: Stretch) -> Difference {
    Difference {
        what,
        left,
        right,
        shown: NONE,
    }
}

/// The OEM fields and Control's flags.
fn fixed_differences(left: &[u8], right: &[u8]) -> Vec<Difference> {
    let all = [
        (What::OemId, stretch(10, 6)),
        (What::OemTableId, stretch(16, 8)),
        (What::ControlFlags, stretch(53, 1)),
    ];
    let differs = |place: &Stretch| place.bytes(left) != place.bytes(right);
    let differing = all.into_iter().filter(|(_, place)| differs(place));
    differing
        .map(|(what, place)| difference(what, place, place))
        .collect()
}

/// A structure that only one table has.
fn presence(name: &Group, starts: (Option<u64>, Option<u64>)) -> Option<Difference> {
    let what = What::Presence(*name);
    let whole = |start: u64| stretch(start, name.kind.length);
    match starts {
        (Some(start), None) => Some(difference(what, whole(start), NONE)),
        (None, Some(start)) => Some(difference(what, NONE, whole(start))),
        _ => None,
    }
}

/// RULES.md, Layout: where the flags and each field stand in a structure, and how many bytes they have.
pub fn fields_in(kind: &Kind) -> &'static [(u64, u64)] {
    match kind.id {
        2 => &[(5, 1), (6, 16), (22, 16), (38, 16), (54, 16)],
        3 => &[
            (5, 1),
            (6, 16),
            (22, 1),
            (23, 1),
            (24, 16),
            (40, 16),
            (56, 16),
            (72, 16),
            (88, 2),
            (90, 6),
            (96, 2),
        ],
        _ => &[(5, 1), (6, 16), (22, 2), (24, 8), (32, 1), (33, 1)],
    }
}

/// Flags and fields of a structure that both tables have.
fn field_differences(name: &Group, left: (&Side, u64), right: (&Side, u64)) -> Vec<Difference> {
    let mut list = Vec::new();
    for (at, size) in fields_in(&name.kind) {
        let (l, r) = (stretch(left.1 + at, *size), stretch(right.1 + at, *size));
        if l.bytes(left.0.table) != r.bytes(right.0.table) {
            list.push(difference(What::Field(*name, *at), l, r));
        }
    }
    list
}

/// Strings of a structure that both tables have.
fn text_differences(name: &Group, left: (&Side, u64), right: (&Side, u64)) -> Vec<Difference> {
    let mut list = Vec::new();
    for text in name.kind.texts {
        let (l, r) = (left.0.text(left.1, text.at), right.0.text(right.1, text.at));
        let bytes_of = |side: &Side, text: Option<Stretch>| text.map(|text| text.bytes(side.table).to_vec());
        let (l_bytes, r_bytes) = (bytes_of(left.0, l), bytes_of(right.0, r));
        if l_bytes != r_bytes {
            list.push(Difference {
                what: What::Text(*name, *text),
                left: l.unwrap_or_default(),
                right: r.unwrap_or_default(),
                shown: shown(l, l_bytes, r_bytes),
            });
        }
    }
    list
}

/// From the first unequal byte to the end of the left string; all of it where the right one is missing.
fn shown(place: Option<Stretch>, left: Option<Vec<u8>>, right: Option<Vec<u8>>) -> Stretch {
    let (Some(place), Some(left)) = (place, left) else {
        return NONE;
    };
    let right = match right {
        Some(right) => right,
        None => return place,
    };
    let from = first_unequal(&left, &right);
    stretch(place.start + from, place.length - from)
}

/// The number of the first byte that the other string has not, or has another for.
pub fn first_unequal(left: &[u8], right: &[u8]) -> u64 {
    let is_unequal = |at: &usize| left.get(*at) != right.get(*at);
    let mut places = 0..=left.len().min(right.len());
    places.find(is_unequal).unwrap_or(left.len()) as u64
}

// ---- As the calls answer ----

/// Number, place, checksum byte and side; what `test_difference` answers.
pub fn packed_refusal(compared: &Compared) -> u64 {
    match compared {
        Ok(_) => 0,
        Err(RefusedSide { refusal, side }) => {
            refusal.number + (refusal.place << 8) + (u64::from(refusal.checksum) << 32) + (side << 40)
        }
    }
}

/// The same with the number of differences; what `test_compare` answers.
pub fn packed_comparison(compared: &Compared) -> u64 {
    let count = compared.as_ref().map_or(0, Vec::len) as u64;
    packed_refusal(compared) + (count << 48)
}

pub const LAID_SIZE: usize = 23;

/// What `test_difference` writes; all zeros where there is no such difference.
pub fn laid(difference: Option<&Difference>) -> [u8; LAID_SIZE] {
    let mut laid = [0; LAID_SIZE];
    let Some(difference) = difference else {
        return laid;
    };
    laid[..5].copy_from_slice(&laid_name(&difference.what));
    let stretches = [difference.left, difference.right, difference.shown];
    for (Stretch { start, length }, place) in stretches.iter().zip(laid[5..].chunks_mut(6)) {
        place[..4].copy_from_slice(&(*start as u32).to_le_bytes());
        place[4..].copy_from_slice(&(*length as u16).to_le_bytes());
    }
    laid
}

/// What differs by number, the structure's ID and Index, where it stands in that.
fn laid_name(what: &What) -> [u8; 5] {
    let (number, name, at) = match what {
        What::OemId => (1, None, 0),
        What::OemTableId => (2, None, 0),
        What::ControlFlags => (3, None, 0),
        What::Presence(name) => (4, Some(name), 0),
        What::Field(name, at) => (5, Some(name), *at),
        What::Text(name, text) => (6, Some(name), text.at),
    };
    let (id, index) = name.map_or((0, 0), |name| (name.kind.id, name.index));
    [number, id as u8, index as u8, at as u8, (at >> 8) as u8]
}
