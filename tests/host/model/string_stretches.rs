//! Where the strings of a table stand, each with the zero byte behind it, as the table's own words say; and what
//! of that secrets share. In a built table they share nothing (RULES.md, Building), in another they may.

use crate::model::layout::*;
use std::ops::Range;

/// A present string: the number of its entry, its bytes in the table up to its zero byte and with it, and
/// whether it is a secret.
#[derive(Debug, PartialEq)]
pub struct Stretch {
    pub entry: usize,
    pub bytes: Range<usize>,
    pub is_secret: bool,
}

impl Stretch {
    pub fn overlaps(&self, other: &Stretch) -> bool {
        self.bytes.start < other.bytes.end && other.bytes.start < self.bytes.end
    }
}

/// The present strings of a table that the check accepts, by number.
pub fn stretches(table: &[u8]) -> Vec<Stretch> {
    let slots = slots(table);
    let mut stretches = Vec::new();
    for (entry, field) in entries(&slots).iter().enumerate() {
        let words = match slots[field.slot].start {
            Some(start) => start + field.at,
            None => continue,
        };
        let (length, offset) = (word(table, words), word(table, words + 2));
        if (length, offset) != (0, 0) {
            stretches.push(Stretch {
                entry,
                bytes: offset as usize..(offset + length + 1) as usize,
                is_secret: field.is_secret,
            });
        }
    }
    stretches
}

/// Has every secret its bytes and its zero byte to itself?
pub fn secrets_are_apart(table: &[u8]) -> bool {
    let all = stretches(table);
    let shares = |secret: &Stretch| {
        let mut others = all.iter().filter(|other| other.entry != secret.entry);
        others.any(|other| secret.overlaps(other))
    };
    !all.iter().any(|string| string.is_secret && shares(string))
}

/// How many bytes secrets save by sharing: all that they have, each with its zero byte, less the bytes of
/// the table that none but secrets have. A byte that several of them have is one byte of the table.
pub fn saved_by_secrets(table: &[u8]) -> usize {
    let all = stretches(table);
    let mut of_secrets = vec![false; length(table) as usize];
    for string in all.iter().filter(|string| string.is_secret) {
        of_secrets[string.bytes.clone()].fill(true);
    }
    for string in all.iter().filter(|string| !string.is_secret) {
        of_secrets[string.bytes.clone()].fill(false);
    }
    let secrets = all.iter().filter(|string| string.is_secret);
    let taken: usize = secrets.map(|secret| secret.bytes.len()).sum();
    taken - of_secrets.iter().filter(|is_theirs| **is_theirs).count()
}
