//! How often each refusal of an aBFT or an sBFT was met, at which places, and which others applied beside it, so
//! that their order shows.

use crate::model::check::Refusal;
use crate::model::header::RESERVED;
use crate::model::sbft::START;
use std::collections::{BTreeMap, BTreeSet};

/// The greatest place that a refusal can have: the last byte of an IB part at the greatest offset.
pub const LAST_PLACE: u64 = 65_582;

/// A refusal's name: with its place where the place tells which of several it is.
fn name(refusal: &Refusal) -> String {
    match refusal.number {
        30 if refusal.place as usize >= START => "30 of the IB part".to_string(),
        8 | 31 | 32 => format!("{} at {}", refusal.number, refusal.place),
        number => number.to_string(),
    }
}

/// A refusal that must be met, whatever checksum byte comes with it.
pub type NumberAndPlace = (u64, u64);

/// Pairs of which both must have applied to one table: the first is the answer.
pub const HEADER_PAIRS: &[(&str, &str)] = &[
    ("4", "5"),
    ("4", "6"),
    ("4", "30"),
    ("6", "7"),
    ("6", "30"),
    ("7", "8 at 10"),
    ("8 at 10", "8 at 16"),
    ("8 at 16", "30"),
];

pub const PART_PAIRS: &[(&str, &str)] = &[
    ("8 at 10", "31 at 36"),
    ("30", "31 at 36"),
    ("30", "32 at 38"),
    ("30", "30 of the IB part"),
    ("31 at 36", "31 at 38"),
    ("31 at 36", "32 at 40"),
    ("31 at 36", "30 of the IB part"),
    ("31 at 38", "31 at 40"),
    ("31 at 38", "32 at 40"),
    ("31 at 40", "32 at 38"),
    ("32 at 38", "32 at 40"),
    ("32 at 38", "30 of the IB part"),
    ("32 at 40", "30 of the IB part"),
];

#[derive(Default)]
pub struct FamilyRefusals {
    places: BTreeMap<u64, BTreeMap<u64, usize>>,
    pairs: BTreeMap<(String, String), usize>,
}

impl FamilyRefusals {
    /// Counts the answer, the first of the faults, and what else applied.
    pub fn count(&mut self, faults: &[Refusal]) {
        let (first, others) = match faults.split_first() {
            Some(split) => split,
            None => return,
        };
        let places = self.places.entry(first.number).or_default();
        *places.entry(first.place).or_default() += 1;
        let beside: BTreeSet<String> = others.iter().map(name).collect();
        for other in beside {
            *self.pairs.entry((name(first), other)).or_default() += 1;
        }
    }

    pub fn print(&self) {
        for (number, places) in &self.places {
            let times: usize = places.values().sum();
            let (first, last) = (places.keys().next().unwrap(), places.keys().last().unwrap());
            println!(
                "  refused {:>2}: {:>6} times, at {} places from {} to {}",
                number,
                times,
                places.len(),
                first,
                last
            );
        }
        println!(
            "  pairs of refusals that applied to one table: {}",
            self.pairs.len()
        );
    }

    fn times(&self, number: u64, place: u64) -> usize {
        let places = self.places.get(&number);
        places.and_then(|places| places.get(&place)).copied().unwrap_or(0)
    }

    /// Was every one of these refusals met, and every one of these pairs?
    pub fn are_met(&self, subject: &str, wanted: &[NumberAndPlace], pairs: &[(&str, &str)]) -> bool {
        let unmet = |(number, place): &&NumberAndPlace| self.times(*number, *place) == 0;
        let missing: Vec<&NumberAndPlace> = wanted.iter().filter(unmet).collect();
        for (number, place) in &missing {
            println!("{}: no input has refusal {} at {}", subject, number, place);
        }
        let key = |pair: &(&str, &str)| (pair.0.to_string(), pair.1.to_string());
        let apart: Vec<_> = pairs
            .iter()
            .filter(|pair| !self.pairs.contains_key(&key(pair)))
            .collect();
        for (first, other) in &apart {
            println!(
                "{}: no input has refusal {} and beside it {}",
                subject, first, other
            );
        }
        missing.is_empty() && apart.is_empty()
    }
}

/// The refusals of a header, and 30 at each of these reserved bytes.
pub fn header_refusals(reserved: &[usize]) -> Vec<NumberAndPlace> {
    let header = [(3, 0), (4, 0), (5, 4), (6, 9), (7, 8), (8, 10), (8, 16)];
    let at_reserved = reserved.iter().map(|place| (30, *place as u64));
    assert!(reserved.starts_with(&RESERVED.collect::<Vec<usize>>()));
    header.into_iter().chain(at_reserved).collect()
}

/// The refusals of an sBFT's parts: of each offset word, and of the IB part's reserved bytes where a write lays
/// it and as far up as they can stand.
pub fn part_refusals() -> Vec<NumberAndPlace> {
    let words = [(31, 36), (31, 38), (31, 40), (32, 38), (32, 40)];
    let laid = (130..136).map(|place| (30, place));
    let far = [(30, 65_536), (30, LAST_PLACE)];
    words.into_iter().chain(laid).chain(far).collect()
}
