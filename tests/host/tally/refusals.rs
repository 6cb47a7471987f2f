//! How often each refusal was met, at which places, whose fault it was and what the cause was.

use crate::model::check::Refusal;
use crate::model::layout::*;
use crate::tally::causes::{causes, words, Cause, CAUSES};
use std::collections::{BTreeMap, BTreeSet};
use std::ops::Range;

/// The owner of a fault of Control.
const CONTROL_ITSELF: usize = 255;

/// The refusals that have an owner, and each owner that must be met: Control words for 10, 12, 13, 14, 19, 33
/// and 34, by number, entries for 15 to 18.
fn owners() -> Vec<(u64, Vec<usize>)> {
    let words = |range: Range<usize>| range.collect::<Vec<usize>>();
    let entries = words(0..ENTRY_NUMBERS as usize);
    vec![
        (10, [vec![CONTROL_ITSELF], words(0..17)].concat()),
        (12, words(0..17)),
        (13, words(0..17)),
        (14, words(1..17)),
        (15, entries.clone()),
        (16, entries.clone()),
        (17, entries),
        (18, [vec![1, 7], words(13..19)].concat()),
        (19, [vec![2, 4], words(5..17)].concat()),
        (33, words(6..17)),
        (34, words(11..17)),
    ]
}

/// The places that must be met of a refusal without an owner.
const PLACES: &[(u64, &[u64])] = &[
    (3, &[0]),
    (4, &[0]),
    (5, &[4]),
    (6, &[9]),
    (7, &[8]),
    (8, &[10, 16]),
    (9, &[48]),
    (11, &[54]),
];

#[derive(Default)]
pub struct Refusals {
    places: BTreeMap<u64, BTreeMap<u64, usize>>,
    owners: BTreeSet<(u64, usize)>,
    causes: BTreeMap<Cause, usize>,
}

impl Refusals {
    pub fn count(&mut self, table: &[u8], refusal: &Refusal) {
        let places = self.places.entry(refusal.number).or_default();
        *places.entry(refusal.place).or_default() += 1;
        if let Some(owner) = owner(table, refusal) {
            self.owners.insert((refusal.number, owner));
        }
        if let [cause] = causes(table, refusal)[..] {
            *self.causes.entry((refusal.number, cause)).or_default() += 1;
        }
    }

    /// How often each cause was there alone.
    pub fn print_causes(&self) {
        for cause in CAUSES {
            let times = self.causes.get(cause).copied().unwrap_or(0);
            println!("  {:>4} {:<44} {:>8} times alone", cause.0, cause.1, times);
        }
    }

    pub fn print(&self, subject: &str) {
        for (number, places) in &self.places {
            let times: usize = places.values().sum();
            print!("  {} {:>2}: {:>7} times", subject, number, times);
            let listed: Vec<String> = places.keys().map(|place| place.to_string()).collect();
            match listed.len() {
                0..=6 => println!(", at {}", listed.join(" ")),
                n => println!(", at {} places from {} to {}", n, listed[0], listed[n - 1]),
            }
        }
    }

    /// Was every refusal of the check met, at each place or of each owner that it can have, and from each
    /// cause?
    pub fn are_all_met(&self, subject: &str) -> bool {
        let mut missing = Vec::new();
        for (number, places) in PLACES {
            let met = |place: &u64| self.is_met_at(*number, *place);
            missing.extend(places.iter().filter(|p| !met(p)).map(|p| (*number, *p)));
        }
        for (number, owners) in owners() {
            let is_unmet = |owner: &usize| !self.owners.contains(&(number, *owner));
            let unmet = owners.into_iter().filter(is_unmet);
            missing.extend(unmet.map(|owner| (number, owner as u64)));
        }
        for (number, of) in &missing {
            println!("{}: no input has refusal {} of {}", subject, number, of);
        }
        let unmet: Vec<&Cause> = CAUSES
            .iter()
            .filter(|cause| !self.causes.contains_key(*cause))
            .collect();
        for (number, cause) in &unmet {
            println!("{}: no input has refusal {} for {}", subject, number, cause);
        }
        missing.is_empty() && unmet.is_empty()
    }

    fn is_met_at(&self, number: u64, place: u64) -> bool {
        match self.places.get(&number) {
            Some(places) => places.contains_key(&place),
            None => false,
        }
    }

    pub fn is_met(&self, number: u64) -> bool {
        self.places.contains_key(&number)
    }
}

/// The word or entry that a refusal speaks of, found by its place.
fn owner(table: &[u8], refusal: &Refusal) -> Option<usize> {
    let place = refusal.place;
    if refusal.number < 10 {
        return None;
    }
    let words = words(table);
    let by_start = |at: u64| {
        let wanted = place.checked_sub(at)?;
        words
            .iter()
            .position(|word| start(table, *word) == Some(wanted))
    };
    match refusal.number {
        10 if place == CONTROL_START + FLAGS_AT => Some(CONTROL_ITSELF),
        10 => by_start(FLAGS_AT),
        12 | 14 | 33 | 34 => words.iter().position(|word| *word == place),
        13 => by_start(0),
        15..=18 => {
            let slots = slots(table);
            let field = |entry: &Entry| slots[entry.slot].start.map(|start| start + entry.at);
            let entries = entries(&slots);
            entries.iter().position(|entry| field(entry) == Some(place))
        }
        19 => by_start(CHAP_TYPE_AT),
        _ => None,
    }
}
