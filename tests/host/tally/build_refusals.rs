//! How often a build was refused, by number and place, and by cause.

use crate::model::build::CONTROL_PLACE;
use crate::model::check::Refusal;
use crate::tally::build_causes::{causes, Cause, CAUSES};
use std::collections::BTreeMap;

/// Every refusal of a build in the order in which they are tried, and each place that it can have.
fn refusals() -> Vec<(u64, Vec<u64>)> {
    let range = |first: u64, last: u64| (first..=last).collect::<Vec<u64>>();
    vec![
        (25, vec![0]),
        (8, vec![10, 16]),
        (34, range(11, 17)),
        (13, range(5, 16)),
        (33, range(6, 16)),
        (10, [vec![CONTROL_PLACE], range(0, 16)].concat()),
        (19, [vec![2, 4], range(5, 16)].concat()),
        (24, range(0, 48)),
        (17, range(0, 48)),
        (20, range(0, 48)),
        (18, [vec![1, 7], range(13, 18)].concat()),
        (21, vec![0]),
    ]
}

#[derive(Default)]
pub struct BuildRefusals {
    times: BTreeMap<(u64, u64), usize>,
    causes: BTreeMap<Cause, usize>,
}

impl BuildRefusals {
    pub fn count(&mut self, record: &[u8], refusal: &Refusal) {
        let key = (refusal.number, refusal.place);
        *self.times.entry(key).or_default() += 1;
        if let [cause] = causes(record, refusal)[..] {
            *self.causes.entry((refusal.number, cause)).or_default() += 1;
        }
    }

    fn times(&self, number: u64, place: u64) -> usize {
        self.times.get(&(number, place)).copied().unwrap_or(0)
    }

    pub fn print(&self) {
        for (number, places) in refusals() {
            let times: usize = places.iter().map(|p| self.times(number, *p)).sum();
            let listed: Vec<String> = places.iter().map(|place| place.to_string()).collect();
            match listed.len() {
                0..=7 => println!(
                    "  refused {:>2}: {:>7} times, at {}",
                    number,
                    times,
                    listed.join(" ")
                ),
                n => println!(
                    "  refused {:>2}: {:>7} times, at {} places",
                    number, times, n
                ),
            }
        }
        for cause in CAUSES {
            let times = self.causes.get(cause).copied().unwrap_or(0);
            println!("  {:>4} {:<44} {:>8} times alone", cause.0, cause.1, times);
        }
    }

    /// Was every refusal of a build met, at each place that it can have and from each cause?
    pub fn are_all_met(&self) -> bool {
        let mut all_met = true;
        for (number, places) in refusals() {
            for place in places.iter().filter(|p| self.times(number, **p) == 0) {
                println!("build: no input has refusal {} at {}", number, place);
                all_met = false;
            }
        }
        for (number, cause) in CAUSES.iter().filter(|c| !self.causes.contains_key(*c)) {
            println!("build: no input has refusal {} for {}", number, cause);
            all_met = false;
        }
        all_met
    }
}
