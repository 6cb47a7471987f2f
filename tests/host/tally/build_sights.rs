//! What the records that were built were like, so that a comparison that never met something is not
//! taken for one that did.

use crate::model::build::{Heap, Stored};
use crate::model::layout::{entries_of, Entry, ENTRIES, NIC};
use crate::model::record::Record;
use std::collections::BTreeMap;

/// The largest Length, and the largest without extras: RULES.md, Least Length.
pub const LARGEST_LENGTH: usize = 13_710;
const LARGEST_WITHOUT_EXTRAS: usize = 3_702;

/// Things that the records and rooms have to have shown.
const SIGHTS: &[&str] = &[
    "nothing present",
    "all structures and all strings",
    "all structures, a string missing",
    "an empty string is stored",
    "an empty string is a tail",
    "a string equals a lower one",
    "a tail of a lower string",
    "a tail of a higher string",
    "a tail of several stored strings",
    "a tail of two, the higher longer",
    "a string is the front of another",
    "the room is just enough",
    "one byte too few",
    "more room than Length",
    "Length 3,702 without extras",
    "Length 13,710",
    "extra NICs alone",
    "extra targets alone",
    "extras and no named structure",
    "twelve extras and all strings",
    "an extra's string equals a named one's",
    "an extra's string is a tail of another's",
    "an Index of 255",
    "a secret equals a lower string",
    "a secret equals a higher string",
    "a secret is a tail of a longer string",
    "a secret is a tail of a longer secret",
    "equal secrets of one target",
    "equal secrets of two targets",
    "equal secrets, one of them an extra's",
    "an empty secret, no other string there",
    "an empty secret beside other strings",
    "two empty secrets",
    "a string that ends a secret alone",
    "a string that equals a secret alone",
    "an empty string beside secrets alone",
    "a tail whose host would be a secret",
];

#[derive(Default)]
pub struct BuildSights {
    times: BTreeMap<&'static str, usize>,
    largest: usize,
}

impl BuildSights {
    pub fn see(&mut self, sight: &str, is_there: bool) {
        let sight = SIGHTS.iter().find(|name| **name == sight).unwrap();
        *self.times.entry(sight).or_default() += usize::from(is_there);
    }

    /// A record whose table of `length` bytes was built into the room.
    pub fn see_built(&mut self, record: &Record, length: usize, room_size: usize) {
        self.see_presence(record);
        self.see_sharing(record);
        self.see("the room is just enough", room_size == length);
        self.see("more room than Length", room_size > length);
        let has_extras = !record.extras.is_empty();
        let is_largest = !has_extras && length == LARGEST_WITHOUT_EXTRAS;
        self.see("Length 3,702 without extras", is_largest);
        self.see("Length 13,710", length == LARGEST_LENGTH);
        self.largest = self.largest.max(length);
    }

    fn see_presence(&mut self, record: &Record) {
        let structures = record.structures.iter().flatten().count();
        let strings = record.entries.iter().flatten().count();
        let all = structures == record.structures.len();
        let all_strings = strings == record.entries.len();
        self.see("nothing present", structures == 0);
        self.see("all structures and all strings", all && all_strings);
        self.see("all structures, a string missing", all && !all_strings);
        let extras = &record.extras;
        let nics = extras.iter().filter(|extra| extra.kind == NIC).count();
        self.see("extra NICs alone", nics > 0 && nics == extras.len());
        self.see("extra targets alone", nics == 0 && !extras.is_empty());
        let named_absent = structures == extras.len() && structures > 0;
        self.see("extras and no named structure", named_absent);
        let twelve = extras.len() == 12;
        self.see(
            "twelve extras and all strings",
            twelve && all && all_strings,
        );
        self.see(
            "an Index of 255",
            extras.iter().any(|extra| extra.index == 255),
        );
    }

    fn see_sharing(&mut self, record: &Record) {
        let heap = Heap::of(record);
        let if_shared = Heap::with_no_secret(record);
        let fields = entries_of(&record.kinds());
        for (entry, text) in record.entries.iter().enumerate() {
            match text {
                Some(text) if fields[entry].is_secret => {
                    self.see_secret(record, &fields, entry, text);
                }
                Some(text) => {
                    self.see_string(record, &heap, entry, text);
                    let would_share = fields[if_shared.owner(entry, text)].is_secret;
                    self.see_beside_secrets(&heap, entry, text, would_share);
                }
                None => {}
            }
        }
    }

    /// A secret, and the strings with which it would share bytes if it were none.
    fn see_secret(&mut self, record: &Record, fields: &[Entry], entry: usize, text: &[u8]) {
        let mut others = 0;
        for (other, of_other) in record.entries.iter().enumerate() {
            let of_other = match of_other {
                Some(of_other) if other != entry => of_other,
                _ => continue,
            };
            others += 1;
            let equals = text == of_other;
            let is_tail = of_other.len() > text.len() && of_other.ends_with(text);
            let is_empty = text.is_empty();
            if !fields[other].is_secret {
                self.see("a secret equals a lower string", equals && other < entry);
                self.see("a secret equals a higher string", equals && other > entry);
                let is_tail = is_tail && !is_empty;
                self.see("a secret is a tail of a longer string", is_tail);
                self.see("an empty secret beside other strings", is_empty);
                continue;
            }
            let is_tail = is_tail && !is_empty;
            self.see("a secret is a tail of a longer secret", is_tail);
            self.see("two empty secrets", equals && is_empty);
            let equals = equals && !is_empty;
            let one_target = fields[entry].slot == fields[other].slot;
            self.see("equal secrets of one target", equals && one_target);
            self.see("equal secrets of two targets", equals && !one_target);
            let of_extra = (entry >= ENTRIES.len()) != (other >= ENTRIES.len());
            self.see("equal secrets, one of them an extra's", equals && of_extra);
        }
        let is_alone = text.is_empty() && others == 0;
        self.see("an empty secret, no other string there", is_alone);
    }

    /// A string that is no secret, and whether it would stand in one if secrets shared their bytes.
    fn see_beside_secrets(&mut self, heap: &Heap, entry: usize, text: &[u8], would_share: bool) {
        let is_stored = heap.owner(entry, text) == entry;
        let ends_secret = is_stored && would_share;
        let equals = |stored: &Stored| stored.is_secret && stored.text == text;
        let equals_secret = heap.stored.iter().any(equals);
        let is_empty = text.is_empty();
        self.see(
            "a string that ends a secret alone",
            ends_secret && !equals_secret && !is_empty,
        );
        self.see(
            "a string that equals a secret alone",
            ends_secret && equals_secret && !is_empty,
        );
        self.see(
            "an empty string beside secrets alone",
            ends_secret && is_empty,
        );
        let other_host = !is_stored && would_share;
        self.see("a tail whose host would be a secret", other_host);
    }

    fn see_string(&mut self, record: &Record, heap: &Heap, entry: usize, text: &[u8]) {
        let owner = heap.owner(entry, text);
        let is_stored = owner == entry;
        let equals = record.entries[owner].as_deref() == Some(text);
        let is_empty = text.is_empty();
        let (of_extra, by_extra) = (entry >= ENTRIES.len(), owner >= ENTRIES.len());
        self.see(
            "an extra's string equals a named one's",
            of_extra && !by_extra && equals && !is_empty,
        );
        self.see(
            "an extra's string is a tail of another's",
            of_extra && by_extra && !is_stored && !equals && !is_empty,
        );
        self.see("an empty string is stored", is_stored && is_empty);
        self.see("an empty string is a tail", !equals && is_empty);
        self.see("a string equals a lower one", !is_stored && equals);
        let is_tail = !is_stored && !equals && !is_empty;
        self.see("a tail of a lower string", is_tail && owner < entry);
        self.see("a tail of a higher string", is_tail && owner > entry);
        let hosts = heap.stored.iter().filter(|stored| !stored.is_secret);
        let ends: Vec<usize> = hosts
            .filter(|stored| stored.text.ends_with(text))
            .map(|stored| stored.text.len())
            .collect();
        self.see(
            "a tail of several stored strings",
            is_tail && ends.len() > 1,
        );
        let longer = is_tail && ends.iter().any(|size| *size > ends[0]);
        self.see("a tail of two, the higher longer", longer);
        let is_front = |other: &Vec<u8>| other.len() > text.len() && other.starts_with(text);
        let is_front = !is_empty && record.entries.iter().flatten().any(is_front);
        self.see("a string is the front of another", is_front);
    }

    fn times(&self, sight: &str) -> usize {
        self.times.get(sight).copied().unwrap_or(0)
    }

    /// Was everything seen, the largest Length too, and none above it?
    pub fn are_enough(&self) -> bool {
        for sight in SIGHTS {
            println!("  {:<42} {:>10} times", sight, self.times(sight));
        }
        println!("  {:<42} {:>10}", "largest Length", self.largest);
        let unseen = SIGHTS.iter().find(|sight| self.times(sight) == 0);
        if let Some(sight) = unseen {
            println!("build: no input shows '{}'", sight);
        }
        if self.largest > LARGEST_LENGTH {
            println!("build: a Length is above {}", LARGEST_LENGTH);
        }
        unseen.is_none() && self.largest <= LARGEST_LENGTH
    }
}
