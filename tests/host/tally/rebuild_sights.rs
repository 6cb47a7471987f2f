//! What the tables that were rebuilt were like and into which rooms, and whose strings were refused for a
//! zero byte; so that a comparison that never met something is not taken for one that did.

use crate::model::build::built_order;
use crate::model::layout::*;
use crate::model::record::Record;
use crate::model::string_stretches::*;
use crate::tally::build_sights::LARGEST_LENGTH;
use std::collections::BTreeMap;

/// So many bytes more a table may get, beside those that its secrets saved by sharing, by another order of
/// its structures: an initiator has six bytes of padding behind it, a NIC or a target two, and what stands
/// last has none. An initiator that stood last comes first.
const MOST_GROWTH: i64 = 4;

/// Things that tables, rooms and answers have to have shown.
const SIGHTS: &[&str] = &[
    "nothing present",
    "named structures only",
    "extras",
    "all structures and all strings",
    "an Index of 255",
    "an unused word before a used one",
    "extra words not in the order of the slots",
    "structures not in the built order",
    "a gap before a structure",
    "other bytes than zero in a gap",
    "other bytes than zero in the reserved ones",
    "other bytes than zero between strings",
    "strings that end at one zero byte",
    "equal strings at two places",
    "a secret and another string share bytes",
    "two secrets share bytes",
    "a secret ends another string",
    "another string ends a secret",
    "an empty secret at the zero of another",
    "secrets apart from all other strings",
    "an empty string",
    "a missing string",
    "Length past the last string",
    "more bytes lent than Length",
    "Length over 64 KiB",
    "a string that ends past 64 KiB",
    "rebuilt shorter",
    "rebuilt as long, other bytes",
    "rebuilt to the same bytes",
    "rebuilt longer",
    "rebuilt longer by 4 bytes",
    "rebuilt longer by what secrets saved",
    "rebuilt longer by that and 4 bytes",
    "rebuilt no longer, though secrets shared",
    "a room of just the Length",
    "a room with bytes to spare",
    "a room of 13,710 bytes or more",
    "a room one byte too small",
    "a room of no bytes",
    "20 for a first byte",
    "20 for a last byte",
    "20 for the lower of two strings",
    "20 where 21 would apply",
    "a refusal of the check where 20 would apply",
];

/// The strings that can have a zero byte in an accepted table: host names cannot.
const ZERO_OWNERS: &[&str] = &[
    "the initiator's name",
    "a named target's name",
    "a named target's CHAP name",
    "a named target's CHAP secret",
    "a named target's reverse CHAP name",
    "a named target's reverse CHAP secret",
    "an extra target's name",
    "an extra target's CHAP name",
    "an extra target's CHAP secret",
    "an extra target's reverse CHAP name",
    "an extra target's reverse CHAP secret",
];

/// The numbers of these strings: all but those of the host names of NIC 0 and NIC 1. Without extra NICs the
/// numbers from 13 on are those of extra targets.
fn zero_numbers() -> impl Iterator<Item = u64> {
    let is_host_name = |number: &u64| match ENTRIES.get(*number as usize) {
        Some(entry) => entry.is_host_name,
        None => false,
    };
    (0..ENTRY_NUMBERS).filter(move |number| !is_host_name(number))
}

#[derive(Default)]
pub struct RebuildSights {
    times: BTreeMap<&'static str, usize>,
    zero_owners: BTreeMap<&'static str, usize>,
    zero_numbers: BTreeMap<u64, usize>,
    growth: Option<i64>,
    growth_beside_secrets: Option<i64>,
}

impl RebuildSights {
    pub fn see(&mut self, sight: &str, is_there: bool) {
        let sight = SIGHTS.iter().find(|name| **name == sight).unwrap();
        *self.times.entry(sight).or_default() += usize::from(is_there);
    }

    /// A table that was rebuilt into a room.
    pub fn see_rebuilt(&mut self, table: &[u8], record: &Record, rebuilt: &[u8], room_size: usize) {
        self.see_record(record);
        self.see_structures(table);
        self.see_heap(table, record);
        self.see_secrets(table);
        let before = &table[..length(table) as usize];
        self.see("more bytes lent than Length", table.len() > before.len());
        self.see("Length over 64 KiB", before.len() > 0x10000);
        let growth = rebuilt.len() as i64 - before.len() as i64;
        let saved = saved_by_secrets(table) as i64;
        self.growth = self.growth.max(Some(growth));
        self.growth_beside_secrets = self.growth_beside_secrets.max(Some(growth - saved));
        self.see("rebuilt shorter", growth < 0);
        let same = rebuilt == before;
        self.see("rebuilt as long, other bytes", growth == 0 && !same);
        self.see("rebuilt to the same bytes", same);
        self.see("rebuilt longer", growth > 0);
        let shared = saved > 0;
        let by_order = growth == saved + MOST_GROWTH;
        self.see("rebuilt longer by 4 bytes", by_order && !shared);
        let by_secrets = shared && growth == saved;
        self.see("rebuilt longer by what secrets saved", by_secrets);
        self.see("rebuilt longer by that and 4 bytes", by_order && shared);
        let for_nothing = shared && growth <= 0;
        self.see("rebuilt no longer, though secrets shared", for_nothing);
        self.see("a room of just the Length", room_size == rebuilt.len());
        self.see("a room with bytes to spare", room_size > rebuilt.len());
        self.see(
            "a room of 13,710 bytes or more",
            room_size >= LARGEST_LENGTH,
        );
    }

    fn see_record(&mut self, record: &Record) {
        let structures = record.structures.iter().flatten().count();
        let strings = record.entries.iter().flatten().count();
        let has_extras = !record.extras.is_empty();
        self.see("nothing present", structures == 0);
        self.see("named structures only", structures > 0 && !has_extras);
        self.see("extras", has_extras);
        let all = structures == SLOT_NUMBERS as usize && strings == ENTRY_NUMBERS as usize;
        self.see("all structures and all strings", all);
        let has_255 = record.extras.iter().any(|extra| extra.index == 255);
        self.see("an Index of 255", has_255);
        let mut texts = record.entries.iter().flatten();
        self.see("an empty string", texts.any(|text| text.is_empty()));
    }

    fn see_structures(&mut self, table: &[u8]) {
        let words = extra_words(table);
        let is_used = |at: &u64| start(table, *at).is_some();
        let mut pairs = words.windows(2);
        let unused = pairs.any(|pair| !is_used(&pair[0]) && is_used(&pair[1]));
        self.see("an unused word before a used one", unused);
        let slots = slots(table);
        let mut extras = slots[SLOTS.len()..].windows(2);
        let turned = extras.any(|pair| pair[0].word > pair[1].word);
        self.see("extra words not in the order of the slots", turned);
        let kinds: Vec<Kind> = slots.iter().map(|found| found.kind).collect();
        let order = built_order(&kinds).into_iter();
        let starts: Vec<u64> = order.filter_map(|slot| slots[slot].start).collect();
        let turned = starts.windows(2).any(|pair| pair[0] > pair[1]);
        self.see("structures not in the built order", turned);
        let mut present: Vec<(u64, u64)> = slots
            .iter()
            .filter_map(|found| Some((found.start?, found.kind.length)))
            .collect();
        present.sort();
        let (mut apart, mut filled) = (false, false);
        let mut end = control_end(table);
        for (start, size) in present {
            apart |= start >= end + ALIGNMENT;
            filled |= has_other_than_zero(&table[end as usize..start as usize]);
            end = start + size;
        }
        self.see("a gap before a structure", apart);
        self.see("other bytes than zero in a gap", filled);
        let reserved = &table[OEM_TABLE_ID.end..HEADER_LENGTH as usize];
        let filled = has_other_than_zero(reserved);
        self.see("other bytes than zero in the reserved ones", filled);
    }

    fn see_heap(&mut self, table: &[u8], record: &Record) {
        let slots = slots(table);
        let mut strings = Vec::new();
        let mut missing = false;
        for (entry, text) in entries(&slots).iter().zip(&record.entries) {
            match (slots[entry.slot].start, text) {
                (Some(start), Some(text)) => {
                    strings.push((word(table, start + entry.at + 2), text));
                }
                (Some(_), None) => missing = true,
                _ => {}
            }
        }
        self.see("a missing string", missing);
        strings.sort();
        let mut filled = false;
        let mut end = heap_start(table);
        for (offset, text) in &strings {
            let between = &table[end.min(*offset) as usize..*offset as usize];
            filled |= has_other_than_zero(between);
            end = end.max(offset + text.len() as u64 + 1);
        }
        self.see("other bytes than zero between strings", filled);
        self.see("Length past the last string", end < length(table));
        let far = !strings.is_empty() && end > 0x10000;
        self.see("a string that ends past 64 KiB", far);
        let end_of = |string: &(u64, &Vec<u8>)| string.0 + string.1.len() as u64;
        let (mut shared, mut twice) = (false, false);
        for (i, one) in strings.iter().enumerate() {
            let mut others = strings[..i].iter().filter(|other| other.0 != one.0);
            shared |= others.clone().any(|other| end_of(other) == end_of(one));
            twice |= others.any(|other| other.1 == one.1);
        }
        self.see("strings that end at one zero byte", shared);
        self.see("equal strings at two places", twice);
    }

    /// What the table's secrets share, and with whom.
    fn see_secrets(&mut self, table: &[u8]) {
        let strings = stretches(table);
        let has_secret = strings.iter().any(|string| string.is_secret);
        let apart = has_secret && secrets_are_apart(table);
        self.see("secrets apart from all other strings", apart);
        for secret in strings.iter().filter(|string| string.is_secret) {
            for other in strings.iter().filter(|other| other.entry != secret.entry) {
                self.see_beside_secret(secret, other);
            }
        }
    }

    fn see_beside_secret(&mut self, secret: &Stretch, other: &Stretch) {
        let shares = secret.overlaps(other);
        self.see("two secrets share bytes", shares && other.is_secret);
        if other.is_secret {
            return;
        }
        self.see("a secret and another string share bytes", shares);
        let is_tail = |tail: &Stretch, of: &Stretch| {
            tail.bytes.end == of.bytes.end && tail.bytes.start > of.bytes.start
        };
        let is_empty = secret.bytes.len() == 1;
        let ends_other = is_tail(secret, other);
        self.see("a secret ends another string", ends_other && !is_empty);
        self.see(
            "an empty secret at the zero of another",
            ends_other && is_empty,
        );
        self.see("another string ends a secret", is_tail(other, secret));
    }

    /// A table whose string of this number is refused for a zero byte.
    pub fn see_zero(&mut self, record: &Record, number: u64, room_size: usize) {
        let entry = entries_of(&record.kinds())[number as usize];
        let texts = record.kinds()[entry.slot].texts;
        let string = texts.iter().position(|text| text.at == entry.at).unwrap();
        let owner = match (record.kinds()[entry.slot], entry.slot < SLOTS.len()) {
            (INITIATOR, _) => 0,
            (_, true) => 1 + string,
            (_, false) => 6 + string,
        };
        *self.zero_owners.entry(ZERO_OWNERS[owner]).or_default() += 1;
        *self.zero_numbers.entry(number).or_default() += 1;
        let text = record.entries[number as usize].as_ref().unwrap();
        let zero = text.iter().position(|byte| *byte == 0).unwrap();
        self.see("20 for a first byte", zero == 0);
        self.see("20 for a last byte", zero > 0 && zero == text.len() - 1);
        let mut behind = record.entries[number as usize + 1..].iter().flatten();
        let another = behind.any(|text| text.contains(&0));
        self.see("20 for the lower of two strings", another);
        self.see("20 where 21 would apply", room_size < CONTROL_END as usize);
    }

    /// Was everything seen, and no table that got longer by more than 4 bytes and what its secrets saved?
    pub fn are_enough(&self) -> bool {
        let mut enough = true;
        for sight in SIGHTS {
            let times = self.times.get(sight).copied().unwrap_or(0);
            println!("  {:<44} {:>10} times", sight, times);
            enough &= is_seen(times, sight);
        }
        for owner in ZERO_OWNERS {
            let times = self.zero_owners.get(owner).copied().unwrap_or(0);
            println!("  {:>4} {:<39} {:>10} times", 20, owner, times);
            enough &= is_seen(times, owner);
        }
        for number in zero_numbers() {
            let times = self.zero_numbers.get(&number).copied().unwrap_or(0);
            enough &= is_seen(times, &format!("20 of entry {}", number));
        }
        let growth = self.growth.unwrap_or(0);
        let beside = self.growth_beside_secrets.unwrap_or(0);
        println!("  {:<44} {:>10} bytes", "largest growth", growth);
        let what = "largest beside what secrets saved";
        println!("  {:<44} {:>10} bytes", what, beside);
        if beside > MOST_GROWTH {
            println!("rebuild: a table got longer by {} bytes", beside);
            println!("  and by what its secrets saved");
        }
        enough && beside <= MOST_GROWTH
    }
}

fn has_other_than_zero(bytes: &[u8]) -> bool {
    bytes.iter().any(|byte| *byte != 0)
}

fn is_seen(times: usize, what: &str) -> bool {
    if times == 0 {
        println!("rebuild: no input shows '{}'", what);
    }
    times > 0
}
