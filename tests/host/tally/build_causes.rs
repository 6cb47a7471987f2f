//! Why a build is refused, in words: of a refusal that can have more than one cause, every one that is
//! there. A cause counts as met where it is there alone.

use crate::model::check::Refusal;
use crate::model::layout::*;
use crate::model::record_range::*;

/// A refusal's number, and a cause of it.
pub type Cause = (u64, &'static str);

/// Every cause that must be met.
pub const CAUSES: &[Cause] = &[
    (25, "under 419 bytes"),
    (25, "420 bytes"),
    (25, "one byte less than its extras take"),
    (25, "one byte more than its extras take"),
    (25, "another size"),
    (25, "mark of a named slot"),
    (25, "mark of a named structure's string"),
    (25, "mark of an extra NIC's string"),
    (25, "mark of an extra target's string"),
    (25, "mark of a seventh extra's string"),
    (34, "a seventh extra NIC"),
    (34, "a seventh extra target"),
    (13, "Index 0 of an extra NIC"),
    (13, "Index 1 of an extra NIC"),
    (13, "Index 0 of an extra target"),
    (13, "Index 1 of an extra target"),
    (33, "the same Index as the NIC before"),
    (33, "a lower Index than the NIC before"),
    (33, "the same Index as the target before"),
    (33, "a lower Index than the target before"),
    (10, "flags of Control"),
    (10, "flags of a named structure"),
    (10, "flags of an extra NIC"),
    (10, "flags of an extra target"),
    (19, "CHAP type of a named target"),
    (19, "CHAP type of an extra target"),
    (17, "a name above 223"),
    (17, "another above 255"),
    (18, "host name of a named NIC"),
    (18, "host name of an extra NIC"),
];

/// The causes that are there, of those above.
pub fn causes(record: &[u8], refusal: &Refusal) -> Vec<&'static str> {
    let slot = refusal.place as usize;
    let all = match refusal.number {
        25 if !has_right_size(record) => of_size(record),
        25 => of_marks(record),
        34 => of_kind(
            record,
            slot,
            ["a seventh extra NIC", "a seventh extra target"],
        ),
        13 => of_low_index(record, slot),
        33 => of_order(record, slot),
        10 => of_flags(record, slot),
        17 => of_entry(record, slot),
        18 => vec![
            (slot < ENTRIES.len(), "host name of a named NIC"),
            (slot >= ENTRIES.len(), "host name of an extra NIC"),
        ],
        19 => vec![
            (slot < SLOTS.len(), "CHAP type of a named target"),
            (slot >= SLOTS.len(), "CHAP type of an extra target"),
        ],
        _ => Vec::new(),
    };
    all.into_iter()
        .filter(|(is_there, _)| *is_there)
        .map(|(_, cause)| cause)
        .collect()
}

/// Whether a cause is there, and the cause.
type Told = Vec<(bool, &'static str)>;

fn of_size(record: &[u8]) -> Told {
    let (nics, targets) = extras_given(record);
    let (size, right) = (record.len(), range_size(nics, targets));
    let tells_of_extras = size >= EXTRAS;
    let less = tells_of_extras && size + 1 == right;
    let more = tells_of_extras && size == right + 1;
    vec![
        (size < BASE_SIZE, "under 419 bytes"),
        (size == BASE_SIZE + 1, "420 bytes"),
        (less, "one byte less than its extras take"),
        (more, "one byte more than its extras take"),
        (tells_of_extras && !less && !more, "another size"),
    ]
}

fn of_marks(record: &[u8]) -> Told {
    let slots = slots_given(record);
    let (nics, _) = extras_given(record);
    let bad: Vec<usize> = entries_given(record)
        .iter()
        .filter(|entry| record[entry.mark] > 1)
        .map(|entry| entry.slot)
        .collect();
    let is_seventh = |slot: &usize| {
        let first = if slots[*slot].kind == NIC {
            SLOTS.len()
        } else {
            SLOTS.len() + nics
        };
        *slot >= first + EXTRAS_OF_A_KIND
    };
    let extra = |kind: Kind| {
        let of_kind = |slot: &&usize| **slot >= SLOTS.len() && slots[**slot].kind == kind;
        bad.iter().filter(of_kind).any(|slot| !is_seventh(slot))
    };
    let slot_marks = record[SLOT_MARKS].iter();
    vec![
        (
            slot_marks.into_iter().any(|mark| *mark > 1),
            "mark of a named slot",
        ),
        (
            bad.iter().any(|slot| *slot < SLOTS.len()),
            "mark of a named structure's string",
        ),
        (extra(NIC), "mark of an extra NIC's string"),
        (extra(TARGET), "mark of an extra target's string"),
        (
            bad.iter()
                .any(|slot| *slot >= SLOTS.len() && is_seventh(slot)),
            "mark of a seventh extra's string",
        ),
    ]
}

fn of_kind(record: &[u8], slot: usize, [nic, target]: [&'static str; 2]) -> Told {
    let kind = slots_given(record)[slot].kind;
    vec![(kind == NIC, nic), (kind == TARGET, target)]
}

fn of_low_index(record: &[u8], slot: usize) -> Told {
    let names = match index_given(record, &slots_given(record), slot) {
        0 => ["Index 0 of an extra NIC", "Index 0 of an extra target"],
        _ => ["Index 1 of an extra NIC", "Index 1 of an extra target"],
    };
    of_kind(record, slot, names)
}

fn of_order(record: &[u8], slot: usize) -> Told {
    let slots = slots_given(record);
    let index = |slot: usize| index_given(record, &slots, slot);
    let names = match index(slot) == index(slot - 1) {
        true => [
            "the same Index as the NIC before",
            "the same Index as the target before",
        ],
        false => [
            "a lower Index than the NIC before",
            "a lower Index than the target before",
        ],
    };
    of_kind(record, slot, names)
}

fn of_flags(record: &[u8], slot: usize) -> Told {
    match slots_given(record).get(slot) {
        None => vec![(true, "flags of Control")],
        Some(_) if slot < SLOTS.len() => vec![(true, "flags of a named structure")],
        Some(_) => of_kind(
            record,
            slot,
            ["flags of an extra NIC", "flags of an extra target"],
        ),
    }
}

fn of_entry(record: &[u8], entry: usize) -> Told {
    let text = entries_given(record)[entry].text;
    vec![
        (text.longest == LONGEST_NAME, "a name above 223"),
        (text.longest == LONGEST_OTHER, "another above 255"),
    ]
}
