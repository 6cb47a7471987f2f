//! Why a table is refused, in words: of a refusal that can have more than one cause, every one that is
//! there. A cause counts as met where it is there alone, so that no other can stand in for it.

use crate::model::check::Refusal;
use crate::model::layout::*;

/// A refusal's number, and a cause of it.
pub type Cause = (u64, &'static str);

/// Every cause that must be met.
pub const CAUSES: &[Cause] = &[
    (5, "Length under 66"),
    (5, "Length above the bytes lent"),
    (9, "Control's ID"),
    (9, "Control's version"),
    (9, "Control's Index"),
    (9, "Control Length below 18"),
    (9, "Control Length above 42"),
    (9, "odd Control Length"),
    (9, "Control ends past the table"),
    (10, "flags of Control"),
    (10, "flags of the initiator"),
    (10, "flags of a named NIC"),
    (10, "flags of a named target"),
    (10, "flags of an extra NIC"),
    (10, "flags of an extra target"),
    (12, "named word, no multiple of 8"),
    (12, "named word, below Control's end"),
    (12, "named word, end past Length"),
    (12, "extra word, no multiple of 8"),
    (12, "extra word, below Control's end"),
    (12, "extra word, first six bytes past Length"),
    (12, "extra word, end past Length"),
    (13, "ID of a named structure"),
    (13, "version of a named structure"),
    (13, "length of a named structure"),
    (13, "Index of a named structure"),
    (13, "extra word to Control"),
    (13, "extra word to an initiator"),
    (13, "extra word to no kind"),
    (13, "version of an extra"),
    (13, "length of an extra"),
    (13, "Index 0 of an extra"),
    (13, "Index 1 of an extra"),
    (14, "two named structures"),
    (14, "an extra and a named structure"),
    (14, "two extras"),
    (15, "below the heap"),
    (15, "past Length"),
    (15, "length without offset"),
    (16, "no byte behind"),
    (16, "byte behind not zero"),
    (17, "a name above 223"),
    (17, "another above 255"),
    (19, "CHAP type of a named target"),
    (19, "CHAP type of an extra target"),
    (33, "the Index of an extra NIC"),
    (33, "the Index of an extra target"),
    (34, "a seventh extra NIC"),
    (34, "a seventh extra target"),
];

/// The causes that are there, of those above.
pub fn causes(table: &[u8], refusal: &Refusal) -> Vec<&'static str> {
    let all = match refusal.number {
        5 => of_length(table),
        9 => of_control(table),
        10 => of_flags(table, refusal.place),
        12 => of_word(table, refusal.place),
        13 => of_start_bytes(table, refusal.place),
        14 => of_sharing(table, refusal.place),
        15..=17 => of_entry(table, refusal),
        19 => of_chap_type(table, refusal.place),
        33 => of_extra_word(
            table,
            refusal.place,
            ["the Index of an extra NIC", "the Index of an extra target"],
        ),
        34 => of_extra_word(
            table,
            refusal.place,
            ["a seventh extra NIC", "a seventh extra target"],
        ),
        _ => Vec::new(),
    };
    all.into_iter()
        .filter(|(is_there, _)| *is_there)
        .map(|(_, cause)| cause)
        .collect()
}

/// Whether a cause is there, and the cause.
type Told = Vec<(bool, &'static str)>;

fn of_length(table: &[u8]) -> Told {
    vec![
        (length(table) < CONTROL_END, "Length under 66"),
        (
            length(table) > table.len() as u64,
            "Length above the bytes lent",
        ),
    ]
}

fn of_control(table: &[u8]) -> Told {
    let size = control_length(table);
    let at = |offset: u64| byte(table, CONTROL_START + offset);
    vec![
        (at(0) != CONTROL.id, "Control's ID"),
        (at(VERSION_AT) != VERSION, "Control's version"),
        (at(INDEX_AT) != 0, "Control's Index"),
        (size < 18, "Control Length below 18"),
        (size > 42, "Control Length above 42"),
        (size % 2 == 1, "odd Control Length"),
        (
            size <= 42 && control_end(table) > length(table),
            "Control ends past the table",
        ),
    ]
}

/// Is a Control word one of the extra ones?
fn is_extra(word: u64) -> bool {
    word >= CONTROL_END
}

/// Every Control word for a structure, whatever it leads to.
pub fn words(table: &[u8]) -> Vec<u64> {
    let named = SLOTS.iter().map(|slot| slot.word);
    named.chain(extra_words(table)).collect()
}

/// The words that lead to the start.
fn words_to(table: &[u8], start_there: u64) -> Vec<u64> {
    let mut words = words(table);
    words.retain(|word| start(table, *word) == Some(start_there));
    words
}

fn of_flags(table: &[u8], place: u64) -> Told {
    let start = place - FLAGS_AT;
    let by = words_to(table, start);
    let is = |kind: Kind, extra: bool| {
        byte(table, start) == kind.id && by.iter().all(|word| is_extra(*word) == extra)
    };
    let of_control = start == CONTROL_START;
    vec![
        (of_control, "flags of Control"),
        (
            !of_control && is(INITIATOR, false),
            "flags of the initiator",
        ),
        (!of_control && is(NIC, false), "flags of a named NIC"),
        (!of_control && is(TARGET, false), "flags of a named target"),
        (!of_control && is(NIC, true), "flags of an extra NIC"),
        (!of_control && is(TARGET, true), "flags of an extra target"),
    ]
}

fn of_chap_type(table: &[u8], place: u64) -> Told {
    let by = words_to(table, place - CHAP_TYPE_AT);
    vec![
        (
            by.iter().all(|word| !is_extra(*word)),
            "CHAP type of a named target",
        ),
        (
            by.iter().all(|word| is_extra(*word)),
            "CHAP type of an extra target",
        ),
    ]
}

fn of_word(table: &[u8], place: u64) -> Told {
    let start = word(table, place);
    let unaligned = start % ALIGNMENT != 0;
    let below = start < control_end(table);
    let past = |size: u64| start + size > length(table);
    match SLOTS.iter().find(|slot| slot.word == place) {
        Some(slot) => vec![
            (unaligned, "named word, no multiple of 8"),
            (below, "named word, below Control's end"),
            (past(slot.kind.length), "named word, end past Length"),
        ],
        None => vec![
            (unaligned, "extra word, no multiple of 8"),
            (below, "extra word, below Control's end"),
            (past(6), "extra word, first six bytes past Length"),
            (
                !unaligned && !below && !past(6),
                "extra word, end past Length",
            ),
        ],
    }
}

fn of_start_bytes(table: &[u8], place: u64) -> Told {
    let at = |offset: u64| byte(table, place + offset);
    let size = word(table, place + LENGTH_AT);
    // The refusal is that of the first of these words that has a fault there.
    let by = words_to(table, place);
    match SLOTS.iter().find(|slot| slot.word == by[0]) {
        Some(slot) if by.len() == 1 => vec![
            (at(0) != slot.kind.id, "ID of a named structure"),
            (at(VERSION_AT) != VERSION, "version of a named structure"),
            (size != slot.kind.length, "length of a named structure"),
            (at(INDEX_AT) != slot.index, "Index of a named structure"),
        ],
        None => match extra_kind(at(0)) {
            Some(kind) => vec![
                (at(VERSION_AT) != VERSION, "version of an extra"),
                (size != kind.length, "length of an extra"),
                (at(INDEX_AT) == 0, "Index 0 of an extra"),
                (at(INDEX_AT) == 1, "Index 1 of an extra"),
            ],
            None => vec![
                (at(0) == CONTROL.id, "extra word to Control"),
                (at(0) == INITIATOR.id, "extra word to an initiator"),
                (
                    at(0) != CONTROL.id && at(0) != INITIATOR.id,
                    "extra word to no kind",
                ),
            ],
        },
        _ => Vec::new(),
    }
}

fn of_sharing(table: &[u8], place: u64) -> Told {
    let found = by_word(table);
    let at = found.iter().position(|found| found.word == place).unwrap();
    let end = |found: &Found| found.start.unwrap_or(0) + found.kind.length;
    let shares = |other: &&Found| match (found[at].start, other.start) {
        (Some(one), Some(two)) => one < end(other) && two < end(&found[at]),
        _ => false,
    };
    let with: Vec<&Found> = found[..at].iter().filter(shares).collect();
    let later = is_extra(place);
    let with_named = with.iter().any(|found| !is_extra(found.word));
    let with_extra = with.iter().any(|found| is_extra(found.word));
    vec![
        (!later, "two named structures"),
        (later && with_named, "an extra and a named structure"),
        (later && with_extra, "two extras"),
    ]
}

fn of_entry(table: &[u8], refusal: &Refusal) -> Told {
    let (size, offset) = (word(table, refusal.place), word(table, refusal.place + 2));
    let end = size + offset;
    match refusal.number {
        15 => vec![
            (offset != 0 && offset < heap_start(table), "below the heap"),
            (end > length(table), "past Length"),
            (offset == 0, "length without offset"),
        ],
        16 => vec![
            (end >= length(table), "no byte behind"),
            (end < length(table), "byte behind not zero"),
        ],
        _ => {
            let is_name = |entry: &Entry| entry.longest == LONGEST_NAME;
            let is_name = entry_at(table, refusal.place)
                .as_ref()
                .map_or(false, is_name);
            vec![
                (is_name, "a name above 223"),
                (!is_name, "another above 255"),
            ]
        }
    }
}

/// The string whose length stands at the place.
fn entry_at(table: &[u8], place: u64) -> Option<Entry> {
    let slots = slots(table);
    let is_there = |entry: &Entry| slots[entry.slot].start == place.checked_sub(entry.at);
    entries(&slots).into_iter().find(is_there)
}

fn of_extra_word(table: &[u8], place: u64, [nic, target]: [&'static str; 2]) -> Told {
    let kind = extra(table, place).unwrap().kind;
    vec![(kind == NIC, nic), (kind == TARGET, target)]
}
