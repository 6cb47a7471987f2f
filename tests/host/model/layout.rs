//! RULES.md, Layout and the entry numbers of Strings, as data; how a table's bytes are read as
//! numbers; and which structures and strings a table has, by number.
//!
//! Numbers are `u64`, so that no sum of a start, an offset and a length can wrap. A read past the
//! lent bytes ends the program: the order of the rules has to keep each of them inside.

pub const SIGNATURE: &[u8] = b"iBFT";
pub const HEADER_LENGTH: u64 = 48;

/// Where the header's fields stand.
pub const LENGTH: u64 = 4;
pub const REVISION: u64 = 8;
pub const CHECKSUM: u64 = 9;
pub const OEM_ID: std::ops::Range<usize> = 10..16;
pub const OEM_TABLE_ID: std::ops::Range<usize> = 16..24;

/// Control has one place; its words at 56 to 64 are in SLOTS, its extra words follow from 66 on. Without
/// extra words it ends at 66.
pub const CONTROL_START: u64 = 48;
pub const CONTROL_END: u64 = 66;
pub const EXTENSIONS: u64 = 54;

/// At most so many extra words, and at most so many of them to structures of one kind.
pub const EXTRA_WORDS: u64 = 12;
pub const EXTRAS_OF_A_KIND: usize = 6;

/// The named words have Index 0 and 1; the least that an extra structure may have.
pub const FIRST_EXTRA_INDEX: u64 = 2;

/// Numbers of slots and of entries go up to these, not included; so do those of NICs and of targets.
pub const SLOT_NUMBERS: u64 = 17;
pub const ENTRY_NUMBERS: u64 = 49;
pub const NUMBERS_OF_A_KIND: u64 = 8;

/// Control's flag: single login.
pub const SINGLE_LOGIN: u64 = 1;

/// Flags that initiator, NIC and target have in common.
pub const VALID: u64 = 1;
pub const SELECTED: u64 = 2;

/// The six-byte start: ID, Version, Length, Index, Flags.
pub const VERSION_AT: u64 = 1;
pub const LENGTH_AT: u64 = 2;
pub const INDEX_AT: u64 = 4;
pub const FLAGS_AT: u64 = 5;

pub const VERSION: u64 = 1;

/// Where a target has its CHAP type, and the greatest there is.
pub const CHAP_TYPE_AT: u64 = 32;
pub const LAST_CHAP_TYPE: u64 = 2;

/// Starts are multiples of 8, at Control's end or above: of one without extra words at 72 or above.
pub const ALIGNMENT: u64 = 8;
pub const FIRST_START: u64 = 72;

/// A string of a kind of structure: where its length stands (its offset follows), the longest it may
/// be, whether it is a host name, and whether it is a secret: a CHAP secret or a reverse CHAP secret.
#[derive(Clone, Copy, Debug, PartialEq)]
pub struct StringField {
    pub at: u64,
    pub longest: u64,
    pub is_host_name: bool,
    pub is_secret: bool,
}

/// Initiator and target names, by RFC 3720; and all others.
pub const LONGEST_NAME: u64 = 223;
pub const LONGEST_OTHER: u64 = 255;

const fn name(at: u64) -> StringField {
    text(at, LONGEST_NAME)
}

const fn other(at: u64) -> StringField {
    text(at, LONGEST_OTHER)
}

const fn host_name(at: u64) -> StringField {
    StringField {
        is_host_name: true,
        ..text(at, LONGEST_OTHER)
    }
}

const fn secret(at: u64) -> StringField {
    StringField {
        is_secret: true,
        ..text(at, LONGEST_OTHER)
    }
}

const fn text(at: u64, longest: u64) -> StringField {
    StringField {
        at,
        longest,
        is_host_name: false,
        is_secret: false,
    }
}

/// What the structures of a kind have in common. A flag bit that is not named is reserved. Control's
/// Length is that without extra words.
#[derive(Clone, Copy, Debug, PartialEq)]
pub struct Kind {
    pub id: u64,
    pub length: u64,
    pub named_flags: u64,
    pub texts: &'static [StringField],
}

pub const CONTROL: Kind = kind(1, 18, 0b0001, &[]);
pub const INITIATOR: Kind = kind(2, 74, 0b0011, &[name(70)]);
pub const NIC: Kind = kind(3, 102, 0b0111, &[host_name(98)]);
pub const TARGET: Kind = kind(
    4,
    54,
    0b1111,
    &[name(34), other(38), secret(42), other(46), secret(50)],
);

const fn kind(id: u64, length: u64, named_flags: u64, texts: &'static [StringField]) -> Kind {
    Kind {
        id,
        length,
        named_flags,
        texts,
    }
}

/// One of the five structures that have a named word: its kind, its Index, and where Control has the word
/// with its start.
#[derive(Clone, Copy)]
pub struct Slot {
    pub kind: Kind,
    pub index: u64,
    pub word: u64,
}

pub const SLOTS: [Slot; 5] = [
    slot(INITIATOR, 0, 56),
    slot(NIC, 0, 58),
    slot(TARGET, 0, 60),
    slot(NIC, 1, 62),
    slot(TARGET, 1, 64),
];

const fn slot(kind: Kind, index: u64, word: u64) -> Slot {
    Slot { kind, index, word }
}

/// A string by its number: the slot that owns it, and what it is in that structure.
#[derive(Clone, Copy, Debug, PartialEq)]
pub struct Entry {
    pub slot: usize,
    pub at: u64,
    pub longest: u64,
    pub is_host_name: bool,
    pub is_secret: bool,
}

/// The strings of the named structures. Those of extra structures have numbers from 13 on.
pub const ENTRIES: [Entry; 13] = [
    entry(0, name(70)),
    entry(1, host_name(98)),
    entry(2, name(34)),
    entry(2, other(38)),
    entry(2, secret(42)),
    entry(2, other(46)),
    entry(2, secret(50)),
    entry(3, host_name(98)),
    entry(4, name(34)),
    entry(4, other(38)),
    entry(4, secret(42)),
    entry(4, other(46)),
    entry(4, secret(50)),
];

const fn entry(slot: usize, text: StringField) -> Entry {
    Entry {
        slot,
        at: text.at,
        longest: text.longest,
        is_host_name: text.is_host_name,
        is_secret: text.is_secret,
    }
}

/// The strings of structures of these kinds, by slot and in the order of the fields. All are listed,
/// whether their structure is present or not.
pub fn entries_of(kinds: &[Kind]) -> Vec<Entry> {
    let mut entries = Vec::new();
    for (slot, kind) in kinds.iter().enumerate() {
        entries.extend(kind.texts.iter().map(|text| entry(slot, *text)));
    }
    entries
}

// ---- Reading bytes ----

/// The little-endian number of `width` bytes at `at`.
pub fn number(table: &[u8], at: u64, width: u64) -> u64 {
    let mut number = 0;
    for i in 0..width {
        number += u64::from(table[(at + i) as usize]) << (8 * i);
    }
    number
}

pub fn byte(table: &[u8], at: u64) -> u64 {
    number(table, at, 1)
}

pub fn word(table: &[u8], at: u64) -> u64 {
    number(table, at, 2)
}

/// The table's Length field.
pub fn length(table: &[u8]) -> u64 {
    number(table, LENGTH, 4)
}

// ---- Control's words ----

pub fn control_length(table: &[u8]) -> u64 {
    word(table, CONTROL_START + LENGTH_AT)
}

pub fn control_end(table: &[u8]) -> u64 {
    CONTROL_START + control_length(table)
}

/// May Control have this Length? An even one, from no extra word to twelve.
pub fn is_control_length(length: u64) -> bool {
    let longest = CONTROL.length + 2 * EXTRA_WORDS;
    (CONTROL.length..=longest).contains(&length) && length % 2 == 0
}

/// Where the extra words stand. A Control that is refused has none.
pub fn extra_words(table: &[u8]) -> Vec<u64> {
    let end = control_end(table);
    if !is_control_length(control_length(table)) || end > table.len() as u64 {
        return Vec::new();
    }
    (CONTROL_END..end).step_by(2).collect()
}

// ---- Structures and strings ----

/// A structure that a Control word leads to: its kind and Index, where the word stands, and where it
/// starts; none where it is absent.
#[derive(Clone, Copy, Debug, PartialEq)]
pub struct Found {
    pub kind: Kind,
    pub index: u64,
    pub word: u64,
    pub start: Option<u64>,
}

/// Where the structure starts to which a Control word leads; none where the word is 0.
pub fn start(table: &[u8], at: u64) -> Option<u64> {
    match word(table, at) {
        0 => None,
        start => Some(start),
    }
}

/// The kind that an extra structure has by its ID.
pub fn extra_kind(id: u64) -> Option<Kind> {
    [NIC, TARGET].into_iter().find(|kind| kind.id == id)
}

/// The NIC or target to which an extra word leads; none where it leads to neither, or past the bytes.
pub fn extra(table: &[u8], at: u64) -> Option<Found> {
    let start = start(table, at)?;
    if start + FLAGS_AT >= table.len() as u64 {
        return None;
    }
    Some(Found {
        kind: extra_kind(byte(table, start))?,
        index: byte(table, start + INDEX_AT),
        word: at,
        start: Some(start),
    })
}

/// By Control word: the five that are named, present or not, then the extra structures.
pub fn by_word(table: &[u8]) -> Vec<Found> {
    let named = SLOTS.iter().map(|slot| Found {
        kind: slot.kind,
        index: slot.index,
        word: slot.word,
        start: start(table, slot.word),
    });
    let words = extra_words(table).into_iter();
    named
        .chain(words.filter_map(|at| extra(table, at)))
        .collect()
}

/// By slot: the five that are named, then the extra NICs, then the extra targets, each by Index.
pub fn slots(table: &[u8]) -> Vec<Found> {
    let mut slots = by_word(table);
    slots[SLOTS.len()..].sort_by_key(|found| (found.kind.id, found.index));
    slots
}

/// The strings that structures in these slots may have, by number.
pub fn entries(slots: &[Found]) -> Vec<Entry> {
    let kinds: Vec<Kind> = slots.iter().map(|found| found.kind).collect();
    entries_of(&kinds)
}

/// Where the heap starts: at the end of the last structure, Control counted.
pub fn heap_start(table: &[u8]) -> u64 {
    let mut end = control_end(table);
    for found in by_word(table) {
        if let Some(start) = found.start {
            end = end.max(start + found.kind.length);
        }
    }
    end
}
