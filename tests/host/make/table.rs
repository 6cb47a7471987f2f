//! Tables for the tests, laid as RULES.md has them: structures at any places, strings anywhere.
//! Nothing here keeps a caller from laying a table wrongly; that is what damage is made of.
//!
//! A structure is known by the number of its Control word: words 0 to 4 are the named ones and have the
//! numbers of their slots, extra words go on from 5. A string is known by the number of its entry.

use crate::model::layout::*;

/// The order in which a build lays the named slots.
const BUILT_ORDER: [usize; 5] = [0, 1, 3, 2, 4];

/// The number of the first extra word, and how many there can be in all.
pub const FIRST_EXTRA: usize = 5;
pub const ALL_WORDS: usize = 17;

/// Where a Control word stands.
pub fn word_at(word: usize) -> usize {
    SLOTS[0].word as usize + 2 * word
}

#[derive(Clone)]
pub struct Table {
    /// The lent bytes, and perhaps some behind them that are not lent.
    pub bytes: Vec<u8>,
    pub lent: usize,
}

impl Table {
    /// A good table of `length` bytes with nothing present; the sum is still to be mended.
    pub fn new(length: usize) -> Table {
        let mut table = Table {
            bytes: vec![0; length],
            lent: length,
        };
        table.write(0, SIGNATURE);
        table.set_length(length as u32);
        table.write(REVISION as usize, &[1]);
        table.write_start_bytes(CONTROL_START as usize, &CONTROL, 0);
        table
    }

    /// The same with so many extra words, none of them used.
    pub fn with_words(length: usize, extra_words: usize) -> Table {
        let mut table = Table::new(length);
        table.set_control_length(CONTROL.length as usize + 2 * extra_words);
        table
    }

    pub fn set_control_length(&mut self, length: usize) {
        self.write_word((CONTROL_START + LENGTH_AT) as usize, length);
    }

    pub fn lent_bytes(&self) -> &[u8] {
        &self.bytes[..self.lent]
    }

    /// Adds bytes at the end and lends them too; Length stays.
    pub fn lend_more(&mut self, more: &[u8]) {
        self.bytes.extend_from_slice(more);
        self.lent = self.bytes.len();
    }

    /// Writes as many of the bytes as the table has room for.
    pub fn write(&mut self, at: usize, bytes: &[u8]) {
        let end = (at + bytes.len()).min(self.bytes.len());
        if at < end {
            self.bytes[at..end].copy_from_slice(&bytes[..end - at]);
        }
    }

    pub fn write_word(&mut self, at: usize, word: usize) {
        self.write(at, &(word as u16).to_le_bytes());
    }

    pub fn word(&self, at: usize) -> usize {
        word(&self.bytes, at as u64) as usize
    }

    pub fn length(&self) -> usize {
        length(&self.bytes) as usize
    }

    pub fn set_length(&mut self, length: u32) {
        self.write(LENGTH as usize, &length.to_le_bytes());
    }

    /// Sets the checksum byte so that Length bytes sum to 0, as far as there are so many.
    pub fn mend(&mut self) {
        let end = self.length().min(self.bytes.len());
        let sum = self.bytes[..end]
            .iter()
            .fold(0u8, |sum, byte| sum.wrapping_add(*byte));
        let checksum = &mut self.bytes[CHECKSUM as usize];
        *checksum = checksum.wrapping_sub(sum);
    }

    /// The table with its sum mended.
    pub fn mended(mut self) -> Table {
        self.mend();
        self
    }

    /// Adds bytes at the table's end, with Length.
    pub fn append_bytes(&mut self, more: &[u8]) {
        self.bytes.truncate(self.length().max(CONTROL_END as usize));
        self.lend_more(more);
        self.set_length(self.bytes.len() as u32);
    }

    // ---- Structures ----

    /// Where a word's structure starts; 0 where the word is not used.
    pub fn start(&self, word: usize) -> usize {
        self.word(word_at(word))
    }

    pub fn set_start(&mut self, word: usize, start: usize) {
        self.write_word(word_at(word), start);
    }

    /// The extra words that Control has.
    pub fn extra_words(&self) -> Vec<usize> {
        (FIRST_EXTRA..FIRST_EXTRA + extra_words(&self.bytes).len()).collect()
    }

    /// The words that lead to a structure.
    pub fn used_words(&self) -> Vec<usize> {
        let named = 0..FIRST_EXTRA;
        let all = named.chain(self.extra_words());
        all.filter(|word| self.start(*word) != 0).collect()
    }

    /// The kind of structure to which a word leads; an extra word that leads to none is taken for one to a
    /// target.
    pub fn kind(&self, word: usize) -> Kind {
        match SLOTS.get(word) {
            Some(slot) => slot.kind,
            None => extra(&self.bytes, word_at(word) as u64).map_or(TARGET, |found| found.kind),
        }
    }

    /// Sets a named word, and the start bytes where it points to; the fields stay.
    pub fn put_structure(&mut self, slot: usize, start: usize) {
        self.set_start(slot, start);
        self.write_start_bytes(start, &SLOTS[slot].kind, SLOTS[slot].index as u8);
    }

    /// The same of an extra word.
    pub fn put_extra(&mut self, word: usize, kind: &Kind, index: u8, start: usize) {
        self.set_start(word, start);
        self.write_start_bytes(start, kind, index);
    }

    /// ID, Version, Length and Index.
    fn write_start_bytes(&mut self, start: usize, kind: &Kind, index: u8) {
        self.write(start, &[kind.id as u8, VERSION as u8]);
        self.write_word(start + LENGTH_AT as usize, kind.length as usize);
        self.write(start + INDEX_AT as usize, &[index]);
    }

    pub fn set_flags(&mut self, word: usize, flags: u8) {
        self.write(self.start(word) + FLAGS_AT as usize, &[flags]);
    }

    pub fn set_control_flags(&mut self, flags: u8) {
        self.write((CONTROL_START + FLAGS_AT) as usize, &[flags]);
    }

    // ---- Strings ----

    /// The strings that the table's structures may have, by number.
    pub fn entries(&self) -> Vec<Entry> {
        entries(&slots(&self.bytes))
    }

    /// Where an entry's length stands; none where its structure is absent.
    pub fn entry_field(&self, entry: usize) -> Option<usize> {
        let slots = slots(&self.bytes);
        let entry = *entries(&slots).get(entry)?;
        let start = slots[entry.slot].start?;
        Some((start + entry.at) as usize)
    }

    /// The entries whose structure is present.
    pub fn owned_entries(&self) -> Vec<usize> {
        let slots = slots(&self.bytes);
        let entries = entries(&slots);
        (0..entries.len())
            .filter(|e| slots[entries[*e].slot].start.is_some())
            .collect()
    }

    /// Sets the two words of an entry, if its structure is present.
    pub fn point(&mut self, entry: usize, offset: usize, length: usize) {
        if let Some(field) = self.entry_field(entry) {
            self.write_word(field, length);
            self.write_word(field + 2, offset);
        }
    }

    /// Adds a string and its zero byte at the table's end and points the entry there.
    pub fn append_text(&mut self, entry: usize, text: &[u8]) {
        let offset = self.length();
        self.append_bytes(text);
        self.append_bytes(&[0]);
        self.point(entry, offset, text.len());
    }
}

// ---- Tables that the tests know by name ----

/// Structures in the built order from 72 on, and nothing behind the last.
pub fn structures(present: &[usize]) -> Table {
    let mut starts = [0; SLOTS.len()];
    let mut end = CONTROL_END as usize;
    for slot in BUILT_ORDER.iter().filter(|s| present.contains(s)) {
        let alignment = ALIGNMENT as usize;
        starts[*slot] = (end + alignment - 1) / alignment * alignment;
        end = starts[*slot] + SLOTS[*slot].kind.length as usize;
    }
    let mut table = Table::new(end);
    for slot in present {
        table.put_structure(*slot, starts[*slot]);
    }
    table
}

/// Structures in the built order, and each string behind the one before.
pub fn with_texts(present: &[usize], texts: &[(usize, &[u8])]) -> Table {
    let mut table = structures(present);
    for (entry, text) in texts {
        table.append_text(*entry, text);
    }
    table
}

/// The named structures, then so many extra NICs and targets, in the built order; nothing behind the last.
/// Extras have every third Index, the last of each kind 255 where there are six; their words stand in the
/// opposite order.
pub fn structures_and_extras(named: &[usize], nics: usize, targets: usize) -> Table {
    let extras = nics + targets;
    let mut wanted: Vec<(usize, Kind, u8)> = Vec::new();
    for (first, kind, count) in [(0, NIC, nics), (nics, TARGET, targets)] {
        for i in 0..count {
            let index = if i == 5 { 255 } else { 2 + 3 * i as u8 };
            wanted.push((FIRST_EXTRA + extras - 1 - first - i, kind, index));
        }
    }
    let slots = |kind: Kind| BUILT_ORDER.iter().filter(move |s| SLOTS[**s].kind == kind);
    let mut order = Vec::new();
    for kind in [INITIATOR, NIC, TARGET] {
        let present = slots(kind).filter(|slot| named.contains(slot));
        order.extend(present.map(|slot| (*slot, kind, SLOTS[*slot].index as u8)));
        order.extend(wanted.iter().filter(|extra| extra.1 == kind));
    }
    let mut end = CONTROL_END as usize + 2 * extras;
    let mut starts = Vec::new();
    for (_, kind, _) in &order {
        let alignment = ALIGNMENT as usize;
        starts.push((end + alignment - 1) / alignment * alignment);
        end = starts[starts.len() - 1] + kind.length as usize;
    }
    let mut table = Table::with_words(end, extras);
    for ((word, kind, index), start) in order.iter().zip(starts) {
        table.put_extra(*word, kind, *index, start);
    }
    table
}

/// Case 5 of RULES.md: Target 0 alone, CHAP name `depot7`, and its last byte as reverse name.
pub fn case_5() -> Table {
    let mut table = with_texts(&[2], &[(3, b"depot7")]);
    table.set_flags(2, VALID as u8);
    table.point(5, 131, 1);
    table.mended()
}

/// The slots of the five structures that have a named word.
pub const ALL_SLOTS: [usize; 5] = [0, 1, 2, 3, 4];

/// All five structures, and each of the thirteen strings with bytes of its own.
pub fn full_table() -> Table {
    let texts: [(usize, &[u8]); 13] = [
        (0, b"iqn.i"),
        (1, b"ab.c-d"),
        (2, b"iqn.t0"),
        (3, b"name0"),
        (4, b"secret0"),
        (5, b"back0"),
        (6, b"hush0"),
        (7, b"e."),
        (8, b"iqn.t1"),
        (9, b"name1"),
        (10, b"secret1"),
        (11, b"back1"),
        (12, b"hush1"),
    ];
    let mut table = with_texts(&ALL_SLOTS, &texts);
    for (slot, flags) in [(0, 3), (1, 7), (2, 1), (3, 1), (4, 3)] {
        table.set_flags(slot, flags);
    }
    table.set_control_flags(SINGLE_LOGIN as u8);
    table.mended()
}

/// A common table, of 427 bytes: initiator, NIC 0 and Target 0, with four strings.
pub fn common_table() -> Table {
    let texts: [(usize, &[u8]); 4] = [
        (0, b"iqn.2026-11.example.depot:cabinet-0417"),
        (1, b"cabinet-0417.depot.example"),
        (2, b"iqn.2026-11.example.depot:volume-0417"),
        (3, b"cabinet-0417"),
    ];
    let mut table = with_texts(&[0, 1, 2], &texts);
    for slot in [0, 1, 2] {
        table.set_flags(slot, (VALID | SELECTED) as u8);
    }
    table.mended()
}

/// A table of the common one's kind with so many targets, two to eight, and as many NICs: an initiator,
/// and of each NIC a host name and of each target its name and CHAP name.
pub fn table_with_targets(targets: usize) -> Table {
    let mut table = structures_and_extras(&ALL_SLOTS, targets - 2, targets - 2);
    for (number, entry) in table.entries().iter().enumerate() {
        let own = format!("{:02}.depot.example", number);
        let text = match (entry.is_host_name, entry.at) {
            (true, _) => format!("cabinet-{}", own),
            (false, 34 | 70) => format!("iqn.2026-11.example.depot:volume-{}", own),
            (false, 38) => format!("login-{}", own),
            _ => continue,
        };
        table.append_text(number, text.as_bytes());
    }
    for word in table.used_words() {
        table.set_flags(word, VALID as u8);
    }
    table.mended()
}

/// All five structures and twelve extras, and each of the 49 strings with bytes of its own.
pub fn full_table_with_extras() -> Table {
    let mut table = structures_and_extras(&ALL_SLOTS, 6, 6);
    for number in 0..table.entries().len() {
        table.append_text(number, format!("s{}", number).as_bytes());
    }
    for word in table.used_words() {
        table.set_flags(word, VALID as u8);
    }
    table.set_control_flags(SINGLE_LOGIN as u8);
    table.mended()
}

/// The largest table without extras that a build can make, of 3,702 bytes: every string is as long as it
/// may be and shares nothing, and each host name has 127 dots.
pub fn largest_table() -> Table {
    filled(structures(&ALL_SLOTS))
}

/// The largest that a build can make, of 13,710 bytes: twelve extras, every string as long as it may be.
pub fn largest_table_with_extras() -> Table {
    filled(structures_and_extras(&ALL_SLOTS, 6, 6))
}

/// The table with every string as long as it may be, each of a letter of its own.
fn filled(mut table: Table) -> Table {
    for (i, entry) in table.entries().iter().enumerate() {
        let letter = if i < 26 {
            b'a' + i as u8
        } else {
            b'A' + (i - 26) as u8
        };
        let text = if entry.is_host_name {
            dots_between(128, letter)
        } else {
            vec![letter; entry.longest as usize]
        };
        table.append_text(i, &text);
    }
    table.mended()
}

/// A host name of labels of one letter.
pub fn dots_between(labels: usize, letter: u8) -> Vec<u8> {
    vec![[letter]; labels].join(&b'.')
}
