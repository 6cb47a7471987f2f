//! Records as the tests of the comparison write them: structures by kind and Index, which can be changed one thing at a
//! time, and laid as a table in any way that the check lets pass.

use crate::make::good_records::ascending;
use crate::make::good_tables::{any_bytes, any_text, good_table, good_table_with_extras, oem_text, shuffle};
use crate::make::seeded::Seeded;
use crate::make::table::{Table, FIRST_EXTRA};
use crate::model::layout::*;
use crate::model::record::{fields, record_read};
use std::collections::BTreeMap;

/// A structure's ID and Index.
pub type Name = (u64, u64);

#[derive(Clone, Debug, PartialEq)]
pub struct Draft {
    pub oem_id: Vec<u8>,
    pub oem_table_id: Vec<u8>,
    pub control_flags: u8,
    pub structures: BTreeMap<Name, Body>,
}

/// The bytes from the flags up to the first string, and the strings, none where one is missing.
#[derive(Clone, Debug, PartialEq)]
pub struct Body {
    pub fields: Vec<u8>,
    pub texts: Vec<Option<Vec<u8>>>,
}

pub fn kind_of(name: &Name) -> Kind {
    let mut kinds = [INITIATOR, NIC, TARGET].into_iter();
    kinds.find(|kind| kind.id == name.0).unwrap()
}

pub fn is_extra(name: &Name) -> bool {
    name.1 >= FIRST_EXTRA_INDEX
}

/// The five that are named.
pub fn named() -> impl Iterator<Item = Name> {
    SLOTS.iter().map(|slot| (slot.kind.id, slot.index))
}

// ---- Drafts ----

impl Draft {
    /// What a table holds that the check accepts.
    pub fn of(table: &[u8]) -> Draft {
        let record = record_read(table).expect("a table that is not refused");
        let kinds = record.kinds();
        let entries = entries_of(&kinds);
        let texts_of = |slot: usize| {
            let all = entries.iter().zip(&record.entries);
            let own = all.filter(|(entry, _)| entry.slot == slot);
            own.map(|(_, text)| text.clone()).collect()
        };
        let mut structures = BTreeMap::new();
        for (slot, fields) in record.structures.iter().enumerate() {
            if let Some(fields) = fields.clone() {
                let texts = texts_of(slot);
                structures.insert((kinds[slot].id, record.index(slot)), Body { fields, texts });
            }
        }
        Draft {
            oem_id: record.oem_id,
            oem_table_id: record.oem_table_id,
            control_flags: record.control_flags as u8,
            structures,
        }
    }

    pub fn names(&self) -> Vec<Name> {
        self.structures.keys().copied().collect()
    }

    /// The Indexes of the extras of a kind.
    pub fn extras(&self, id: u64) -> Vec<u64> {
        let names = self
            .structures
            .keys()
            .filter(|name| name.0 == id && is_extra(name));
        names.map(|name| name.1).collect()
    }

    pub fn body(&mut self, name: &Name) -> &mut Body {
        self.structures.get_mut(name).unwrap()
    }

    /// Without these structures.
    pub fn without(&self, names: &[Name]) -> Draft {
        let mut draft = self.clone();
        draft.structures.retain(|name, _| !names.contains(name));
        draft
    }
}

/// Any that a good table holds, every other one of those with extras.
pub fn any_draft(seeded: &mut Seeded) -> Draft {
    let make = seeded.one_of(&[good_table as fn(&mut Seeded) -> Table, good_table_with_extras]);
    Draft::of(make(seeded).lent_bytes())
}

/// Any with at least one structure.
pub fn draft_with_structures(seeded: &mut Seeded) -> Draft {
    loop {
        let draft = any_draft(seeded);
        if !draft.structures.is_empty() {
            return draft;
        }
    }
}

/// All seventeen structures, any Indexes; each string is there and has at most so many bytes.
pub fn full_draft(seeded: &mut Seeded, longest: usize) -> Draft {
    let (nics, targets) = (ascending(seeded, 6), ascending(seeded, 6));
    let extras = |kind: Kind, all: Vec<u8>| all.into_iter().map(move |index| (kind.id, u64::from(index)));
    let names = named().chain(extras(NIC, nics)).chain(extras(TARGET, targets));
    draft_of(seeded, &names.collect::<Vec<Name>>(), longest)
}

/// These structures, with any flags and fields, each string there.
pub fn draft_of(seeded: &mut Seeded, names: &[Name], longest: usize) -> Draft {
    let mut structures = BTreeMap::new();
    for name in names {
        structures.insert(*name, any_body(seeded, &kind_of(name), longest));
    }
    Draft {
        oem_id: oem_text(seeded, OEM_ID.len()),
        oem_table_id: oem_text(seeded, OEM_TABLE_ID.len()),
        control_flags: seeded.between(0, 1) as u8,
        structures,
    }
}

/// Any flags, fields and strings that the check lets pass.
pub fn any_body(seeded: &mut Seeded, kind: &Kind, longest: usize) -> Body {
    let range = fields(kind);
    let mut bytes = any_bytes(seeded, range.len());
    bytes[0] = seeded.byte() & kind.named_flags as u8;
    if *kind == TARGET {
        bytes[CHAP_TYPE_AT as usize - range.start] = seeded.between(0, 2) as u8;
    }
    let own = entries_of(&[*kind]);
    let texts = own.iter().map(|entry| Some(any_text(seeded, entry, longest)));
    Body {
        fields: bytes,
        texts: texts.collect(),
    }
}

// ---- As a table ----

/// A table that holds the draft: structures in any order with gaps between, extra words in any order and some unused,
/// strings in any order with bytes of their own or shared, a Length that may be longer, and bytes lent behind it.
pub fn laid(seeded: &mut Seeded, draft: &Draft) -> Table {
    let mut table = laid_alone(seeded, draft);
    if seeded.once_in(3) {
        let size = seeded.one_of(&[1, 8, 100]);
        let more = seeded.bytes(size);
        table.lend_more(&more);
    }
    table
}

/// The same with no bytes lent behind it.
pub fn laid_alone(seeded: &mut Seeded, draft: &Draft) -> Table {
    let (extra_words, names) = words_for(seeded, draft);
    let control_end = CONTROL_END as usize + 2 * extra_words;
    let placed = spread(seeded, &names, control_end);
    let end = placed.iter().map(Placed::end).fold(control_end, usize::max);
    let mut table = Table::with_words(end, extra_words);
    fill_unused(seeded, &mut table, control_end);
    table.write(OEM_ID.start, &draft.oem_id);
    table.write(OEM_TABLE_ID.start, &draft.oem_table_id);
    table.set_control_flags(draft.control_flags);
    for structure in &placed {
        put(&mut table, structure, &draft.structures[&structure.name]);
    }
    add_texts(seeded, &mut table, &placed, draft);
    table.mended()
}

/// A structure to be laid: the number of its Control word, its name, its start.
struct Placed {
    word: usize,
    name: Name,
    start: usize,
}

impl Placed {
    fn end(&self) -> usize {
        self.start + kind_of(&self.name).length as usize
    }
}

/// How many extra words Control has, and in any order the words that lead to structures.
fn words_for(seeded: &mut Seeded, draft: &Draft) -> (usize, Vec<(usize, Name)>) {
    let extras: Vec<Name> = draft.names().into_iter().filter(is_extra).collect();
    let spare = EXTRA_WORDS as usize - extras.len();
    let some = seeded.between(0, spare);
    let extra_words = extras.len() + seeded.one_of(&[0, 0, some, some, spare]);
    let mut numbers: Vec<usize> = (FIRST_EXTRA..FIRST_EXTRA + extra_words).collect();
    shuffle(seeded, &mut numbers);
    let mut used: Vec<(usize, Name)> = named().enumerate().collect();
    used.retain(|(_, name)| draft.structures.contains_key(name));
    used.extend(numbers.into_iter().zip(extras));
    shuffle(seeded, &mut used);
    (extra_words, used)
}

/// Structures one behind the other in this order, some with a gap before.
fn spread(seeded: &mut Seeded, names: &[(usize, Name)], control_end: usize) -> Vec<Placed> {
    let apart = seeded.one_of(&[0, 0, 1, 4]);
    let mut placed: Vec<Placed> = Vec::new();
    for (word, name) in names.iter().copied() {
        let end = placed.last().map_or(control_end, Placed::end);
        let start = (end + 7) / 8 * 8 + 8 * seeded.between(0, apart);
        placed.push(Placed { word, name, start });
    }
    placed
}

/// Any bytes in the header's reserved ones and behind Control.
fn fill_unused(seeded: &mut Seeded, table: &mut Table, from: usize) {
    let reserved = any_bytes(seeded, HEADER_LENGTH as usize - OEM_TABLE_ID.end);
    table.write(OEM_TABLE_ID.end, &reserved);
    let rest = any_bytes(seeded, table.length() - from);
    table.write(from, &rest);
}

/// A structure with its fields and no strings.
fn put(table: &mut Table, placed: &Placed, body: &Body) {
    let kind = kind_of(&placed.name);
    table.put_extra(placed.word, &kind, placed.name.1 as u8, placed.start);
    table.write(placed.start + FLAGS_AT as usize, &body.fields);
    for text in kind.texts {
        table.write(placed.start + text.at as usize, &[0; 4]);
    }
}

fn add_texts(seeded: &mut Seeded, table: &mut Table, placed: &[Placed], draft: &Draft) {
    let heap = table.length();
    let mut texts: Vec<(usize, &Vec<u8>)> = Vec::new();
    for Placed { name, start, .. } in placed {
        for (field, text) in kind_of(name).texts.iter().zip(&draft.structures[name].texts) {
            let at = start + field.at as usize;
            texts.extend(text.iter().map(|text| (at, text)));
        }
    }
    shuffle(seeded, &mut texts);
    let share_odds = seeded.one_of(&[1, 2, 1_000_000]);
    let gap_odds = seeded.one_of(&[3, 1_000_000]);
    for (at, text) in texts {
        let shares = seeded.once_in(share_odds);
        if seeded.once_in(gap_odds) {
            let gap = any_bytes(seeded, 5);
            table.append_bytes(&gap);
        }
        let offset = text_offset(table, heap, text, shares);
        table.write_word(at, text.len());
        table.write_word(at + 2, offset);
    }
    if seeded.once_in(4) {
        let more = any_bytes(seeded, 20);
        table.append_bytes(&more);
    }
}

/// Where the string stands in the heap with a zero byte behind it, or is laid at the end.
fn text_offset(table: &mut Table, heap: usize, text: &[u8], shares: bool) -> usize {
    let closed = [text, &[0]].concat();
    let mut stretches = table.bytes[heap..].windows(closed.len());
    let found = stretches.position(|stretch| shares && stretch == closed);
    match found {
        Some(at) => heap + at,
        None => {
            let end = table.length();
            table.append_bytes(&closed);
            end
        }
    }
}
