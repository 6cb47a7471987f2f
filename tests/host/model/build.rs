//! RULES.md, Building and the build's Refusals, read a second time: each refusal once, in the
//! order of the build, then the table.

use crate::model::check::{is_zero_after_first_zero, refuse_if, Refusal, Verdict};
use crate::model::host_name::is_host_name;
use crate::model::layout::*;
use crate::model::record::{fields, record_given, Record};
use crate::model::record_range::*;

/// The place of Control's flags in a build.
pub const CONTROL_PLACE: u64 = 255;

/// Slots in the order in which their structures stand: the initiator, all NICs by Index, all targets by
/// Index. By kind the slots have them in the order of the Index.
pub fn built_order(kinds: &[Kind]) -> Vec<usize> {
    let mut order = Vec::new();
    for kind in [INITIATOR, NIC, TARGET] {
        order.extend((0..kinds.len()).filter(|slot| kinds[*slot] == kind));
    }
    order
}

/// The table that is built into a room of the given size.
pub fn build(record: &[u8], strings: &[u8], room_size: usize) -> Result<Vec<u8>, Refusal> {
    let table = least_table(record, strings)?;
    refuse_if(table.len() > room_size, 21, 0)?;
    Ok(table)
}

/// The table of a record whose contents are not refused, whatever the room.
pub fn least_table(record: &[u8], strings: &[u8]) -> Result<Vec<u8>, Refusal> {
    check_range(record)?;
    check_oem_fields(record)?;
    let slots = slots_given(record);
    for slot in SLOTS.len()..slots.len() {
        check_extra(record, &slots, slot)?;
    }
    check_control_flags(record)?;
    for (number, slot) in slots.iter().enumerate() {
        check_image(record, slot, number as u64)?;
    }
    for (number, entry) in entries_given(record).iter().enumerate() {
        check_entry(record, strings, entry, number as u64)?;
    }
    Ok(table_of(&record_given(record, strings)))
}

// ---- Refusals ----

/// 25. The marks of every extra count, one too many included.
fn check_range(record: &[u8]) -> Verdict {
    refuse_if(!has_right_size(record), 25, 0)?;
    let has_bad_mark = record[SLOT_MARKS].iter().any(|mark| *mark > 1);
    refuse_if(has_bad_mark, 25, 0)?;
    let entries = entries_given(record);
    refuse_if(entries.iter().any(|entry| record[entry.mark] > 1), 25, 0)
}

/// 8, at the field's place in a table.
fn check_oem_fields(record: &[u8]) -> Verdict {
    for (given, built) in [(GIVEN_OEM_ID, OEM_ID), (GIVEN_OEM_TABLE_ID, OEM_TABLE_ID)] {
        let place = built.start as u64;
        refuse_if(!is_zero_after_first_zero(&record[given]), 8, place)?;
    }
    Ok(())
}

/// 34, 13 and 33 of an extra structure, at its slot: the seventh of its kind, an Index below 2, one that
/// is not above that of the extra of its kind before.
fn check_extra(record: &[u8], slots: &[GivenSlot], slot: usize) -> Verdict {
    let place = slot as u64;
    let kind = slots[slot].kind;
    let before: Vec<usize> = (SLOTS.len()..slot)
        .filter(|earlier| slots[*earlier].kind == kind)
        .collect();
    refuse_if(before.len() >= EXTRAS_OF_A_KIND, 34, place)?;
    let index = index_given(record, slots, slot);
    refuse_if(index < FIRST_EXTRA_INDEX, 13, place)?;
    match before.last() {
        Some(last) => refuse_if(index <= index_given(record, slots, *last), 33, place),
        None => Ok(()),
    }
}

/// Control's 10.
fn check_control_flags(record: &[u8]) -> Verdict {
    let flags = u64::from(record[GIVEN_CONTROL_FLAGS]);
    refuse_if(flags & !CONTROL.named_flags != 0, 10, CONTROL_PLACE)
}

/// 10 and 19 of a structure that is present.
fn check_image(record: &[u8], slot: &GivenSlot, place: u64) -> Verdict {
    if !slot.is_present {
        return Ok(());
    }
    let flags = byte(record, slot.image + FLAGS_AT);
    refuse_if(flags & !slot.kind.named_flags != 0, 10, place)?;
    if slot.kind == TARGET {
        let chap_type = byte(record, slot.image + CHAP_TYPE_AT);
        refuse_if(chap_type > LAST_CHAP_TYPE, 19, place)?;
    }
    Ok(())
}

/// 24, 17, 20, 18 of an entry that is present.
fn check_entry(record: &[u8], strings: &[u8], entry: &GivenEntry, place: u64) -> Verdict {
    if !entry.is_present {
        return Ok(());
    }
    let (length, start) = given_words(record, entry);
    refuse_if(start + length > strings.len() as u64, 24, place)?;
    refuse_if(length > entry.text.longest, 17, place)?;
    let text = &strings[start as usize..(start + length) as usize];
    refuse_if(text.contains(&0), 20, place)?;
    refuse_if(entry.text.is_host_name && !is_host_name(text), 18, place)
}

// ---- The table ----

pub fn table_of(record: &Record) -> Vec<u8> {
    table_with(record, &Heap::of(record))
}

/// The table that a build would make if no string were a secret. The check accepts it too.
pub fn table_with_no_secret(record: &Record) -> Vec<u8> {
    table_with(record, &Heap::with_no_secret(record))
}

fn table_with(record: &Record, heap: &Heap) -> Vec<u8> {
    let kinds = record.kinds();
    let starts = starts(record);
    let heap_start = heap_start_of(record, &starts);
    let mut table = vec![0; heap_start as usize];
    write_header(&mut table, record);
    write_control(&mut table, record, &starts);
    for (slot, start) in starts.iter().enumerate() {
        if let Some(start) = start {
            write_structure(&mut table, record, slot, *start);
        }
    }
    for (number, entry) in entries_of(&kinds).iter().enumerate() {
        if let Some(text) = &record.entries[number] {
            let at = starts[entry.slot].unwrap() + entry.at;
            let offset = heap_start + heap.offset(number, text);
            write_number(&mut table, at, 2, text.len() as u64);
            write_number(&mut table, at + 2, 2, offset);
        }
    }
    table.extend(heap.bytes());
    let length = table.len() as u64;
    write_number(&mut table, LENGTH, 4, length);
    let sum: u64 = table.iter().map(|byte| u64::from(*byte)).sum();
    write_number(&mut table, CHECKSUM, 1, (256 - sum % 256) % 256);
    table
}

/// Control takes 18 bytes and two more for each extra structure.
fn built_control_length(record: &Record) -> u64 {
    CONTROL.length + 2 * record.extras.len() as u64
}

/// By slot: the first structure at the first multiple of 8 at or behind Control's end, each next at the
/// next.
fn starts(record: &Record) -> Vec<Option<u64>> {
    let kinds = record.kinds();
    let mut starts = vec![None; kinds.len()];
    let mut next = CONTROL_START + built_control_length(record);
    for slot in built_order(&kinds) {
        if record.structures[slot].is_some() {
            while next % ALIGNMENT != 0 {
                next += 1;
            }
            starts[slot] = Some(next);
            next += kinds[slot].length;
        }
    }
    starts
}

/// Where the last structure ends, Control counted.
fn heap_start_of(record: &Record, starts: &[Option<u64>]) -> u64 {
    let kinds = record.kinds();
    let end = |slot: usize| starts[slot].map_or(0, |start| start + kinds[slot].length);
    let control_end = CONTROL_START + built_control_length(record);
    (0..kinds.len()).map(end).fold(control_end, u64::max)
}

fn write_number(table: &mut [u8], at: u64, width: usize, number: u64) {
    let at = at as usize;
    table[at..at + width].copy_from_slice(&number.to_le_bytes()[..width]);
}

fn write_header(table: &mut [u8], record: &Record) {
    table[..SIGNATURE.len()].copy_from_slice(SIGNATURE);
    write_number(table, REVISION, 1, 1);
    table[OEM_ID].copy_from_slice(&record.oem_id);
    table[OEM_TABLE_ID].copy_from_slice(&record.oem_table_id);
}

/// Its words: of the named slots, present or not, then of the extras, in the order of the slots.
fn write_control(table: &mut [u8], record: &Record, starts: &[Option<u64>]) {
    write_start_bytes(table, CONTROL_START, &CONTROL, 0);
    let length = built_control_length(record);
    write_number(table, CONTROL_START + LENGTH_AT, 2, length);
    write_number(table, CONTROL_START + FLAGS_AT, 1, record.control_flags);
    for (slot, start) in starts.iter().enumerate() {
        let word = SLOTS[0].word + 2 * slot as u64;
        write_number(table, word, 2, start.unwrap_or(0));
    }
}

/// ID, Version, Length and Index.
fn write_start_bytes(table: &mut [u8], start: u64, kind: &Kind, index: u64) {
    write_number(table, start, 1, kind.id);
    write_number(table, start + VERSION_AT, 1, VERSION);
    write_number(table, start + LENGTH_AT, 2, kind.length);
    write_number(table, start + INDEX_AT, 1, index);
}

fn write_structure(table: &mut [u8], record: &Record, slot: usize, start: u64) {
    let kind = record.kinds()[slot];
    write_start_bytes(table, start, &kind, record.index(slot));
    if let Some(given) = &record.structures[slot] {
        table[start as usize..][fields(&kind)].copy_from_slice(given);
    }
}

// ---- The heap ----

/// A present secret is stored. Any other present entry is, unless it is the tail of a longer one or equals
/// one with a lower number. Secrets are not among those that it is held against: nobody shares their bytes.
fn is_stored(entries: &[Option<Vec<u8>>], secrets: &[bool], entry: usize) -> bool {
    let text = match &entries[entry] {
        Some(text) => text,
        None => return false,
    };
    let stands_for_it = |(number, other): (usize, &Option<Vec<u8>>)| match other {
        Some(other) if !secrets[number] => {
            let is_tail_of_longer = other.len() > text.len() && other.ends_with(text);
            let equals_lower = number < entry && other == text;
            is_tail_of_longer || equals_lower
        }
        _ => false,
    };
    secrets[entry] || !entries.iter().enumerate().any(stands_for_it)
}

/// Where the strings stand: who stores bytes, by number, and what all of that comes to.
pub struct Heap {
    pub stored: Vec<Stored>,
}

/// An entry that is stored.
pub struct Stored {
    pub entry: usize,
    pub text: Vec<u8>,
    pub is_secret: bool,
}

impl Heap {
    pub fn of(record: &Record) -> Heap {
        Heap::with_secrets(record, &record.secrets())
    }

    /// The heap if no string were a secret: what secrets would share, if they could.
    pub fn with_no_secret(record: &Record) -> Heap {
        Heap::with_secrets(record, &vec![false; record.entries.len()])
    }

    fn with_secrets(record: &Record, secrets: &[bool]) -> Heap {
        let entries = &record.entries;
        let numbers = (0..entries.len()).filter(|entry| is_stored(entries, secrets, *entry));
        let stored = numbers.map(|entry| Stored {
            entry,
            text: entries[entry].clone().unwrap(),
            is_secret: secrets[entry],
        });
        Heap {
            stored: stored.collect(),
        }
    }

    /// Stored entries by number, each with one zero.
    fn bytes(&self) -> Vec<u8> {
        let closed = self.stored.iter().map(|s| [&s.text, &[0][..]].concat());
        closed.flatten().collect()
    }

    /// The entry that stores the bytes of an entry with this text: itself where it is stored, else
    /// the lowest-numbered stored entry, no secret, that ends with it.
    pub fn owner(&self, entry: usize, text: &[u8]) -> usize {
        let itself = self.stored.iter().find(|stored| stored.entry == entry);
        let mut others = self.stored.iter().filter(|stored| !stored.is_secret);
        let ends_with_it = others.find(|stored| stored.text.ends_with(text));
        itself.or(ends_with_it).unwrap().entry
    }

    /// Where a present entry stands, counted from the heap's start.
    fn offset(&self, entry: usize, text: &[u8]) -> u64 {
        let owner = self.owner(entry, text);
        let mut end = 0;
        for stored in &self.stored {
            end += stored.text.len();
            if stored.entry == owner {
                break;
            }
            end += 1;
        }
        (end - text.len()) as u64
    }
}
