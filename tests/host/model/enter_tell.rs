//! What the bench programs write: `enter` for a text, `tell` for a table.

use crate::make::record::Given;
use crate::model::build::build;
use crate::model::check::{check, Refusal};
use crate::model::layout::{NIC, SLOTS, TARGET};
use crate::model::record::{fields, record_read, Record};
use crate::model::record_range::*;
use crate::model::text::{hidden_text_of, name_of_string, record_of, text_of, Unread, LONGEST_TEXT};

/// As much of its input as `tell` and `show` take for the table.
pub const INPUT_LIMIT: usize = 16_384;

/// As much room as a table can need.
const ROOM: usize = 13_710;

#[derive(Debug, PartialEq)]
pub enum Entered {
    /// On standard output.
    Table(Vec<u8>),
    /// A line on standard error: why the text is no record.
    Unread(String),
    /// On standard error: its numbers on the first line, on the second these words.
    Refused(Refusal, String),
}

pub fn enter(text: &[u8]) -> Entered {
    match record_of(text) {
        Ok(record) => built(&record),
        Err(unread) => Entered::Unread(message(&unread)),
    }
}

fn message(unread: &Unread) -> String {
    match unread {
        Unread::TooLong => format!("enter: the text has more than {} bytes", LONGEST_TEXT),
        Unread::Line { number, reason } => format!("enter: line {}: {}", number, reason),
    }
}

/// The table of a record, or its first refusal.
fn built(record: &Record) -> Entered {
    let given = given_from(record);
    match build(&given.record, given.strings(), ROOM) {
        Ok(table) => Entered::Table(table),
        Err(refusal) => refused(record, refusal),
    }
}

/// What is wrong with which field of the record.
pub fn refused(record: &Record, refusal: Refusal) -> Entered {
    let what = match refusal.number {
        8 => "a zero byte is followed by another byte",
        17 => "a name has at most 223 bytes, any other string 255",
        18 => "this is not a host name",
        20 => "the string has a zero byte",
        other => panic!("the record of a text is refused by {}", other),
    };
    let field = match (refusal.number, refusal.place) {
        (8, 10) => "oem.id".to_string(),
        (8, _) => "oem.table".to_string(),
        (_, entry) => name_of_string(record, entry as usize),
    };
    Entered::Refused(refusal, format!("{}: {}", field, what))
}

/// The record as C gives it to a build, in a range that tells how many extras there are.
pub fn given_from(record: &Record) -> Given {
    let count = |kind| record.extras.iter().filter(|e| e.kind == kind).count();
    let (nics, targets) = (count(NIC), count(TARGET));
    let filler = vec![0; range_size(nics, targets)];
    let mut given = Given::with_extras(&filler, nics, targets);
    given.record[GIVEN_OEM_ID].copy_from_slice(&record.oem_id);
    given.record[GIVEN_OEM_TABLE_ID].copy_from_slice(&record.oem_table_id);
    given.set_control_flags(record.control_flags as u8);
    let slots = given.slots();
    for (slot, structure) in record.structures.iter().enumerate() {
        if let Some(structure) = structure {
            match slot < SLOTS.len() {
                true => given.mark_slot(slot, 1),
                false => given.set_index(slot, record.index(slot) as u8),
            }
            let image = &mut given.record[slots[slot].image as usize..];
            image[fields(&slots[slot].kind)].copy_from_slice(structure);
        }
    }
    for (entry, text) in record.entries.iter().enumerate() {
        if let Some(text) = text {
            given.give(entry, text);
        }
    }
    given
}

pub fn tell(input: &[u8]) -> String {
    told(input, text_of)
}

/// What is told where secrets are to be hidden.
pub fn tell_hidden(input: &[u8]) -> String {
    told(input, hidden_text_of)
}

fn told(input: &[u8], text_of: fn(&Record) -> String) -> String {
    let table = &input[..input.len().min(INPUT_LIMIT)];
    match check(table) {
        Ok(()) => text_of(&record_read(table).unwrap()),
        Err(refusal) => format!("{}\n", refusal.line()),
    }
}
