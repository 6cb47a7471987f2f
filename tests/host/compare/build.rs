//! `ibft_build` held to the reading of RULES.md in model/build.rs: the answer, every byte of the
//! room and round it; then each table is checked, read back and compared with the record.

use crate::call::library::{self, NumberedReading};
use crate::known::builds::known_records_agree;
use crate::lent::build::LentBuild;
use crate::model::answer::{in_words, number, packed_table};
use crate::model::build::build;
use crate::model::check::Refusal;
use crate::model::layout::*;
use crate::model::record::*;
use crate::model::record_range::EXTRAS;
use crate::shapes::record::{all_agree, BuildInput};
use crate::tally::answers::Tally;
use crate::tally::build_refusals::BuildRefusals;
use crate::tally::build_sights::BuildSights;

const LEAST_INPUTS: usize = 200_000;

/// So many of them with ranges that tell of extras.
const LEAST_WITH_EXTRAS: usize = 200_000;

/// A reading's bytes.
const OUT_SIZE: usize = 128;

fn in_hex(bytes: &[u8]) -> String {
    let shown = &bytes[..bytes.len().min(14_000)];
    shown.iter().map(|byte| format!("{:02x}", byte)).collect()
}

/// Prints how to make an input again, and what differs.
fn report(input: &BuildInput, what: &str) {
    println!(
        "build: DIFFERENCE in shape '{}', seed {:#x}: {}",
        input.shape, input.seed, what
    );
    println!("  record  {}", in_hex(input.lent.record()));
    println!("  strings {}", in_hex(input.lent.strings()));
    println!("  room of {} bytes", input.lent.room_size());
}

struct Counts {
    tally: Tally,
    refusals: BuildRefusals,
    sights: BuildSights,
    read_back: usize,
    with_extras: usize,
}

// ---- Reading back ----

/// What the library reads from a table, as a record; none where it refuses the table.
pub fn record_read_by_library(table: &[u8]) -> Option<Record> {
    let (at, size) = (table.as_ptr(), table.len());
    let mut out = [0; OUT_SIZE];
    let header = unsafe { library::test_header(at, size, out.as_mut_ptr(), OUT_SIZE) };
    if header != 0 {
        return None;
    }
    let extras = extras_read(table);
    let named = SLOTS.iter().map(|slot| slot.kind);
    let kinds: Vec<Kind> = named.chain(extras.iter().map(|extra| extra.kind)).collect();
    let entries = entries_of(&kinds).len();
    for past in entries..ENTRY_NUMBERS as usize {
        assert_eq!(entry_read(table, past), None, "entry {} is there", past);
    }
    Some(Record {
        oem_id: out[..6].to_vec(),
        oem_table_id: out[6..14].to_vec(),
        control_flags: u64::from(out[14]),
        extras,
        structures: (0..kinds.len())
            .map(|s| fields_read(table, &kinds, s))
            .collect(),
        entries: (0..entries).map(|e| entry_read(table, e)).collect(),
    })
}

/// Kind and Index of the structures in the slots from 5 on, as many as there are without a gap. Those
/// behind are missing.
fn extras_read(table: &[u8]) -> Vec<Extra> {
    let (at, size) = (table.as_ptr(), table.len());
    let mut extras = Vec::new();
    let mut ended = false;
    for slot in SLOTS.len() as u8..SLOT_NUMBERS as u8 {
        let answer = unsafe { library::test_structure(at, size, slot) };
        let index = unsafe { library::test_structure_index(at, size, slot) };
        match number(answer) {
            22 => ended = true,
            0 if !ended => extras.push(Extra {
                kind: extra_kind(answer >> 32 & 0xFF).expect("an extra is a NIC or a target"),
                index: u64::from(index),
            }),
            _ => panic!("slot {} of a table that was accepted: {:#x}", slot, answer),
        }
    }
    extras
}

/// Flags and fields of a slot's structure; none where the library says that it is absent.
fn fields_read(table: &[u8], kinds: &[Kind], slot: usize) -> Option<Vec<u8>> {
    unsafe extern "C" fn initiator(t: *const u8, size: usize, _: u8, o: *mut u8, n: usize) -> u64 {
        library::test_initiator(t, size, o, n)
    }
    let read: NumberedReading = match kinds[slot] {
        INITIATOR => initiator,
        NIC => library::test_nic,
        _ => library::test_target,
    };
    let n = kinds[..slot]
        .iter()
        .filter(|kind| **kind == kinds[slot])
        .count() as u8;
    let mut out = [0; OUT_SIZE];
    let answer = unsafe { read(table.as_ptr(), table.len(), n, out.as_mut_ptr(), OUT_SIZE) };
    match answer {
        0 => Some(out[..fields(&kinds[slot]).len()].to_vec()),
        22 => None,
        _ => panic!("slot {} of a table that was accepted: {:#x}", slot, answer),
    }
}

/// An entry's bytes where its view says they stand; none where the library says it is missing.
fn entry_read(table: &[u8], entry: usize) -> Option<Vec<u8>> {
    let (at, size) = (table.as_ptr(), table.len());
    let answer = unsafe { library::test_entry(at, size, entry as u8) };
    let view = unsafe { library::test_entry_place(at, size, entry as u8) } as usize;
    let (offset, length) = (view & 0xFFFF, view >> 16);
    match answer {
        0 => Some(table[offset..offset + length].to_vec()),
        22 => None,
        _ => panic!(
            "entry {} of a table that was accepted: {:#x}",
            entry, answer
        ),
    }
}

/// An accepted table passes the check and reads as the record, alone and with more bytes lent.
fn reads_back(input: &mut BuildInput, record: &Record, length: usize, counts: &mut Counts) -> bool {
    let room = input.lent.room();
    let lent = input.seeded.between(length, room.len());
    for table in [&room[..length], &room[..lent], room] {
        let answer = unsafe { library::ibft_check(table.as_ptr(), table.len()) };
        if answer != 0 {
            let lent = table.len();
            let what = format!("check of {} bytes: {}", lent, in_words(answer));
            report(input, &what);
            return false;
        }
    }
    counts.read_back += 1;
    let by_library = record_read_by_library(&room[..lent]);
    let by_document = record_read(&room[..lent]);
    for (read, who) in [(by_library, "library"), (by_document, "document")] {
        if read.as_ref() != Some(record) {
            println!("  given {:?}", record);
            println!("  read  {:?}", read);
            report(input, &format!("the {} reads another record", who));
            return false;
        }
    }
    true
}

// ---- Comparing ----

/// Columns of the counts.
const ANSWERS: &[&str] = &["accepted", "no room", "refused"];
const ACCEPTED: usize = 0;
const NO_ROOM: usize = 1;
const REFUSED: usize = 2;

/// One input: true if the library's answer is the reading's, the room holds the reading's table or
/// is as it was, no other byte has changed, and the table reads as the record.
fn compare_one(input: &mut BuildInput, counts: &mut Counts) -> bool {
    let lent: &mut LentBuild = &mut input.lent;
    let room_size = lent.room_size();
    counts.with_extras += usize::from(lent.record().len() >= EXTRAS);
    let expected = build(lent.record(), lent.strings(), room_size);
    let answer = lent.built_by(library::ibft_build);
    if answer != packed_table(&expected) {
        let document = in_words(packed_table(&expected));
        let what = format!("\n  library  {}\n  document {}", in_words(answer), document);
        report(input, &what);
        return false;
    }
    let table = expected.as_ref().map_or(&[][..], |table| table);
    if !lent.holds_only(table) {
        let at = lent.first_wrong_byte(table);
        let what = format!("{}, byte {:?} of the room", in_words(answer), at);
        report(input, &what);
        return false;
    }
    match expected {
        Ok(table) => {
            counts.tally.count(input.shape, ACCEPTED);
            let record = record_given(input.lent.record(), input.lent.strings());
            counts.sights.see_built(&record, table.len(), room_size);
            reads_back(input, &record, table.len(), counts)
        }
        Err(refusal) => {
            count_refusal(input, &refusal, counts);
            true
        }
    }
}

fn count_refusal(input: &BuildInput, refusal: &Refusal, counts: &mut Counts) {
    let wants_room = refusal.number == 21;
    counts.refusals.count(input.lent.record(), refusal);
    let column = if wants_room { NO_ROOM } else { REFUSED };
    counts.tally.count(input.shape, column);
    let one_more = input.lent.room_size() + 1;
    let fits_then = build(input.lent.record(), input.lent.strings(), one_more).is_ok();
    counts.sights.see("one byte too few", fits_then);
}

pub fn compare() -> bool {
    let mut counts = Counts {
        tally: Tally::new("build", ANSWERS),
        refusals: BuildRefusals::default(),
        sights: BuildSights::default(),
        read_back: 0,
        with_extras: 0,
    };
    let agree =
        known_records_agree() && all_agree(|mut input| compare_one(&mut input, &mut counts));
    if !agree {
        return false;
    }
    counts.tally.print();
    counts.refusals.print();
    println!("  tables checked and read back: {}", counts.read_back);
    println!("  ranges that tell of extras: {}", counts.with_extras);
    counts.with_extras >= LEAST_WITH_EXTRAS
        && counts.sights.are_enough()
        && counts.refusals.are_all_met()
        && counts.tally.is_enough(LEAST_INPUTS)
}
