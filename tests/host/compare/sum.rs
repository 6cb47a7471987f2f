//! The checksum byte that a refusal with 6 comes with, from every call that runs a check: the checks themselves,
//! the readings, the login order and the rebuild. Every bit of every sample is flipped; each byte is once the
//! right one, with each other byte in its place; tables with other faults have a right sum and then a wrong one.
//! Tables are lent alone and with bytes behind them that would ask for another byte. What is answered is held to
//! the models, and with 6 to plain addition. The programs that print the byte are in compare/sum_programs.rs.

use crate::call::library::{self, Check, NumberedReading, Reading};
use crate::damage::family::{ABFT_DAMAGES, SBFT_DAMAGES};
use crate::families::{cut, damaged};
use crate::known::samples::{Sample, ABFT_SAMPLE, SAMPLES, SBFT_SAMPLE};
use crate::known::sums::known_sums;
use crate::make::family::{far_sbft, good_abft, good_sbft};
use crate::make::seeded::Seeded;
use crate::make::table::Table;
use crate::model::abft as abft;
use crate::model::answer::{in_words, number, number_and_place, packed, packed_table, packed_verdict};
use crate::model::check::{self as ibft, Verdict};
use crate::model::checksum::checksum;
use crate::model::layout::{length, CHECKSUM, LENGTH, REVISION};
use crate::model::readings::accepted;
use crate::model::rebuild::rebuilt;
use crate::model::sbft::{self as sbft, PARTS};
use crate::model::scan::{Family, ABFT, IBFT, SBFT};
use crate::readings::read;
use crate::shapes::table::some_of_each;
use crate::tally::answers::Tally;
use std::collections::{BTreeMap, BTreeSet};

/// Where the checksum byte stands.
const AT: usize = CHECKSUM as usize;

/// Rows and columns of the counts.
const KNOWN: &str = "worked by hand";
const FLIPPED: &str = "a bit flipped";
const FLIPPED_MORE: &str = "a bit flipped, more lent";
const EACH_BYTE: &str = "each right and each other byte";
const LONG: &str = "over 16 MiB";
const FAULTY: &str = "other faults";
const FAULTY_AND_SUM: &str = "these and a wrong sum";
const ANSWERS: &[&str] = &["accepted", "6", "another"];
const ACCEPTED: usize = 0;
const WRONG_SUM: usize = 1;
const ANOTHER: usize = 2;

// ---- What is asked ----

/// A call, what it answers of a refusal and what it should: number, place and checksum byte as a check has them.
struct Call(&'static str, u64, u64);

const OUT_SIZE: usize = 128;

/// The room of a rebuild, and what stands in it before.
const ROOM_SIZE: usize = 4_096;
const ROOM_BYTE: u8 = 0xA5;

/// Numbers of NICs, targets, entries and structures that are there, are missing and can never be.
const NUMBERS: [u8; 4] = [0, 1, 7, 255];

fn read_by(reading: Reading, table: &[u8]) -> u64 {
    let mut out = [0; OUT_SIZE];
    unsafe { reading(table.as_ptr(), table.len(), out.as_mut_ptr(), OUT_SIZE) }
}

fn read_nth_by(reading: NumberedReading, table: &[u8], n: u8) -> u64 {
    let mut out = [0; OUT_SIZE];
    unsafe { reading(table.as_ptr(), table.len(), n, out.as_mut_ptr(), OUT_SIZE) }
}

/// An answer whose bits above 31 hold something else, with the byte that is asked for by itself.
fn with_checksum(answer: u64, checksum: u8) -> u64 {
    number_and_place(answer) | u64::from(checksum) << 32
}

fn structure_by_library(table: &[u8], slot: u8) -> u64 {
    let (at, size) = (table.as_ptr(), table.len());
    unsafe {
        let answer = library::test_structure(at, size, slot);
        with_checksum(answer, library::test_structure_checksum(at, size, slot))
    }
}

fn login_by_library(table: &[u8]) -> u64 {
    let (at, size) = (table.as_ptr(), table.len());
    unsafe {
        let answer = library::test_login_order(at, size);
        with_checksum(answer, library::test_login_checksum(at, size))
    }
}

/// The rebuild into a room that most tables fit in and into one of no bytes; a room where it is refused.
fn rebuild_calls(table: &[u8]) -> [Call; 3] {
    let mut room = [ROOM_BYTE; ROOM_SIZE];
    let mut rebuild =
        |size| unsafe { library::ibft_rebuild(table.as_ptr(), table.len(), room.as_mut_ptr(), size) };
    let (into_none, into_room) = (rebuild(0), rebuild(ROOM_SIZE));
    let by_document = rebuilt(table);
    let document = |size: usize| match &by_document {
        Ok(rebuilt) => packed_table(&rebuilt.into_room(size)),
        Err(refusal) => packed_table(&Err::<&[u8], _>(*refusal)),
    };
    let is_kept = room.iter().all(|byte| *byte == ROOM_BYTE);
    let is_refused = number(document(ROOM_SIZE)) != 0;
    [
        Call("rebuild", into_room, document(ROOM_SIZE)),
        Call("rebuild without room", into_none, document(0)),
        Call("room as it was", u64::from(is_kept), u64::from(is_refused)),
    ]
}

/// All calls of an iBFT beside the check.
fn ibft_calls(table: &[u8]) -> Vec<Call> {
    let document = accepted(table);
    let mut calls = Vec::from(rebuild_calls(table));
    calls.extend([
        Call(
            "header",
            read_by(library::test_header, table),
            packed_verdict(&document),
        ),
        Call("login order", login_by_library(table), packed_verdict(&document)),
        Call(
            "initiator",
            read_by(library::test_initiator, table),
            packed_verdict(&read(&document, |t| t.initiator())),
        ),
    ]);
    for n in NUMBERS {
        let number = u64::from(n);
        calls.extend([
            Call(
                "NIC",
                read_nth_by(library::test_nic, table, n),
                packed_verdict(&read(&document, |t| t.nic(number))),
            ),
            Call(
                "target",
                read_nth_by(library::test_target, table, n),
                packed_verdict(&read(&document, |t| t.target(number))),
            ),
            Call(
                "entry",
                unsafe { library::test_entry(table.as_ptr(), table.len(), n) },
                packed_verdict(&read(&document, |t| t.entry(number))),
            ),
            Call(
                "structure",
                structure_by_library(table, n),
                packed_verdict(&read(&document, |t| t.structure(number))),
            ),
        ]);
    }
    calls
}

fn abft_calls(table: &[u8]) -> Vec<Call> {
    let expected = packed_verdict(&abft::check(table));
    vec![Call("reading", read_by(library::test_abft, table), expected)]
}

/// The OEM fields and the three parts.
fn sbft_calls(table: &[u8]) -> Vec<Call> {
    let start = packed_verdict(&sbft::check(table));
    let parts = PARTS.map(|part| packed_verdict(&sbft::part_verdict(table, &part)));
    vec![
        Call("OEM fields", read_by(library::test_sbft_start, table), start),
        Call("SCSI part", read_by(library::test_sbft_scsi, table), parts[0]),
        Call("SRP part", read_by(library::test_sbft_srp, table), parts[1]),
        Call("IB part", read_by(library::test_sbft_ib, table), parts[2]),
    ]
}

// ---- Families ----

struct Subject {
    name: &'static str,
    family: Family,
    /// The check as compiled and as the document has it, and the other calls.
    check: Check,
    document: fn(&[u8]) -> Verdict,
    calls: fn(&[u8]) -> Vec<Call>,
    samples: &'static [Sample],
    /// A byte of the first sample that may be anything.
    free: usize,
    /// Tables with and without faults, as they are lent.
    tables: fn() -> Vec<Vec<u8>>,
    /// What these have to be answered with beside 6.
    numbers: &'static [u64],
}

const SUBJECTS: [Subject; 3] = [
    Subject {
        name: "checksum byte of an iBFT",
        family: IBFT,
        check: library::ibft_check,
        document: ibft::check,
        calls: ibft_calls,
        samples: &SAMPLES,
        free: 24,
        tables: ibft_tables,
        numbers: &[
            0, 3, 4, 5, 7, 8, 9, 10, 11, 12, 13, 14, 15, 16, 17, 18, 19, 33, 34,
        ],
    },
    Subject {
        name: "checksum byte of an aBFT",
        family: ABFT,
        check: library::abft_check,
        document: abft::check,
        calls: abft_calls,
        samples: &[ABFT_SAMPLE],
        free: abft::SLOT,
        tables: abft_tables,
        numbers: &[0, 3, 4, 5, 7, 8, 30],
    },
    Subject {
        name: "checksum byte of an sBFT",
        family: SBFT,
        check: library::sbft_check,
        document: sbft::check,
        calls: sbft_calls,
        samples: &[SBFT_SAMPLE],
        free: sbft::START,
        tables: sbft_tables,
        numbers: &[0, 3, 4, 5, 7, 8, 30, 31, 32],
    },
];

/// So many tables with other faults of each family.
const LEAST_FAULTY: usize = 5_000;

/// About so many of each shape of the check's tables.
const OF_EACH_SHAPE: usize = 60;

fn ibft_tables() -> Vec<Vec<u8>> {
    let inputs = some_of_each(OF_EACH_SHAPE).into_iter();
    inputs.map(|input| input.table.bytes().to_vec()).collect()
}

const FAMILY_TABLES: usize = 3_000;
const FIRST_SEED: u64 = 0x50 << 48;

/// Tables with up to two faults, and some of which too few bytes are lent.
fn made(make: impl Fn(&mut Seeded) -> Table) -> Vec<Vec<u8>> {
    let table = |n: usize| {
        let mut seeded = Seeded::new(FIRST_SEED + n as u64);
        let table = make(&mut seeded);
        let few = seeded.between(0, 60);
        let table = if n % 20 == 0 { cut(few, table) } else { table };
        table.lent_bytes().to_vec()
    };
    (0..FAMILY_TABLES).map(table).collect()
}

fn abft_tables() -> Vec<Vec<u8>> {
    made(|seeded| damaged(seeded, good_abft, ABFT_DAMAGES, 2))
}

fn sbft_tables() -> Vec<Vec<u8>> {
    made(|seeded| {
        let make = seeded.one_of(&[good_sbft, good_sbft, good_sbft, good_sbft, far_sbft]);
        damaged(seeded, make, SBFT_DAMAGES, 2)
    })
}

// ---- One table ----

/// What was met in a family.
struct Counts {
    tally: Tally,
    /// The bytes that were answered with 6.
    rights: BTreeSet<u8>,
    /// Answers with 6 of tables whose Length was flipped.
    other_length: usize,
    /// Answers with 6 where the sum of all that is lent would ask for another byte.
    more_lent: usize,
    /// By what was answered: tables whose checksum byte then was changed.
    faulty: BTreeMap<u64, usize>,
}

/// Plain addition: the Length bytes sum to 0 with this byte at 9, with no other byte there, and so not with the
/// one that stands there.
fn is_right(bytes: &[u8], right: u8) -> bool {
    let mut others: u64 = 0;
    for (at, byte) in bytes.iter().enumerate() {
        if at != AT {
            others += u64::from(*byte);
        }
    }
    let sums_to_zero = |byte: u8| (others + u64::from(byte)) % 256 == 0;
    (0..=255).all(|byte| sums_to_zero(byte) == (byte == right)) && !sums_to_zero(bytes[AT])
}

/// What the check answers with this byte at 9.
fn answer_with(subject: &Subject, table: &[u8], byte: u8) -> u64 {
    let mut table = table.to_vec();
    table[AT] = byte;
    unsafe { (subject.check)(table.as_ptr(), table.len()) }
}

fn difference(subject: &Subject, row: &str, table: &[u8], what: &str) -> String {
    let shown = &table[..table.len().min(1_000)];
    let in_hex: String = shown.iter().map(|byte| format!("{:02x}", byte)).collect();
    format!(
        "sum: DIFFERENCE in '{}', {}: {}\n  {} bytes lent: {}",
        row,
        subject.name,
        what,
        table.len(),
        in_hex
    )
}

/// Holds every call to the model, and what is answered with 6 to addition; the check's answer.
fn answer_of(subject: &Subject, row: &'static str, table: &[u8], counts: &mut Counts) -> Result<u64, String> {
    let differs = |what: &str| Err(difference(subject, row, table, what));
    let answer = unsafe { (subject.check)(table.as_ptr(), table.len()) };
    let check = Call("check", answer, packed_verdict(&(subject.document)(table)));
    for Call(call, given, expected) in [check].into_iter().chain((subject.calls)(table)) {
        if given != expected {
            return differs(&format!(
                "{}\n  library  {}\n  document {}",
                call,
                in_words(given),
                in_words(expected)
            ));
        }
    }
    if number(answer) != 6 {
        counts
            .tally
            .count(row, if answer == 0 { ACCEPTED } else { ANOTHER });
        return match answer >> 32 {
            0 => Ok(answer),
            _ => differs("a byte without 6"),
        };
    }
    let bytes = &table[..length(table) as usize];
    let right = (answer >> 32) as u8;
    if answer != packed(6, CHECKSUM, u64::from(right)) || !is_right(bytes, right) {
        return differs(&format!("{} does not make the sum 0", in_words(answer)));
    }
    let mended = answer_with(subject, table, right);
    if number(mended) == 6 || mended >> 32 != 0 {
        return differs(&format!("with {} at 9 {}", right, in_words(mended)));
    }
    counts.tally.count(row, WRONG_SUM);
    counts.rights.insert(right);
    counts.more_lent += usize::from(checksum(table, AT) != right);
    Ok(answer)
}

fn expect(
    subject: &Subject,
    row: &'static str,
    table: &[u8],
    expected: u64,
    counts: &mut Counts,
) -> Result<(), String> {
    let answer = answer_of(subject, row, table, counts)?;
    match answer == expected {
        true => Ok(()),
        false => Err(difference(
            subject,
            row,
            table,
            &format!("{} and not {}", in_words(answer), in_words(expected)),
        )),
    }
}

// ---- Flipped bits ----

/// Bytes behind a table. They do not sum to 0.
pub const BEHIND: [u8; 4] = [7, 0, 0x80, 1];

/// As many as a Length needs that has one more bit up to bit 16, none of them 0.
fn long_behind() -> Vec<u8> {
    (0..0x10000).map(|n: usize| 1 + (n % 251) as u8).collect()
}

/// What a flip of a bit of this byte has to be answered with. Every flip changes the sum; of a Length it changes
/// which bytes are summed.
fn is_flip_answered(at: usize, number: u64) -> bool {
    match at {
        0..=3 => number == 4,
        4..=7 => number == 5 || number == 6,
        _ => number == 6,
    }
}

fn flips_agree(subject: &Subject, sample: &Sample, counts: &mut Counts) -> Result<(), String> {
    let bytes = length(sample.table) as usize;
    assert_eq!(bytes, sample.table.len(), "{}", sample.name);
    let long = long_behind();
    for (at, bit) in (0..bytes).flat_map(|at| (0..8).map(move |bit| (at, bit))) {
        let is_of_length = (LENGTH as usize..REVISION as usize).contains(&at);
        let behind = if is_of_length { &long[..] } else { &BEHIND };
        let mut table = sample.table.to_vec();
        table[at] ^= 1 << bit;
        let more = [&table[..], behind].concat();
        for (row, lent) in [(FLIPPED, table), (FLIPPED_MORE, more)] {
            let number = number(answer_of(subject, row, &lent, counts)?);
            if !is_flip_answered(at, number) {
                let what = format!("bit {} of byte {} flipped is answered with {}", bit, at, number);
                return Err(difference(subject, row, &lent, &what));
            }
            counts.other_length += usize::from(number == 6 && is_of_length);
        }
    }
    Ok(())
}

// ---- Each right byte ----

/// Each byte is the right one, by a change of a byte that may be anything; with itself at 9 the table is accepted,
/// with each other byte refused with 6 and the right one, which may be 0.
fn each_byte_agrees(subject: &Subject, counts: &mut Counts) -> Result<(), String> {
    let mut table = subject.samples[0].table.to_vec();
    let bytes = table.len();
    for right in 0..=255 {
        table.truncate(bytes);
        table[AT] = right;
        table[subject.free] = checksum(&table, subject.free);
        if right % 2 == 1 {
            table.extend(BEHIND);
        }
        for there in 0..=255 {
            table[AT] = there;
            let expected = match there == right {
                true => 0,
                false => 6 + (9 << 8) + (u64::from(right) << 32),
            };
            expect(subject, EACH_BYTE, &table, expected, counts)?;
        }
    }
    Ok(())
}

// ---- A long table ----

/// The first sample with so many bytes more that its Length takes all four bytes, each of them 0xFF: with the
/// right byte it is accepted; another byte at 9, or one less at the end, is refused with 6.
fn long_table_agrees(subject: &Subject, counts: &mut Counts) -> Result<(), String> {
    let mut table = subject.samples[0].table.to_vec();
    table.resize(0x0100_0000 + table.len(), 0xFF);
    let length = (table.len() as u32).to_le_bytes();
    table[LENGTH as usize..][..4].copy_from_slice(&length);
    let right = checksum(&table, AT);
    table[AT] = right;
    expect(subject, LONG, &table, 0, counts)?;
    table[AT] = right.wrapping_add(1);
    expect(
        subject,
        LONG,
        &table,
        packed(6, CHECKSUM, u64::from(right)),
        counts,
    )?;
    *table.last_mut().unwrap() = 0xFE;
    table[AT] = right;
    let right = right.wrapping_add(1);
    expect(
        subject,
        LONG,
        &table,
        packed(6, CHECKSUM, u64::from(right)),
        counts,
    )
}

// ---- Other faults ----

/// A table as it is, and once more with another byte at 9. Where its sum is right that is refused with 6 and the
/// byte that stood there, whatever else is wrong with it but for 3, 4 and 5, which come first.
fn faults_agree(subject: &Subject, counts: &mut Counts) -> Result<(), String> {
    for (n, mut table) in (subject.tables)().into_iter().enumerate() {
        let answer = answer_of(subject, FAULTY, &table, counts)?;
        let before = match table.get(AT) {
            Some(byte) if number(answer) != 6 => *byte,
            _ => continue,
        };
        table[AT] = before.wrapping_add(1 + (n % 255) as u8);
        let expected = match number(answer) {
            3..=5 => answer,
            _ => packed(6, CHECKSUM, u64::from(before)),
        };
        expect(subject, FAULTY_AND_SUM, &table, expected, counts)?;
        *counts.faulty.entry(number(answer)).or_default() += 1;
    }
    Ok(())
}

// ---- Worked by hand ----

fn known_agree(subject: &Subject, counts: &mut Counts) -> Result<(), String> {
    for known in known_sums() {
        if known.family == subject.family {
            expect(subject, KNOWN, known.table.lent_bytes(), known.answer, counts)?;
        }
    }
    Ok(())
}

// ---- All of it ----

fn all_agree(subject: &Subject, counts: &mut Counts) -> Result<(), String> {
    known_agree(subject, counts)?;
    for sample in subject.samples {
        flips_agree(subject, sample, counts)?;
    }
    each_byte_agrees(subject, counts)?;
    long_table_agrees(subject, counts)?;
    faults_agree(subject, counts)
}

impl Counts {
    fn new(subject: &'static str) -> Counts {
        Counts {
            tally: Tally::new(subject, ANSWERS),
            rights: BTreeSet::new(),
            other_length: 0,
            more_lent: 0,
            faulty: BTreeMap::new(),
        }
    }

    fn print(&self) {
        self.tally.print();
        println!("  different bytes answered with 6: {}", self.rights.len());
        println!("  6 of a table whose Length was flipped: {}", self.other_length);
        println!(
            "  6 with bytes behind that would ask for another byte: {}",
            self.more_lent
        );
        let met = |(number, times): (&u64, &usize)| format!("{}: {}", number, times);
        let met: Vec<String> = self.faulty.iter().map(met).collect();
        println!(
            "  answers before the checksum byte was changed: {}",
            met.join(", ")
        );
    }

    /// Was all of this met? Each bit gives 6 but those of the signature and the Length, of which some do.
    fn are_enough(&self, subject: &Subject) -> bool {
        let bits: usize = 8 * subject.samples.iter().map(|s| s.table.len() - 8).sum::<usize>();
        let has_six = |row: &&str| self.tally.times(row, WRONG_SUM) >= bits;
        let is_met = |number: &u64| self.faulty.contains_key(number);
        let wanted = [
            ("6 of each bit", [FLIPPED, FLIPPED_MORE].iter().all(has_six)),
            ("each byte answered with 6", self.rights.len() == 256),
            ("6 over another Length", self.other_length > 0),
            ("6 with bytes behind each time", self.more_lent >= bits),
            ("each other answer", subject.numbers.iter().all(is_met)),
        ];
        for (what, _) in wanted.iter().filter(|(_, is_met)| !is_met) {
            println!("{}: not met: {}", subject.name, what);
        }
        wanted.iter().all(|(_, is_met)| *is_met) && self.tally.is_enough(65_536 + 2 * bits + LEAST_FAULTY)
    }
}

fn compare_subject(subject: &Subject) -> bool {
    let mut counts = Counts::new(subject.name);
    if let Err(difference) = all_agree(subject, &mut counts) {
        println!("{}", difference);
        return false;
    }
    counts.print();
    counts.are_enough(subject)
}

pub fn compare() -> bool {
    assert_ne!(BEHIND.iter().map(|byte| u64::from(*byte)).sum::<u64>() % 256, 0);
    SUBJECTS.iter().all(compare_subject)
}
