//! The readings as compiled (`test_header` to `test_entry_place`), held to model/readings.rs: every
//! slot and every entry of every table, and numbers past them.

use crate::call::library::{self, Index, NumberedReading, Reading};
use crate::check::report;
use crate::make::good_tables::{table_with_extras, table_with_structures};
use crate::make::seeded::Seeded;
use crate::make::table::{structures, Table};
use crate::model::answer::{number, number_and_place, packed_verdict};
use crate::model::check::Refusal;
use crate::model::layout::*;
use crate::model::readings::{self as model, *};
use crate::shapes::table::{all_agree, Input};
use crate::tally::answers::Tally;

const LEAST_INPUTS: usize = 200_000;

/// So many accepted tables with extra structures, whose every number is read.
const LEAST_WITH_EXTRAS: usize = 100_000;

/// Bytes lent for what a reading gives, and guards on both sides of them.
const OUT_SIZE: usize = 128;
const GUARD: usize = 32;
const GUARD_BYTE: u8 = 0xC3;

/// Columns of the counts: what a reading answered.
const ANSWERS: &[&str] = &["read", "3 to 19", "22", "23"];
const READ: usize = 0;
const BY_CHECK: usize = 1;
const MISSING: usize = 2;
const NO_SUCH: usize = 3;

// ---- What a reading gives, as bytes ----

/// What is read, laid out as the test calls give it: in the table's own order, little endian.
trait LaidOut: Default {
    const SIZE: usize;
    fn laid_out(&self) -> Vec<u8>;
}

fn le(number: u64, width: usize) -> Vec<u8> {
    number.to_le_bytes()[..width].to_vec()
}

fn le_words(entry: &EntryWords) -> Vec<u8> {
    [le(entry.length, 2), le(entry.offset, 2)].concat()
}

impl LaidOut for Header {
    const SIZE: usize = 15;
    fn laid_out(&self) -> Vec<u8> {
        [
            self.oem_id.to_vec(),
            self.oem_table_id.to_vec(),
            le(self.control_flags, 1),
        ]
        .concat()
    }
}

impl LaidOut for Initiator {
    const SIZE: usize = 69;
    fn laid_out(&self) -> Vec<u8> {
        [
            le(self.flags, 1),
            self.isns_server.to_vec(),
            self.slp_server.to_vec(),
            self.primary_radius_server.to_vec(),
            self.secondary_radius_server.to_vec(),
            le_words(&self.name),
        ]
        .concat()
    }
}

impl LaidOut for Nic {
    const SIZE: usize = 97;
    fn laid_out(&self) -> Vec<u8> {
        [
            le(self.flags, 1),
            self.address.to_vec(),
            le(self.prefix, 1),
            le(self.origin, 1),
            self.gateway.to_vec(),
            self.primary_dns.to_vec(),
            self.secondary_dns.to_vec(),
            self.dhcp.to_vec(),
            le(self.vlan, 2),
            self.mac.to_vec(),
            le(self.pci, 2),
            le_words(&self.host_name),
        ]
        .concat()
    }
}

impl LaidOut for Target {
    const SIZE: usize = 49;
    fn laid_out(&self) -> Vec<u8> {
        [
            le(self.flags, 1),
            self.address.to_vec(),
            le(self.socket, 2),
            le(self.lun, 8),
            le(self.chap_type, 1),
            le(self.nic_association, 1),
            le_words(&self.name),
            le_words(&self.chap_name),
            le_words(&self.chap_secret),
            le_words(&self.reverse_name),
            le_words(&self.reverse_secret),
        ]
        .concat()
    }
}

/// Flags and fields, as they are read one by one, are the structure's bytes from the flags on, each
/// once and in order.
fn fields_are_the_bytes() -> bool {
    (0..600).all(|seed| {
        let table = match seed % 2 {
            0 => table_with_structures(&mut Seeded::new(seed)),
            _ => table_with_extras(&mut Seeded::new(seed)),
        };
        let bytes = table.lent_bytes();
        let accepted = model::accepted(bytes).ok().unwrap();
        let (mut nics, mut targets) = (0.., 0..);
        accepted.slots.iter().all(|found| {
            let read = match found.kind {
                INITIATOR => accepted.initiator().map(|fields| fields.laid_out()),
                NIC => accepted.nic(nics.next().unwrap()).map(|f| f.laid_out()),
                _ => accepted
                    .target(targets.next().unwrap())
                    .map(|f| f.laid_out()),
            };
            match found.start {
                None => read.is_err(),
                Some(start) => {
                    let end = start + found.kind.length;
                    read.as_deref() == Ok(&bytes[(start + FLAGS_AT) as usize..end as usize])
                }
            }
        })
    })
}

// ---- Comparing ----

/// What is counted: answers by call, and tables.
struct Counts {
    tally: Tally,
    tables: usize,
    with_extras: usize,
}

impl Counts {
    fn count(&mut self, call: &'static str, answer: u64) {
        let column = match number(answer) {
            0 => READ,
            22 => MISSING,
            23 => NO_SUCH,
            _ => BY_CHECK,
        };
        self.tally.count(call, column);
    }
}

/// The checksum byte that comes with an answer: of a table whose sum is wrong the one that would be right.
pub fn checksum_of<T>(result: &Result<T, Refusal>) -> u8 {
    result.as_ref().err().map_or(0, |refusal| refusal.checksum)
}

/// Says whether two answers to a numbered call are the same; prints where they are not.
fn same(call: &str, n: u8, input: &Input, answer: u64, expected: u64) -> bool {
    if answer != expected {
        let call = format!("{} {}", call, n);
        report(
            &call,
            input,
            &format!("{:#x}", answer),
            &format!("{:#x}", expected),
        );
    }
    answer == expected
}

/// What a reading of the accepted table gives; the check's refusal for any other.
pub fn read<T>(
    table: &Result<Accepted<'_>, Refusal>,
    reading: impl Fn(&Accepted<'_>) -> Result<T, Refusal>,
) -> Result<T, Refusal> {
    match table {
        Ok(accepted) => reading(accepted),
        Err(refusal) => Err(*refusal),
    }
}

fn compare_structure(
    input: &mut Input,
    slot: u8,
    expected: Result<Structure, Refusal>,
    counts: &mut Counts,
) -> bool {
    let (table, size) = input.table.lend();
    let answer = unsafe { library::test_structure(table, size, slot) };
    let index_given = unsafe { library::test_structure_index(table, size, slot) };
    let checksum_given = unsafe { library::test_structure_checksum(table, size, slot) };
    counts.count("structure", answer);
    let refusal = number_and_place(packed_verdict(&expected));
    let checksum = checksum_of(&expected).into();
    let Structure {
        id,
        index,
        start,
        flags,
    } = expected.unwrap_or_default();
    let expected = refusal | id << 32 | start << 40 | flags << 56;
    let given = checksum_given.into();
    same("structure", slot, input, answer, expected)
        && same("structure's Index", slot, input, index_given.into(), index)
        && same("structure's checksum", slot, input, given, checksum)
}

fn compare_entry(
    input: &mut Input,
    entry: u8,
    expected: Result<EntryWords, Refusal>,
    counts: &mut Counts,
) -> bool {
    let (table, size) = input.table.lend();
    let answer = unsafe { library::test_entry(table, size, entry) };
    let place_given = unsafe { library::test_entry_place(table, size, entry) };
    counts.count("entry", answer);
    let refusal = packed_verdict(&expected);
    let place = expected.unwrap_or_default();
    same("entry", entry, input, answer, refusal)
        && same(
            "entry's place",
            entry,
            input,
            place_given,
            place.offset | place.length << 16,
        )
}

/// Calls with bytes lent for the reading: true if the answer is right, the bytes are those read,
/// all zero where it is refused, and none beside the lent ones has changed.
fn compare_fields<T: LaidOut>(
    call: &'static str,
    input: &mut Input,
    expected: Result<T, Refusal>,
    read: impl Fn(*const u8, usize, *mut u8, usize) -> u64,
    counts: &mut Counts,
) -> bool {
    let mut out = [GUARD_BYTE; GUARD + OUT_SIZE + GUARD];
    let (table, size) = input.table.lend();
    let answer = read(table, size, out[GUARD..].as_mut_ptr(), OUT_SIZE);
    counts.count(call, answer);
    let refusal = packed_verdict(&expected);
    let fields = match expected {
        Ok(fields) => fields.laid_out(),
        Err(_) => vec![0; T::SIZE],
    };
    assert_eq!(fields.len(), T::SIZE);
    let given = &out[GUARD..GUARD + T::SIZE];
    let guards = [&out[..GUARD], &out[GUARD + OUT_SIZE..]].concat();
    if answer == refusal && given == fields && guards.iter().all(|b| *b == GUARD_BYTE) {
        return true;
    }
    let library = format!("{:#x}, {:02x?}", answer, given);
    let document = format!("{:#x}, {:02x?}", refusal, fields);
    report(call, input, &library, &document);
    false
}

fn compare_plain<T: LaidOut>(
    call: &'static str,
    input: &mut Input,
    expected: Result<T, Refusal>,
    library: Reading,
    counts: &mut Counts,
) -> bool {
    let read = |table, size, out, out_size| unsafe { library(table, size, out, out_size) };
    compare_fields(call, input, expected, read, counts)
}

/// A reading by number, and the Index that it answers beside the fields.
fn compare_numbered<T: LaidOut + HasIndex>(
    call: &'static str,
    n: u8,
    input: &mut Input,
    expected: Result<T, Refusal>,
    (library, library_index): (NumberedReading, Index),
    counts: &mut Counts,
) -> bool {
    let index = expected.as_ref().map_or(0, |fields| fields.index());
    let read = |table, size, out, out_size| unsafe { library(table, size, n, out, out_size) };
    let (table, size) = input.table.lend();
    let index_given = unsafe { library_index(table, size, n) };
    same(call, n, input, index_given.into(), index)
        && compare_fields(call, input, expected, read, counts)
}

trait HasIndex {
    fn index(&self) -> u64;
}

impl HasIndex for Nic {
    fn index(&self) -> u64 {
        self.index
    }
}

impl HasIndex for Target {
    fn index(&self) -> u64 {
        self.index
    }
}

/// A number past the last: just past it, at the end, or one that is small if it wraps.
fn past(seeded: &mut Seeded, count: usize) -> u8 {
    let any = seeded.between(count, 255);
    seeded.one_of(&[count, any, 127, 128, 129, 255]) as u8
}

/// The numbers that are asked for: all up to `count` and one past it where the table is accepted; of a
/// table that is refused, where they all answer the same, the first few and some others.
fn numbers(seeded: &mut Seeded, is_accepted: bool, few: usize, count: usize) -> Vec<u8> {
    let asked = if is_accepted { count } else { few };
    let any = seeded.between(0, count - 1) as u8;
    let mut numbers: Vec<u8> = (0..asked as u8).collect();
    numbers.extend([any, past(seeded, count)]);
    numbers
}

/// Every reading of one table, and the same with a number that is too high.
fn compare_one(input: &mut Input, counts: &mut Counts) -> bool {
    counts.tables += 1;
    let bytes = input.table.bytes().to_vec();
    let table = model::accepted(&bytes);
    counts.with_extras += usize::from(matches!(&table, Ok(t) if t.slots.len() > SLOTS.len()));
    let is_accepted = table.is_ok();
    let slots = numbers(&mut input.seeded, is_accepted, 2, SLOT_NUMBERS as usize);
    let entries = numbers(&mut input.seeded, is_accepted, 2, ENTRY_NUMBERS as usize);
    let agrees = compare_kinds(input, &table, counts)
        && slots.iter().all(|slot| {
            let expected = read(&table, |t| t.structure(u64::from(*slot)));
            compare_structure(input, *slot, expected, counts)
        })
        && entries.iter().all(|entry| {
            let expected = read(&table, |t| t.entry(u64::from(*entry)));
            compare_entry(input, *entry, expected, counts)
        });
    if agrees && !input.table.is_unchanged() {
        report("readings", input, "-", "-");
        return false;
    }
    agrees
}

/// The readings that give all fields: header, initiator, NIC and target.
fn compare_kinds(
    input: &mut Input,
    table: &Result<Accepted<'_>, Refusal>,
    counts: &mut Counts,
) -> bool {
    let nic: (NumberedReading, Index) = (library::test_nic, library::test_nic_index);
    let target: (NumberedReading, Index) = (library::test_target, library::test_target_index);
    let count = NUMBERS_OF_A_KIND as usize;
    let numbers = numbers(&mut input.seeded, table.is_ok(), 1, count);
    let header = read(table, |t| t.header());
    let initiator = read(table, |t| t.initiator());
    compare_plain("header", input, header, library::test_header, counts)
        && compare_plain(
            "initiator",
            input,
            initiator,
            library::test_initiator,
            counts,
        )
        && numbers.iter().all(|n| {
            let expected = read(table, |t| t.nic(u64::from(*n)));
            compare_numbered("NIC", *n, input, expected, nic, counts)
        })
        && numbers.iter().all(|n| {
            let expected = read(table, |t| t.target(u64::from(*n)));
            compare_numbered("target", *n, input, expected, target, counts)
        })
}

// ---- Addresses and the PCI word ----

fn address(last_six: [u8; 6]) -> [u8; 16] {
    let mut address = [0; 16];
    address[10..].copy_from_slice(&last_six);
    address
}

fn compare_address(address: &[u8; 16]) -> bool {
    let expected = match model::address_kind(address) {
        AddressKind::Absent => 0,
        AddressKind::Ipv4Mapped => 1,
        AddressKind::Other => 2,
    };
    let answer = unsafe { library::test_address_kind(address.as_ptr(), address.len()) };
    if answer != expected {
        println!("address {:02x?}: DIFFERENCE", address);
        println!("  library {}, document {}", answer, expected);
    }
    answer == expected
}

/// Each single byte that is not zero, alone and in an IPv4-mapped address; random ones.
fn compare_addresses() -> bool {
    let mapped = address([0xFF, 0xFF, 10, 0, 2, 15]);
    let mut all = vec![
        [0; 16],
        [0xFF; 16],
        mapped,
        address([0xFF, 0xFF, 0, 0, 0, 0]),
    ];
    for at in 0..16 {
        for byte in 0..=255 {
            for mut changed in [[0; 16], mapped, [0xFF; 16]] {
                changed[at] = byte;
                all.push(changed);
            }
        }
    }
    let mut seeded = Seeded::new(0xADD2);
    for _ in 0..2_000 {
        all.push(seeded.bytes(16).try_into().unwrap());
    }
    all.iter().all(compare_address)
}

/// C0 A8 46 23 is 192.168.70.35, whatever the source's example says; .50 ends in 0x32. The library
/// gives these bytes as NIC 0's address.
fn example_address_is_35() -> bool {
    let example = address([0xFF, 0xFF, 0xC0, 0xA8, 0x46, 0x23]);
    let fifty = address([0xFF, 0xFF, 0xC0, 0xA8, 0x46, 0x32]);
    assert_eq!(model::dotted(&example).as_deref(), Some("192.168.70.35"));
    assert_eq!(model::dotted(&fifty).as_deref(), Some("192.168.70.50"));
    let mut table: Table = structures(&[1]);
    table.write(table.start(1) + 6, &example);
    let table = table.mended();
    let mut out = [0; OUT_SIZE];
    let (bytes, lent) = (table.bytes.as_ptr(), table.lent);
    let answer = unsafe { library::test_nic(bytes, lent, 0, out.as_mut_ptr(), OUT_SIZE) };
    let given: [u8; 16] = out[1..17].try_into().unwrap();
    let given = model::dotted(&given).unwrap_or_default();
    println!("  address of NIC 0 with C0 A8 46 23: {}", given);
    answer == 0 && given == "192.168.70.35" && compare_address(&example) && compare_address(&fifty)
}

/// Every PCI word; case 10 of RULES.md, Worked cases, is one of them.
fn compare_pci_words() -> bool {
    assert_eq!(model::pci_parts(0x0019), (0, 3, 1));
    (0..=0xFFFF).all(|word: u16| {
        let (bus, device, function) = model::pci_parts(u64::from(word));
        let expected = bus | device << 8 | function << 16;
        let answer = unsafe { library::test_pci(word) };
        if answer != expected {
            println!("PCI word {:#06x}: DIFFERENCE", word);
            println!("  library {:#x}, document {:#x}", answer, expected);
        }
        answer == expected
    })
}

pub fn compare() -> bool {
    let mut counts = Counts {
        tally: Tally::new("readings by call", ANSWERS),
        tables: 0,
        with_extras: 0,
    };
    assert!(fields_are_the_bytes());
    let agree = compare_addresses()
        && example_address_is_35()
        && compare_pci_words()
        && all_agree(|mut input| compare_one(&mut input, &mut counts));
    if !agree {
        return false;
    }
    counts.tally.print();
    println!(
        "readings: {} tables read, {} of them accepted with extras",
        counts.tables, counts.with_extras
    );
    counts.tables >= LEAST_INPUTS
        && counts.with_extras >= LEAST_WITH_EXTRAS
        && each_answer_is_met(&counts.tally)
}

/// A call that takes a number can refuse in every way; the initiator may be missing.
fn each_answer_is_met(tally: &Tally) -> bool {
    let calls: [(&str, &[usize]); 6] = [
        ("header", &[READ, BY_CHECK]),
        ("structure", &[READ, BY_CHECK, MISSING, NO_SUCH]),
        ("initiator", &[READ, BY_CHECK, MISSING]),
        ("NIC", &[READ, BY_CHECK, MISSING, NO_SUCH]),
        ("target", &[READ, BY_CHECK, MISSING, NO_SUCH]),
        ("entry", &[READ, BY_CHECK, MISSING, NO_SUCH]),
    ];
    for (call, answers) in calls {
        if let Some(answer) = answers.iter().find(|a| tally.times(call, **a) == 0) {
            println!("{}: no input has the answer '{}'", call, ANSWERS[*answer]);
            return false;
        }
    }
    tally.is_enough(LEAST_INPUTS)
}
