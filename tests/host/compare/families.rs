//! The checks and the readings of aBFT and sBFT held to the readings of the papers in model/abft.rs and
//! model/sbft.rs, on tables of many shapes.

use crate::call::library::{self, Reading};
use crate::damage::family::{self as damage, ABFT_DAMAGES, SBFT_DAMAGES};
use crate::damage::table::Damage;
use crate::known::samples::{ABFT_SAMPLE, SBFT_SAMPLE};
use crate::lent::table::LentTable;
use crate::make::family::*;
use crate::make::seeded::Seeded;
use crate::make::table::Table;
use crate::model::abft as abft;
use crate::model::answer::{in_words, packed_verdict};
use crate::model::check::{Refusal, Verdict};
use crate::model::sbft::{self as sbft, IB, PARTS};
use crate::tally::answers::Tally;
use crate::tally::family_refusals::*;

const LEAST_OF_EACH: usize = 50_000;

/// A name, how many inputs, and how number `n` of them is made.
type Shape = (&'static str, usize, fn(usize, &mut Seeded) -> Table);

const ABFT_SHAPES: &[Shape] = &[
    ("good tables", 12_000, |_, seeded| good_abft(seeded)),
    ("each size from 0 to 119", 120 * 5, |n, s| {
        cut(n % 120, good_abft(s))
    }),
    ("each byte", abft::SIZE * 256, |n, s| with_byte(n, good_abft(s))),
    ("one fault", 14_000, |_, s| damaged(s, good_abft, ABFT_DAMAGES, 1)),
    ("several faults", 14_000, |_, s| {
        damaged(s, good_abft, ABFT_DAMAGES, 5)
    }),
    ("Length off", 4_000, |_, s| {
        damaged(s, good_abft, &[damage::table_length], 1)
    }),
    ("sum wrong", 2_000, |_, s| sum_wrong(s, good_abft, ABFT_DAMAGES)),
    ("sum right over all that is lent", 2_000, |_, s| {
        sum_over_lent(s, good_abft)
    }),
    ("sBFTs", 500, |_, seeded| good_sbft(seeded)),
];

const SBFT_SHAPES: &[Shape] = &[
    ("good tables", 12_000, |_, seeded| good_sbft(seeded)),
    ("as a write lays them", 2_000, |_, seeded| written_sbft(seeded)),
    ("each size from 0 to 179", 180 * 5, |n, s| {
        cut(n % 180, good_sbft(s))
    }),
    ("each byte", sbft::SIZE * 256, |n, s| {
        with_byte(n, written_sbft(s))
    }),
    ("each offset of each part", 3 * 256 * 4, each_offset),
    ("one fault", 14_000, |_, s| damaged(s, good_sbft, SBFT_DAMAGES, 1)),
    ("several faults", 16_000, |_, s| {
        damaged(s, good_sbft, SBFT_DAMAGES, 5)
    }),
    ("Length off", 6_000, |_, s| {
        damaged(s, good_sbft, &[damage::table_length], 1)
    }),
    ("parts that touch", 6_000, |_, s| {
        damaged(s, good_sbft, &[damage::offset_beside_another], 2)
    }),
    ("IB part's reserved bytes", 3_000, |_, s| {
        damaged(s, good_sbft, &[damage::ib_reserved], 1)
    }),
    ("a part as far up as can be", 1_500, |_, seeded| far_sbft(seeded)),
    ("that with faults", 2_500, |_, s| {
        damaged(s, far_sbft, SBFT_DAMAGES, 2)
    }),
    ("that in its reserved bytes", 1_000, |_, s| {
        damaged(s, far_sbft, &[damage::ib_reserved], 1)
    }),
    ("sum wrong", 2_000, |_, s| sum_wrong(s, good_sbft, SBFT_DAMAGES)),
    ("sum right over all that is lent", 2_000, |_, s| {
        sum_over_lent(s, good_sbft)
    }),
    ("aBFTs", 500, |_, seeded| good_abft(seeded)),
];

pub type Make = fn(&mut Seeded) -> Table;

/// A good table of which so many bytes are lent.
pub fn cut(size: usize, mut table: Table) -> Table {
    table.bytes.resize(size.max(table.bytes.len()), 0);
    table.lent = size;
    table
}

/// Byte n / 256 of the table is n modulo 256.
fn with_byte(n: usize, mut table: Table) -> Table {
    table.write(n / 256, &[n as u8]);
    table.mended()
}

/// Up to `most` faults.
pub fn damaged(seeded: &mut Seeded, make: Make, damages: &[Damage], most: usize) -> Table {
    let mut table = make(seeded);
    for _ in 0..seeded.between(1, most) {
        let damage = seeded.one_of(damages);
        damage(seeded, &mut table);
    }
    table.mended()
}

/// A good table or one with a fault, whose checksum byte is another.
pub fn sum_wrong(seeded: &mut Seeded, make: Make, damages: &[Damage]) -> Table {
    let mut table = make(seeded);
    if seeded.once_in(2) {
        table = damaged(seeded, make, damages, 2);
    }
    table.bytes[9] = table.bytes[9].wrapping_add(seeded.between(1, 255) as u8);
    table
}

/// Bytes past Length that the sum would need.
fn sum_over_lent(seeded: &mut Seeded, make: Make) -> Table {
    let mut table = make(seeded);
    let length = table.length() as u32;
    let more = seeded.between(1, 255) as u8;
    table.lend_more(&[more]);
    table.set_length(table.lent as u32);
    table.mend();
    table.set_length(length);
    table.write(
        9,
        &[table.bytes[9].wrapping_add((table.lent as u8).wrapping_sub(length as u8))],
    );
    table
}

/// Each part at each offset up to 255 in a table of 200 bytes whose other parts stand at one of four places.
fn each_offset(n: usize, seeded: &mut Seeded) -> Table {
    let (part, offset, layout) = (n / 256 % 3, n % 256, n / 768);
    let mut starts = [[48, 56, 88], [152, 100, 48], [120, 136, 60], [49, 57, 0]][layout];
    starts[part] = offset;
    let mut table = sbft_with(seeded, 200, starts);
    // What is written of the IB part may fall into the start.
    table.write(42, &[0; 6]);
    table.mended()
}

// ---- One input ----

/// What was asked, the answer and the document's.
struct Difference(&'static str, String, String);

fn expect(call: &'static str, answer: u64, expected: u64) -> Result<(), Difference> {
    match answer == expected {
        true => Ok(()),
        false => Err(Difference(call, in_words(answer), in_words(expected))),
    }
}

/// The bytes for what a reading lays or a view shows; those that it does not write keep this byte.
const OUT_SIZE: usize = 64;
const OUT_FILLER: u8 = 0xA5;

fn expect_out(call: &'static str, out: &[u8], mut expected: Vec<u8>) -> Result<(), Difference> {
    expected.resize(OUT_SIZE, OUT_FILLER);
    match out == expected {
        true => Ok(()),
        false => Err(Difference(
            call,
            format!("{:02x?}", out),
            format!("{:02x?}", expected),
        )),
    }
}

/// A reading's answer and the bytes that it lays: those of the fields, all zero where it is refused.
fn expect_reading(
    call: &'static str,
    read: Reading,
    table: (*const u8, usize),
    verdict: &Verdict,
    laid: Vec<u8>,
) -> Result<(), Difference> {
    let mut out = [OUT_FILLER; OUT_SIZE];
    let answer = unsafe { read(table.0, table.1, out.as_mut_ptr(), OUT_SIZE) };
    expect(call, answer, packed_verdict(verdict))?;
    expect_out(call, &out, laid)
}

/// How many bytes a view has, and those that are copied into so many.
fn expect_view(table: (*const u8, usize), part: u8, shown: &[u8], lent: usize) -> Result<(), Difference> {
    let call = "the view of a part";
    let mut out = [OUT_FILLER; OUT_SIZE];
    let answer = unsafe { library::test_sbft_part_view(table.0, table.1, part, out.as_mut_ptr(), lent) };
    if answer != shown.len() {
        return Err(Difference(
            call,
            format!("{} bytes", answer),
            format!("{} bytes", shown.len()),
        ));
    }
    expect_out(call, &out, shown[..shown.len().min(lent)].to_vec())
}

fn compare_abft(table: &mut LentTable) -> Result<Vec<Refusal>, Difference> {
    let faults = abft::faults(table.bytes());
    let (verdict, read) = (abft::check(table.bytes()), abft::read(table.bytes()));
    let lent = table.lend();
    expect(
        "abft_check",
        unsafe { library::abft_check(lent.0, lent.1) },
        packed_verdict(&verdict),
    )?;
    let laid = read.map_or(vec![0; 23], |read| read.laid());
    expect_reading("the reading of an aBFT", library::test_abft, lent, &verdict, laid)?;
    Ok(faults)
}

/// The readings of an sBFT: of the OEM fields, then of each part; how many bytes each lays.
const SBFT_READINGS: [(&str, Reading, usize); 4] = [
    ("the OEM fields of an sBFT", library::test_sbft_start, 14),
    ("the SCSI part of an sBFT", library::test_sbft_scsi, 8),
    ("the SRP part of an sBFT", library::test_sbft_srp, 32),
    ("the IB part of an sBFT", library::test_sbft_ib, 42),
];

fn compare_sbft(table: &mut LentTable) -> Result<Vec<Refusal>, Difference> {
    let faults = sbft::faults(table.bytes());
    let (verdict, read) = (sbft::check(table.bytes()), sbft::read(table.bytes()));
    let verdicts = PARTS.map(|part| sbft::part_verdict(table.bytes(), &part));
    let shown = |part: usize| -> Vec<u8> {
        let stretch = verdicts[part]
            .ok()
            .and_then(|()| sbft::stretch(table.bytes(), &PARTS[part]));
        stretch.map_or(Vec::new(), |bytes| table.bytes()[bytes].to_vec())
    };
    let views = [shown(0), shown(1), shown(2), Vec::new()];
    let lent = table.lend();
    expect(
        "sbft_check",
        unsafe { library::sbft_check(lent.0, lent.1) },
        packed_verdict(&verdict),
    )?;
    for (number, (name, reading, zeros)) in SBFT_READINGS.into_iter().enumerate() {
        let verdict = if number == 0 {
            &verdict
        } else {
            &verdicts[number - 1]
        };
        let laid = match (&read, verdict) {
            (Ok(read), Ok(())) => read.laid(number),
            _ => vec![0; zeros],
        };
        expect_reading(name, reading, lent, verdict, laid)?;
    }
    for (part, view) in views.iter().enumerate() {
        expect_view(lent, part as u8, view, OUT_SIZE)?;
        expect_view(lent, part as u8, view, lent.1 % OUT_SIZE)?;
    }
    expect_view(lent, u8::MAX, &[], OUT_SIZE)?;
    Ok(faults)
}

// ---- A family ----

struct Subject {
    name: &'static str,
    shapes: &'static [Shape],
    compare: fn(&mut LentTable) -> Result<Vec<Refusal>, Difference>,
    refusals: fn() -> Vec<NumberAndPlace>,
    pairs: &'static [&'static [(&'static str, &'static str)]],
}

const SUBJECTS: [Subject; 2] = [
    Subject {
        name: "check and reading of an aBFT",
        shapes: ABFT_SHAPES,
        compare: compare_abft,
        refusals: || header_refusals(&abft::reserved()),
        pairs: &[HEADER_PAIRS],
    },
    Subject {
        name: "check and readings of an sBFT",
        shapes: SBFT_SHAPES,
        compare: compare_sbft,
        refusals: || [header_refusals(&sbft::reserved()), part_refusals()].concat(),
        pairs: &[HEADER_PAIRS, PART_PAIRS],
    },
];

/// Prints how to make an input again, and the two answers.
fn report(subject: &str, shape: &str, seed: u64, table: &LentTable, difference: Difference) {
    let Difference(call, answer, expected) = difference;
    println!(
        "{}: DIFFERENCE in shape '{}', seed {:#x}: {}",
        subject, shape, seed, call
    );
    println!("  {} bytes lent: {}", table.bytes().len(), table.in_hex());
    println!("  library  {}", answer);
    println!("  document {}", expected);
}

/// How often an IB part was there, absent, and in front of another part.
#[derive(Default)]
struct Layouts {
    with_ib: usize,
    without_ib: usize,
    out_of_order: usize,
}

impl Layouts {
    fn count(&mut self, table: &[u8]) {
        let starts: Vec<usize> = PARTS.iter().filter_map(|part| sbft::start(table, part)).collect();
        match sbft::start(table, &IB) {
            Some(_) => self.with_ib += 1,
            None => self.without_ib += 1,
        }
        self.out_of_order += usize::from(starts.windows(2).any(|two| two[0] > two[1]));
    }

    fn are_enough(&self) -> bool {
        println!(
            "  accepted sBFTs with an IB part {}, without {}, with parts in another order {}",
            self.with_ib, self.without_ib, self.out_of_order
        );
        self.with_ib >= 1_000 && self.without_ib >= 1_000 && self.out_of_order >= 1_000
    }
}

fn compare_subject(number: usize, subject: &Subject, layouts: &mut Layouts) -> bool {
    let mut tally = Tally::new(subject.name, &["accepted", "refused"]);
    let mut refusals = FamilyRefusals::default();
    for (i, (shape, inputs, make)) in subject.shapes.iter().enumerate() {
        for n in 0..*inputs {
            let seed = ((number as u64) << 48) + ((i as u64) << 32) + n as u64;
            let mut seeded = Seeded::new(seed);
            let table = make(n, &mut seeded);
            let mut table = LentTable::new(&mut seeded, &table);
            let faults = match (subject.compare)(&mut table) {
                Ok(faults) if table.is_unchanged() => faults,
                Ok(_) => {
                    println!(
                        "{}: bytes of the table have changed, seed {:#x}",
                        subject.name, seed
                    );
                    return false;
                }
                Err(difference) => {
                    report(subject.name, shape, seed, &table, difference);
                    return false;
                }
            };
            tally.count(shape, usize::from(!faults.is_empty()));
            refusals.count(&faults);
            if number == 1 && faults.is_empty() {
                layouts.count(table.bytes());
            }
        }
    }
    tally.print();
    refusals.print();
    refusals.are_met(subject.name, &(subject.refusals)(), &subject.pairs.concat())
        && tally.is_enough(LEAST_OF_EACH)
}

/// What the samples say, written out.
const ABFT_SAID: &[u8] = b"FENSYSiPXE\0\0\0\0\x07\0\x03\x52\x54\0\x12\x34\x56";
const SBFT_SAID: [&[u8]; 4] = [
    b"METTA\0CABINET7",
    b"\0\x01\0\0\0\0\0\0",
    b"\0\0\0\0\0\0\0\0\0\x02\xC9\x03\0\x1A\x2B\x3D\
      \0\x02\xC9\x03\0\x4E\x5F\x60\0\x02\xC9\x03\0\x4E\x5F\x60",
    b"\xFE\x80\0\0\0\0\0\0\0\x02\xC9\x03\0\x1A\x2B\x3D\
      \xFE\x80\0\0\0\0\0\0\0\x02\xC9\x03\0\x4E\x5F\x61\
      \0\x02\xC9\x03\0\x4E\x5F\x60\xFF\xFF",
];

/// The samples are accepted, and read as what they say.
fn samples_are_read() -> bool {
    let (abft, sbft) = (ABFT_SAMPLE.table, SBFT_SAMPLE.table);
    let of_abft = [(
        "a reading of ipxe-aoe.abft",
        library::test_abft as Reading,
        ABFT_SAID,
    )];
    let of_sbft = SBFT_READINGS
        .iter()
        .zip(SBFT_SAID)
        .map(|((name, reading, _), said)| (*name, *reading, said));
    let all = of_abft
        .into_iter()
        .map(|row| (abft, row))
        .chain(of_sbft.map(|row| (sbft, row)));
    for (table, (name, reading, said)) in all {
        let lent = (table.as_ptr(), table.len());
        if let Err(Difference(call, answer, expected)) =
            expect_reading(name, reading, lent, &Ok(()), said.to_vec())
        {
            println!("samples: {}: library {}, document {}", call, answer, expected);
            return false;
        }
    }
    unsafe {
        library::abft_check(abft.as_ptr(), abft.len()) == 0
            && library::sbft_check(sbft.as_ptr(), sbft.len()) == 0
    }
}

pub fn compare() -> bool {
    if !samples_are_read() {
        println!("samples: the check or a reading of a sample is not as it should be");
        return false;
    }
    let mut layouts = Layouts::default();
    let mut numbered = SUBJECTS.iter().enumerate();
    numbered.all(|(number, subject)| compare_subject(number, subject, &mut layouts)) && layouts.are_enough()
}
