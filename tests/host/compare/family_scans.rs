//! The scans of all three families held to the reading of RULES.md in model/scan.rs, each on the same memory, in
//! which tables of all families stand. compare/scan.rs has more shapes for the iBFT's alone.

use crate::call::library::{self, Scan};
use crate::lent::memory::LentMemory;
use crate::make::seeded::Seeded;
use crate::model::answer::{in_words, number};
use crate::model::scan::{Family, ABFT, IBFT, SBFT};
use crate::tally::answers::Tally;

/// Where the window of aBFT and sBFT ends, and that of the iBFT starts and ends.
const LOW_END: u64 = 0xA0000;
const HIGH_START: u64 = 0x80000;
const HIGH_END: u64 = 0x100000;

const FAMILIES: [Family; 3] = [IBFT, ABFT, SBFT];
static SCANS: [Scan; 3] = [library::ibft_scan, library::abft_scan, library::sbft_scan];

const ANSWERS: &[&str] = &[
    "iBFT", "iBFT 1", "iBFT 2", "aBFT", "aBFT 1", "aBFT 2", "sBFT", "sBFT 1", "sBFT 2",
];

const LEAST_SCANS: usize = 3 * 30_000;
const MANY: usize = 3_000;
const FEW: usize = 40;

type Shape = (&'static str, usize, fn(&mut Seeded) -> LentMemory);

const SHAPES: &[Shape] = &[
    ("empty memory", MANY, empty_memory),
    ("from address 0 on", MANY, from_zero),
    ("in the iBFT's window alone", MANY, |s| {
        anywhere(s, LOW_END, HIGH_END)
    }),
    ("in both windows", MANY, |s| anywhere(s, HIGH_START, LOW_END)),
    ("below the iBFT's window", MANY, |s| anywhere(s, 0, HIGH_START)),
    ("across 0x80000", MANY, |s| across(s, HIGH_START)),
    ("across 0xA0000", MANY, |s| across(s, LOW_END)),
    ("across 0x100000", MANY, |s| across(s, HIGH_END)),
    ("up to 0xA0000", MANY, |s| up_to(s, LOW_END)),
    ("up to 0x100000", MANY, |s| up_to(s, HIGH_END)),
    ("Length at the least", MANY, length_at_least),
    ("wrong sum below a good table", MANY, wrong_sum_below),
    ("unaligned", MANY, unaligned),
    ("address + size past 2^64", MANY, past_all_addresses),
    ("all of low memory", FEW, all_of_low_memory),
];

fn any_family(seeded: &mut Seeded) -> Family {
    seeded.one_of(&FAMILIES)
}

/// A table of any family that is sound if its place is, or whose sum is wrong.
fn lay_any(seeded: &mut Seeded, memory: &mut LentMemory, place: isize, length: usize) {
    let family = any_family(seeded);
    memory.lay_of(&family.signature, place, length as u32, length);
    if seeded.once_in(5) {
        memory.spoil(seeded, place);
    }
}

/// A few tables of any families over the memory, one above the other.
fn lay_several(seeded: &mut Seeded, memory: &mut LentMemory) {
    let mut place = memory.align(16 * seeded.between(0, 3) as isize);
    while place + 48 < memory.end() {
        let length = seeded.one_of(&[45, 46, 47, 48, 48, 49, 66, 88, 136]);
        lay_any(seeded, memory, place, length);
        place = memory.align(place + length as isize) + 16 * seeded.between(0, 4) as isize;
    }
}

fn empty_memory(seeded: &mut Seeded) -> LentMemory {
    let near = [
        0,
        1,
        LOW_END - 1,
        LOW_END,
        LOW_END + 1,
        HIGH_END - 1,
        HIGH_END,
        HIGH_END + 1,
        u64::MAX,
    ];
    let any = seeded.next();
    let address = seeded.one_of(&near);
    let address = seeded.one_of(&[address, address, any]);
    LentMemory::empty(seeded, address)
}

/// A table at address 0, or above it.
fn from_zero(seeded: &mut Seeded) -> LentMemory {
    let size = seeded.between(40, 900);
    let mut memory = LentMemory::new(seeded, 0, size);
    lay_several(seeded, &mut memory);
    if seeded.once_in(2) {
        let length = seeded.one_of(&[46, 48, 100]);
        lay_any(seeded, &mut memory, 0, length);
    }
    memory
}

/// Some hundred bytes between two addresses.
fn anywhere(seeded: &mut Seeded, first: u64, end: u64) -> LentMemory {
    let size = seeded.between(100, 900);
    let address = first + seeded.between(0, (end - first) as usize - size) as u64;
    let mut memory = LentMemory::new(seeded, address, size);
    lay_several(seeded, &mut memory);
    memory
}

/// Lent bytes on both sides of an address; a table that ends with it, reaches across it or starts with it.
fn across(seeded: &mut Seeded, edge: u64) -> LentMemory {
    let below = seeded.between(1, 400);
    let size = below + seeded.one_of(&[1, 1, 2, 16, 100, 300]);
    let mut memory = LentMemory::new(seeded, edge - below as u64, size);
    if seeded.once_in(2) {
        lay_several(seeded, &mut memory);
    }
    let length = seeded.one_of(&[46, 48, 64, 96]);
    let steps = seeded.between(0, 8) as isize - 6;
    let place = memory.align((below as isize + 16 * steps).max(0));
    lay_any(seeded, &mut memory, place, length);
    memory
}

/// The lent bytes end with an address or a little below or above; a table ends with them, or one byte off.
fn up_to(seeded: &mut Seeded, end: u64) -> LentMemory {
    let end = end + 1 - seeded.one_of(&[1, 1, 1, 0, 2, 16, 17]);
    let size = seeded.between(200, 700);
    let mut memory = LentMemory::new(seeded, end - size as u64, size);
    let place = memory.align(memory.end() - seeded.between(46, 180) as isize);
    let left = (memory.end() - place) as usize;
    let length = seeded.one_of(&[left, left, left, left + 1, left - 1]);
    lay_any(seeded, &mut memory, place, length);
    memory
}

/// A Length at the least of any family, or one byte off; the sum is right over so many bytes.
fn length_at_least(seeded: &mut Seeded) -> LentMemory {
    let size = seeded.between(100, 300);
    let address = HIGH_START + seeded.between(0, 0x10000) as u64;
    let mut memory = LentMemory::new(seeded, address, size);
    let length = seeded.one_of(&[0, 1, 16, 44, 45, 46, 47, 48, 49]);
    let claimed = seeded.one_of(&[length, length, length, length | 1 << 16, length | 1 << 31]);
    let family = any_family(seeded);
    let place = memory.aligned_place(seeded, 64);
    memory.lay_of(&family.signature, place, claimed as u32, length);
    memory
}

fn wrong_sum_below(seeded: &mut Seeded) -> LentMemory {
    let size = seeded.between(300, 900);
    let address = HIGH_START + seeded.between(0, 0x10000) as u64;
    let mut memory = LentMemory::new(seeded, address, size);
    let family = any_family(seeded);
    let bad = memory.align(16 * seeded.between(0, 3) as isize);
    let lengths = [46, 48, 90];
    let (below, above) = (seeded.one_of(&lengths), seeded.one_of(&lengths));
    memory.lay_of(&family.signature, bad, below as u32, below);
    memory.spoil(seeded, bad);
    let good = memory.align(bad + below as isize) + 16 * seeded.between(0, 2) as isize;
    memory.lay_of(&family.signature, good, above as u32, above);
    if seeded.once_in(2) {
        let next = memory.align(good + above as isize);
        memory.lay_of(&family.signature, next, above as u32, above);
    }
    memory
}

/// A table at no multiple of 16, or at one counted from the first lent byte.
fn unaligned(seeded: &mut Seeded) -> LentMemory {
    let size = seeded.between(200, 600);
    let address = HIGH_START + seeded.between(0, 0x10000) as u64;
    let mut memory = LentMemory::new(seeded, address, size);
    let place = seeded.one_of(&[0, 16, memory.align(0) + 8, memory.align(1)]);
    lay_any(seeded, &mut memory, place, 64);
    memory
}

fn past_all_addresses(seeded: &mut Seeded) -> LentMemory {
    let size = seeded.between(100, 600);
    let more = seeded.one_of(&[0, 1, 16, size - 1]) as u64;
    let mut memory = LentMemory::new(seeded, u64::MAX - size as u64 + 1 + more, size);
    lay_several(seeded, &mut memory);
    memory
}

/// 640 KiB from address 0 on: a table that ends with them, and perhaps one at each window's start.
fn all_of_low_memory(seeded: &mut Seeded) -> LentMemory {
    let mut memory = LentMemory::new(seeded, 0, LOW_END as usize);
    let lengths = [46, 48, 64];
    let length = seeded.one_of(&lengths);
    let last = LOW_END as isize - 64;
    memory.lay_of(&any_family(seeded).signature, last, length as u32, length);
    for place in [0, HIGH_START as isize] {
        if seeded.once_in(2) {
            let length = seeded.one_of(&lengths);
            lay_any(seeded, &mut memory, place, length);
        }
    }
    if seeded.once_in(4) {
        // One table that takes up all there is.
        memory.lay_of(&any_family(seeded).signature, 0, LOW_END as u32, LOW_END as usize);
    }
    memory
}

/// What has to be met beside the answers.
#[derive(Default)]
struct Met {
    at_zero: usize,
    shortest: [usize; 3],
    several_families: usize,
}

impl Met {
    fn are_enough(&self) -> bool {
        println!(
            "  found at address 0: {}; of the least Length: {:?}; memory with several families: {}",
            self.at_zero, self.shortest, self.several_families
        );
        self.at_zero > 0 && self.shortest.iter().all(|times| *times > 0) && self.several_families > 0
    }
}

/// One memory: true if all three answers are the reading's and no byte has changed.
fn compare_one(
    shape: &'static str,
    seed: u64,
    memory: &mut LentMemory,
    tally: &mut Tally,
    met: &mut Met,
) -> bool {
    let mut found = 0;
    for (i, family) in FAMILIES.iter().enumerate() {
        let expected = family.scan(memory.bytes(), memory.address);
        let (answer, kept) = memory.scanned_by(SCANS[i]);
        if answer != expected || !kept {
            println!(
                "{} scan: DIFFERENCE in shape '{}', seed {:#x}",
                family.name, shape, seed
            );
            println!("  address {:#x}, size {}", memory.address, memory.size);
            println!("  library  {}", in_words(answer));
            println!("  document {}", in_words(expected));
            if !kept {
                println!("  bytes of the memory have changed");
            }
            return false;
        }
        tally.count(shape, 3 * i + number(answer) as usize);
        found += usize::from(number(answer) == 0);
        met.at_zero += usize::from(number(answer) == 0 && answer << 32 == 0);
        met.shortest[i] += usize::from(u128::from(answer >> 32) == family.least_length);
    }
    met.several_families += usize::from(found > 1);
    true
}

pub fn compare() -> bool {
    let mut tally = Tally::new("scans of three families", ANSWERS);
    let mut met = Met::default();
    for (i, (shape, inputs, make)) in SHAPES.iter().enumerate() {
        for input in 0..*inputs {
            let seed = (0x20 << 48) + ((i as u64) << 32) + input as u64;
            let mut memory = make(&mut Seeded::new(seed));
            if !compare_one(shape, seed, &mut memory, &mut tally, &mut met) {
                return false;
            }
        }
    }
    tally.print();
    met.are_enough() && tally.is_enough(LEAST_SCANS)
}
