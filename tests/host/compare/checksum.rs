//! The checksum byte as compiled (`test_checksum`), held to model/checksum.rs.

use crate::call::library;
use crate::make::seeded::Seeded;
use crate::model::checksum::checksum;
use crate::tally::answers::Tally;

const LEAST_INPUTS: usize = 20_000;
const LARGEST: usize = 5_000;

/// A name, how many inputs, and how number `n` of them is made.
type Shape = (&'static str, usize, fn(usize, &mut Seeded) -> Vec<u8>);

const SHAPES: &[Shape] = &[
    ("each size from 0 to 600", 601, |n, seeded| seeded.bytes(n)),
    ("random bytes", 10_000, random_bytes),
    ("all bytes the same", 4_000, all_the_same),
    ("already right at 9", 3_000, already_right),
    ("a table's sizes", 3_000, table_sizes),
];

fn random_bytes(_: usize, seeded: &mut Seeded) -> Vec<u8> {
    let size = seeded.between(0, LARGEST);
    seeded.bytes(size)
}

fn all_the_same(_: usize, seeded: &mut Seeded) -> Vec<u8> {
    let byte = seeded.one_of(&[0, 1, 0x7F, 0x80, 0xFF]);
    vec![byte; seeded.between(0, LARGEST)]
}

fn already_right(_: usize, seeded: &mut Seeded) -> Vec<u8> {
    let size = seeded.between(10, LARGEST);
    let mut bytes = seeded.bytes(size);
    bytes[9] = checksum(&bytes, 9);
    bytes
}

fn table_sizes(_: usize, seeded: &mut Seeded) -> Vec<u8> {
    let size = seeded.one_of(&[48, 66, 133, 427, 470, 3_702]);
    seeded.bytes(size)
}

/// An index inside the bytes or past them; says in which column of the counts it belongs.
fn index_for(seeded: &mut Seeded, size: usize) -> (usize, usize) {
    let inside = if size == 0 {
        0
    } else {
        seeded.between(0, size - 1)
    };
    let last = size.saturating_sub(1);
    let past = size + seeded.between(0, 64);
    let at = seeded.one_of(&[0, 9, last, inside, inside, size, past, 1 << 32, usize::MAX]);
    (at, usize::from(at >= size))
}

fn compare_one(
    shape: &'static str,
    seed: u64,
    at: (usize, usize),
    bytes: &mut Vec<u8>,
    tally: &mut Tally,
) -> bool {
    let before = bytes.clone();
    let expected = checksum(bytes, at.0);
    let answer = unsafe { library::test_checksum(bytes.as_mut_ptr(), bytes.len(), at.0) };
    if answer == expected && *bytes == before {
        tally.count(shape, at.1);
        return true;
    }
    println!(
        "checksum: DIFFERENCE in shape '{}', seed {:#x}",
        shape, seed
    );
    println!("  size {}, at {}", bytes.len(), at.0);
    println!("  library {}, document {}", answer, expected);
    false
}

pub fn compare() -> bool {
    let mut tally = Tally::new("checksum", &["at inside", "at past"]);
    for (i, (shape, inputs, make)) in SHAPES.iter().enumerate() {
        for input in 0..*inputs {
            let seed = ((i as u64) << 32) + input as u64;
            let mut seeded = Seeded::new(seed);
            let mut bytes = make(input, &mut seeded);
            let at = index_for(&mut seeded, bytes.len());
            if !compare_one(shape, seed, at, &mut bytes, &mut tally) {
                return false;
            }
        }
    }
    tally.print();
    tally.is_enough(LEAST_INPUTS)
}
