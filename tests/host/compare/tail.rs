//! The tail test as compiled (`test_common_tail`, `test_is_tail`), held to model/tail.rs: on two strings that
//! lie in one range, each in either order.

use crate::call::library;
use crate::make::seeded::Seeded;
use crate::model::tail::{agreement, is_tail};
use crate::tally::answers::Tally;

const LEAST_INPUTS: usize = 300_000;
const LONGEST: usize = 260;

/// Two parts of one range, each as its start and size.
struct Pair {
    range: Vec<u8>,
    a: (usize, usize),
    b: (usize, usize),
}

/// A name, how many inputs, and how number `n` of them is made.
type Shape = (&'static str, usize, fn(usize, &mut Seeded) -> Pair);

const SHAPES: &[Shape] = &[
    ("each size and agreement to 72", 73 * 73, sizes_to_72),
    ("one byte differs", 60_000, one_byte_differs),
    ("a tail", 30_000, a_tail),
    ("equal", 10_000, equal),
    ("random bytes of two kinds", 30_000, two_kinds),
    ("parts that overlap", 30_000, overlapping),
];

/// The strings one after the other, with other bytes before, between and behind them.
fn apart(a: &[u8], b: &[u8], seeded: &mut Seeded) -> Pair {
    let (before, between) = (seeded.between(0, 33), seeded.between(0, 33));
    let mut range = seeded.bytes(before);
    let a_start = range.len();
    range.extend_from_slice(a);
    range.extend(seeded.bytes(between));
    let b_start = range.len();
    range.extend_from_slice(b);
    range.extend(seeded.bytes(3));
    Pair {
        range,
        a: (a_start, a.len()),
        b: (b_start, b.len()),
    }
}

/// Strings of `a_size` and `b_size` bytes of which the last `agreement` are the same, and the byte before
/// them is not.
fn agreeing(a_size: usize, b_size: usize, agreement: usize, seeded: &mut Seeded) -> Pair {
    let (mut a, mut b) = (seeded.bytes(a_size), seeded.bytes(b_size));
    for n in 1..=agreement {
        b[b_size - n] = a[a_size - n];
    }
    if agreement < a_size && agreement < b_size {
        let (i, j) = (a_size - agreement - 1, b_size - agreement - 1);
        a[i] = b[j] ^ 1 << seeded.between(0, 7);
    }
    apart(&a, &b, seeded)
}

fn sizes_to_72(n: usize, seeded: &mut Seeded) -> Pair {
    let (size, agreement) = (n / 73, n % 73);
    let longer = agreement.max(size) + seeded.between(0, 2);
    agreeing(size.max(agreement), longer, agreement, seeded)
}

/// Equal from the back but for one byte: at the front, at a block's edge, anywhere.
fn one_byte_differs(_: usize, seeded: &mut Seeded) -> Pair {
    let size = seeded.between(1, LONGEST);
    let longer = size + seeded.one_of(&[0, 0, 1, 8, 31, 32, 33]);
    let anywhere = seeded.between(0, size - 1);
    let at = seeded.one_of(&[0, 7, 8, 9, 31, 32, 33, 40, 63, 64, size - 1, anywhere]);
    agreeing(size, longer, at.min(size - 1), seeded)
}

fn a_tail(_: usize, seeded: &mut Seeded) -> Pair {
    let size = seeded.between(0, LONGEST);
    let longer = size + seeded.between(0, 40);
    agreeing(size, longer, size, seeded)
}

fn equal(_: usize, seeded: &mut Seeded) -> Pair {
    let size = seeded.between(0, LONGEST);
    agreeing(size, size, size, seeded)
}

/// Bytes of which there are two kinds, so that strings agree in some bytes by chance.
fn two_kinds(_: usize, seeded: &mut Seeded) -> Pair {
    let kinds = seeded.bytes(2);
    let (a_size, b_size) = (seeded.between(0, 40), seeded.between(0, 40));
    let mut text = |size| (0..size).map(|_| seeded.one_of(&kinds)).collect::<Vec<u8>>();
    let (a, b) = (text(a_size), text(b_size));
    apart(&a, &b, seeded)
}

/// Parts of one range that lie over each other, of bytes that come again: the last bytes of one may be
/// bytes of the other.
fn overlapping(_: usize, seeded: &mut Seeded) -> Pair {
    let period = seeded.between(1, 12);
    let bytes = seeded.bytes(period);
    let size = seeded.between(1, LONGEST);
    let range: Vec<u8> = (0..size).map(|i| bytes[i % period]).collect();
    let mut part = || {
        let start = seeded.between(0, size);
        (start, seeded.between(0, size - start))
    };
    let (a, b) = (part(), part());
    Pair { range, a, b }
}

fn compare_one(shape: &'static str, seed: u64, pair: &Pair, tally: &mut Tally) -> bool {
    let a = &pair.range[pair.a.0..pair.a.0 + pair.a.1];
    let b = &pair.range[pair.b.0..pair.b.0 + pair.b.1];
    let before = pair.range.clone();
    let expected = (agreement(a, b), u8::from(is_tail(a, b)));
    let answer = unsafe {
        (
            library::test_common_tail(a.as_ptr(), a.len(), b.as_ptr(), b.len()),
            library::test_is_tail(a.as_ptr(), a.len(), b.as_ptr(), b.len()),
        )
    };
    if answer == expected && pair.range == before {
        let shorter = a.len().min(b.len());
        let kind = match expected {
            (_, 1) => 3,
            (n, _) if n == shorter => 2,
            (0, _) => 0,
            _ => 1,
        };
        tally.count(shape, kind);
        return true;
    }
    println!("tail: DIFFERENCE in shape '{}', seed {:#x}", shape, seed);
    println!("  \"{}\"", a.escape_ascii());
    println!("  \"{}\"", b.escape_ascii());
    println!("  library {:?}, document {:?}", answer, expected);
    false
}

pub fn compare() -> bool {
    let mut tally = Tally::new("tail", &["none", "some", "all of b", "a is tail"]);
    for (i, (shape, inputs, make)) in SHAPES.iter().enumerate() {
        for input in 0..*inputs {
            let seed = ((i as u64) << 32) + input as u64;
            let pair = make(input, &mut Seeded::new(seed));
            let turned = Pair {
                range: pair.range.clone(),
                a: pair.b,
                b: pair.a,
            };
            if !compare_one(shape, seed, &pair, &mut tally)
                || !compare_one(shape, seed, &turned, &mut tally)
            {
                return false;
            }
        }
    }
    tally.print();
    tally.is_enough(LEAST_INPUTS)
}
