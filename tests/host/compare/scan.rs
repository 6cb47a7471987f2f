//! `ibft_scan` held to the reading of RULES.md in model/scan.rs, on inputs of many shapes.

use crate::call::library;
use crate::lent::memory::{LentMemory, HEADER, WINDOW_END, WINDOW_START};
use crate::make::seeded::Seeded;
use crate::model::answer::{in_words, number};
use crate::model::scan::IBFT;
use crate::tally::answers::Tally;

const LEAST_INPUTS: usize = 100_000;

/// Inputs of a shape: where the memory is some hundred bytes, and where it is the whole window.
const MANY: usize = 10_000;
const FEW: usize = 300;

/// A name, how many inputs, and how one is made.
type Shape = (&'static str, usize, fn(&mut Seeded) -> LentMemory);

const SHAPES: &[Shape] = &[
    ("empty memory", MANY, empty_memory),
    ("random bytes", MANY, random_bytes),
    ("random signatures and Lengths", MANY, random_words),
    ("one table", MANY, one_table),
    ("each address modulo 16", MANY, unaligned_start),
    ("table at unaligned place", MANY, unaligned_place),
    ("below the window", MANY, below_window),
    ("across the window's start", MANY, across_window_start),
    ("up to the window's end", MANY, up_to_window_end),
    ("past the window", MANY, past_window),
    ("address + size past 2^64", MANY, past_all_addresses),
    ("wraps round into the window", FEW, wraps_into_window),
    ("several tables", MANY, several_tables),
    ("bad sum below a good table", MANY, bad_sum_below),
    ("Length at its limits", MANY, length_at_limits),
    ("table fills the window", FEW, fills_window),
    ("table cut by the end", MANY, table_cut),
    ("header cut by the end", MANY, header_cut),
    ("overlapping tables", MANY, overlapping_tables),
    ("table inside a table", MANY, nested_tables),
    ("signature nearly right", MANY, near_signature),
    ("some of each", MANY, some_of_each),
];

/// An address from which `size` bytes lie in the window.
fn in_window(seeded: &mut Seeded, size: usize) -> u64 {
    WINDOW_START + seeded.between(0, (WINDOW_END - WINDOW_START) as usize - size) as u64
}

/// Some hundred bytes in the window.
fn small_memory(seeded: &mut Seeded) -> LentMemory {
    let size = seeded.between(300, 1200);
    let address = in_window(seeded, size);
    LentMemory::new(seeded, address, size)
}

fn small_length(seeded: &mut Seeded) -> usize {
    seeded.between(HEADER, 160)
}

fn empty_memory(seeded: &mut Seeded) -> LentMemory {
    let near = [
        0,
        1,
        WINDOW_START - 1,
        WINDOW_START,
        WINDOW_END - 1,
        WINDOW_END,
        WINDOW_END + 1,
        1 << 32,
        u64::MAX,
    ];
    let address = match seeded.between(0, 2) {
        0 => seeded.next(),
        1 => seeded.between(0, 2 * WINDOW_END as usize) as u64,
        _ => seeded.one_of(&near),
    };
    LentMemory::empty(seeded, address)
}

fn random_bytes(seeded: &mut Seeded) -> LentMemory {
    let size = seeded.between(0, 1200);
    let address = seeded.between(0, WINDOW_END as usize + 64) as u64;
    let mut memory = LentMemory::new(seeded, address, size);
    let bytes = seeded.bytes(size);
    memory.write(0, &bytes);
    memory
}

/// Signatures and small Lengths strewn at multiples of four.
fn random_words(seeded: &mut Seeded) -> LentMemory {
    let mut memory = small_memory(seeded);
    let mut offset = memory.align(0);
    while offset < memory.end() {
        let random = seeded.next() as u32;
        let word = seeded.one_of(&[u32::from_le_bytes(*b"iBFT"), 48, 64, 0, random]);
        memory.write(offset, &word.to_le_bytes());
        offset += 4;
    }
    memory
}

fn one_table(seeded: &mut Seeded) -> LentMemory {
    let mut memory = small_memory(seeded);
    let length = seeded.between(HEADER, memory.size - 16);
    let place = memory.aligned_place(seeded, length);
    memory.lay(place, length);
    memory
}

/// A table may stand at a multiple of 16 from the first lent byte, which is right only where the
/// address is one too, or start just before the lent bytes; a good one may stand above it.
fn unaligned_start(seeded: &mut Seeded) -> LentMemory {
    let size = seeded.between(300, 1200);
    let address = in_window(seeded, size + 16) / 16 * 16 + seeded.between(0, 15) as u64;
    let mut memory = LentMemory::new(seeded, address, size);
    let length = small_length(seeded);
    let first = memory.align(0);
    match seeded.between(0, 2) {
        0 => memory.lay(0, length),
        1 => memory.lay(first - 16, length),
        _ => {}
    }
    if seeded.once_in(2) {
        memory.lay(first + 16 * seeded.between(1, 8) as isize, length);
    }
    memory
}

fn unaligned_place(seeded: &mut Seeded) -> LentMemory {
    let mut memory = small_memory(seeded);
    let length = small_length(seeded);
    let place = memory.aligned_place(seeded, length + 16) + seeded.between(1, 15) as isize;
    memory.lay(place, length);
    if seeded.once_in(4) {
        let place = memory.aligned_place(seeded, length);
        memory.lay(place, length);
    }
    memory
}

fn below_window(seeded: &mut Seeded) -> LentMemory {
    let size = seeded.between(300, 1200);
    let last = WINDOW_START as usize - size;
    let address = seeded.one_of(&[0, last / 2, last - 1, last]) as u64;
    let mut memory = LentMemory::new(seeded, address, size);
    let length = small_length(seeded);
    let place = memory.aligned_place(seeded, length);
    memory.lay(place, length);
    memory
}

/// Tables that start below the window, reach into it, or start with it.
fn across_window_start(seeded: &mut Seeded) -> LentMemory {
    let below = seeded.between(1, 300);
    let size = below + seeded.between(0, 400);
    let mut memory = LentMemory::new(seeded, WINDOW_START - below as u64, size);
    for _ in 0..seeded.between(1, 3) {
        let length = small_length(seeded);
        let steps = seeded.between(0, 20) as isize - 15;
        memory.lay(
            below as isize + 16 * steps.max(-(below as isize / 16)),
            length,
        );
    }
    memory
}

/// The lent bytes end with the window or a little below; a table ends there, before it or past it.
fn up_to_window_end(seeded: &mut Seeded) -> LentMemory {
    let end = WINDOW_END - seeded.one_of(&[0, 0, 1, 2, 15, 16, 17]);
    let size = seeded.between(200, 700);
    let mut memory = LentMemory::new(seeded, end - size as u64, size);
    let place = memory.align(memory.end() - seeded.between(HEADER, 180) as isize);
    let left = (memory.end() - place) as usize;
    let length = seeded.one_of(&[left, left, left + 1, left - 1, left + 16]);
    memory.lay(place, length);
    memory
}

/// A sound table, and lent bytes that go on past the window or start past it.
fn past_window(seeded: &mut Seeded) -> LentMemory {
    let size = seeded.between(300, 1200);
    let within = WINDOW_END - size as u64;
    let near = within + seeded.between(0, 3) as u64;
    let far = seeded.next() % (u64::MAX - 2 * WINDOW_END) + WINDOW_END;
    let address = seeded.one_of(&[
        near,
        near,
        within + 16,
        WINDOW_END - 16,
        WINDOW_END,
        WINDOW_END + 16,
        1 << 32,
        far,
    ]);
    let mut memory = LentMemory::new(seeded, address, size);
    let length = small_length(seeded);
    let place = memory.aligned_place(seeded, length);
    memory.lay(place, length);
    memory
}

/// Address and size sum to 2^64 or some bytes more.
fn past_all_addresses(seeded: &mut Seeded) -> LentMemory {
    let size = seeded.between(300, 1200);
    let beyond = seeded.between(0, size - 1);
    let more = seeded.one_of(&[0, 1, 2, 16, beyond, size - 1]) as u64;
    let address = u64::MAX - size as u64 + 1 + more;
    let mut memory = LentMemory::new(seeded, address, size);
    let length = small_length(seeded);
    let place = memory.aligned_place(seeded, length);
    memory.lay(place, length);
    memory
}

/// Address and size sum to 2^64 and a little more than the window's start: taken modulo 2^64 the
/// lent bytes would end in the window, with a sound table there.
fn wraps_into_window(seeded: &mut Seeded) -> LentMemory {
    let before_wrap = 16 * seeded.between(1, 40);
    let size = before_wrap + WINDOW_START as usize + seeded.between(300, 1200);
    let address = (before_wrap as u64).wrapping_neg();
    let mut memory = LentMemory::new(seeded, address, size);
    let length = small_length(seeded);
    memory.lay((before_wrap + WINDOW_START as usize) as isize, length);
    memory
}

fn several_tables(seeded: &mut Seeded) -> LentMemory {
    let mut memory = small_memory(seeded);
    let mut place = memory.align(16 * seeded.between(0, 4) as isize);
    while place + (HEADER as isize) < memory.end() {
        let length = small_length(seeded);
        memory.lay(place, length);
        if seeded.once_in(2) {
            memory.spoil(seeded, place);
        }
        place = memory.align(place + length as isize) + 16 * seeded.between(0, 6) as isize;
    }
    memory
}

fn bad_sum_below(seeded: &mut Seeded) -> LentMemory {
    let mut memory = small_memory(seeded);
    let bad_length = seeded.between(HEADER, 96);
    let bad = memory.align(16 * seeded.between(0, 3) as isize);
    memory.lay(bad, bad_length);
    memory.spoil(seeded, bad);
    let good_length = seeded.between(HEADER, 128);
    let good = memory.align(bad + bad_length as isize) + 16 * seeded.between(0, 3) as isize;
    memory.lay(good, good_length);
    memory
}

/// The sum is right over what is claimed, or over the lent bytes where more is claimed: the Length
/// field alone decides.
fn length_at_limits(seeded: &mut Seeded) -> LentMemory {
    let mut memory = small_memory(seeded);
    let place = memory.aligned_place(seeded, 160);
    let left = (memory.end() - place) as u32;
    let address = memory.address as u32 + place as u32;
    let near_least = [0, 1, 16, 46, 47, 48, 49, 65, 66];
    let near_left = [left - 1, left, left + 1, left + 16];
    let huge = [u32::MAX, u32::MAX - 15, 1 << 31, 0x10000 + 48];
    // Added to the address or to the offset these are 64 modulo 2^32.
    let wrapping = [
        64u32.wrapping_sub(address),
        64u32.wrapping_sub(place as u32),
    ];
    let claimed = match seeded.between(0, 3) {
        0 => seeded.one_of(&near_least),
        1 => seeded.one_of(&near_left),
        2 => seeded.one_of(&huge),
        _ => seeded.one_of(&wrapping),
    };
    let summed = seeded.one_of(&[claimed, claimed.min(left)]);
    memory.lay_claiming(place, claimed, summed as usize);
    memory
}

/// A table from near the window's start up to its last byte, or one byte shorter or longer.
fn fills_window(seeded: &mut Seeded) -> LentMemory {
    let below = seeded.between(0, 40);
    let size = below + (WINDOW_END - WINDOW_START) as usize;
    let mut memory = LentMemory::new(seeded, WINDOW_START - below as u64, size);
    let place = below as isize + 16 * seeded.one_of(&[0, 0, 1, 5]);
    let left = (memory.end() - place) as usize;
    let length = seeded.one_of(&[left, left, left, left - 1, left + 1]);
    memory.lay(place, length);
    if seeded.once_in(3) {
        memory.spoil(seeded, place);
    }
    memory
}

/// The table's last bytes stand behind the lent ones. Its sum is right over all of it, or over the
/// lent part.
fn table_cut(seeded: &mut Seeded) -> LentMemory {
    let mut memory = small_memory(seeded);
    let place = memory.aligned_place(seeded, HEADER);
    let left = (memory.end() - place) as usize;
    let missing = seeded.one_of(&[0, 1, 1, 2, 16, 100]);
    let summed = seeded.one_of(&[left, left + missing]);
    memory.lay_claiming(place, (left + missing) as u32, summed);
    memory
}

/// The lent bytes end inside the signature, the Length field or the rest of the header, or with it.
fn header_cut(seeded: &mut Seeded) -> LentMemory {
    let mut memory = small_memory(seeded);
    let kept = seeded.between(0, HEADER + 2);
    let place = memory.align(memory.end() - kept as isize);
    memory.size = (place + kept as isize) as usize;
    let length = seeded.one_of(&[HEADER, HEADER, HEADER + 1, 66, 160]);
    memory.lay(place, length);
    if seeded.once_in(4) {
        memory.lay(memory.align(0), HEADER);
    }
    memory
}

/// Two tables, the upper starting inside the lower and ending past it; both sums right, or one
/// spoiled. The checksum byte of the lower is no byte of the upper.
fn overlapping_tables(seeded: &mut Seeded) -> LentMemory {
    let mut memory = small_memory(seeded);
    let lower = memory.aligned_place(seeded, 300);
    let apart = 16 * seeded.between(1, 6);
    let lower_length = apart + seeded.between(HEADER, 90);
    let upper_length = lower_length - apart + seeded.between(1, 90);
    lay_both(
        seeded,
        &mut memory,
        (lower, lower_length),
        (lower + apart as isize, upper_length),
    );
    memory
}

fn nested_tables(seeded: &mut Seeded) -> LentMemory {
    let mut memory = small_memory(seeded);
    let outer = memory.aligned_place(seeded, 300);
    let apart = 16 * seeded.between(1, 6);
    let inner_length = seeded.between(HEADER, 90);
    let outer_length = apart + inner_length + seeded.between(0, 90);
    lay_both(
        seeded,
        &mut memory,
        (outer, outer_length),
        (outer + apart as isize, inner_length),
    );
    memory
}

/// Lays the upper table first, since its bytes count in the lower one's sum.
fn lay_both(
    seeded: &mut Seeded,
    memory: &mut LentMemory,
    lower: (isize, usize),
    upper: (isize, usize),
) {
    memory.lay(upper.0, upper.1);
    if seeded.once_in(3) {
        memory.spoil(seeded, upper.0);
    }
    memory.lay(lower.0, lower.1);
    if seeded.once_in(2) {
        memory.spoil(seeded, lower.0);
    }
}

/// A sound table but for its signature: a byte changed, or the name of another table.
fn near_signature(seeded: &mut Seeded) -> LentMemory {
    let mut memory = small_memory(seeded);
    let length = small_length(seeded);
    let place = memory.aligned_place(seeded, length);
    memory.lay(place, length);
    let mut signature = seeded.one_of(&[
        *b"IBFT", *b"ibft", *b"iBFt", *b"TFBi", *b"aBFT", *b"sBFT", *b"iBFT", *b"iBFT",
    ]);
    if seeded.once_in(2) {
        signature[seeded.between(0, 3)] = seeded.byte();
    }
    memory.write(place, &signature);
    memory.balance(place, length);
    memory
}

/// Many tables over and beside each other, sums right or not, at places that are mostly aligned.
fn some_of_each(seeded: &mut Seeded) -> LentMemory {
    let size = seeded.between(100, 1200);
    let below = WINDOW_START - seeded.between(0, 200) as u64;
    let inside = in_window(seeded, size);
    let to_end = WINDOW_END - size as u64;
    let address = seeded.one_of(&[below, inside, inside, to_end, to_end, to_end + 1]);
    let mut memory = LentMemory::new(seeded, address, size);
    for _ in 0..seeded.between(1, 12) {
        let mut place = memory.aligned_place(seeded, HEADER);
        if seeded.once_in(8) {
            place += seeded.between(1, 15) as isize;
        }
        let length = seeded.one_of(&[47, 48, 49, 64, 65, 100, 200, 300]);
        memory.lay(place, length);
        if seeded.once_in(3) {
            memory.spoil(seeded, place);
        }
    }
    memory
}

/// One input: true if the library's answer is the reading's and no byte has changed.
fn compare_one(shape: &'static str, seed: u64, memory: &mut LentMemory, tally: &mut Tally) -> bool {
    let expected = IBFT.scan(memory.bytes(), memory.address);
    let (answer, kept) = memory.scanned_by(library::ibft_scan);
    if answer == expected && kept {
        tally.count(shape, number(answer) as usize);
        return true;
    }
    println!("scan: DIFFERENCE in shape '{}', seed {:#x}", shape, seed);
    println!("  address {:#x}, size {}", memory.address, memory.size);
    println!("  library  {}", in_words(answer));
    println!("  document {}", in_words(expected));
    if !kept {
        println!("  bytes of the memory have changed");
    }
    false
}

pub fn compare() -> bool {
    let mut tally = Tally::new("scan", &["found", "refused 1", "refused 2"]);
    for (i, (shape, inputs, make)) in SHAPES.iter().enumerate() {
        for input in 0..*inputs {
            let seed = ((i as u64) << 32) + input as u64;
            let mut memory = make(&mut Seeded::new(seed));
            if !compare_one(shape, seed, &mut memory, &mut tally) {
                return false;
            }
        }
    }
    tally.print();
    tally.is_enough(LEAST_INPUTS)
}
