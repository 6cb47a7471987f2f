//! Times the comparison of two tables beside a twin in Rust: the number of differences, beside both checks alone; and
//! all differences one by one, by number as the library has them, by number from the twin, and from the twin in one
//! walk. Of common tables and full ones, the same and different.

use crate::best_times;
use crate::call::library;
use crate::make::table::*;
use crate::twin::compare::{digest, rust_compare, rust_difference, rust_walk, LAID_SIZE};

type Compare = unsafe extern "C" fn(*const u8, usize, *const u8, usize) -> u64;
type Difference = unsafe extern "C" fn(*const u8, usize, *const u8, usize, u16, *mut u8, usize) -> u64;

static COMPARES: [Compare; 3] = [library::test_compare, rust_compare, both_checks];
static DIFFERENCES: [Difference; 2] = [library::test_difference, rust_difference];
static WALK: Compare = rust_walk;

const COMPARE_CONTENDERS: [&str; 3] = ["library", "Rust twin", "both checks"];
const WALK_CONTENDERS: [&str; 3] = ["library", "Rust twin", "Rust twin's walk"];

/// What every comparison begins with, by the library.
unsafe extern "C" fn both_checks(
    left: *const u8,
    left_size: usize,
    right: *const u8,
    right_size: usize,
) -> u64 {
    library::ibft_check(left, left_size) | library::ibft_check(right, right_size)
}

/// Two tables.
struct Pair {
    what: String,
    left: Vec<u8>,
    right: Vec<u8>,
}

fn compare_by(contender: usize, pair: &Pair) -> u64 {
    unsafe {
        let compare = std::ptr::read_volatile(&COMPARES[contender]);
        compare(
            pair.left.as_ptr(),
            pair.left.len(),
            pair.right.as_ptr(),
            pair.right.len(),
        )
    }
}

/// All differences, from the first to the last: their digests together.
fn walk_by_number(contender: usize, pair: &Pair, count: u16) -> u64 {
    let mut digests = 0u64;
    let mut out = [0; LAID_SIZE];
    for k in 0..count {
        unsafe {
            let difference = std::ptr::read_volatile(&DIFFERENCES[contender]);
            difference(
                pair.left.as_ptr(),
                pair.left.len(),
                pair.right.as_ptr(),
                pair.right.len(),
                k,
                out.as_mut_ptr(),
                LAID_SIZE,
            );
        }
        digests = digests.wrapping_mul(31).wrapping_add(digest(&out));
    }
    digests
}

fn walk_by(contender: usize, pair: &Pair, count: u16) -> u64 {
    match contender {
        2 => unsafe {
            let walk = std::ptr::read_volatile(&WALK);
            walk(
                pair.left.as_ptr(),
                pair.left.len(),
                pair.right.as_ptr(),
                pair.right.len(),
            )
        },
        contender => walk_by_number(contender, pair, count),
    }
}

fn print_times(what: &str, contenders: &[&str; 3], best: [f64; 3]) {
    println!("{}", what);
    for (name, time) in contenders.iter().zip(best) {
        println!("  {:<16} {:>12.1} ns", name, time);
    }
    println!(
        "  library / {} {:.2}, library / {} {:.2}",
        contenders[1],
        best[0] / best[1],
        contenders[2],
        best[0] / best[2]
    );
}

fn measure_pair(pair: &Pair, calls: usize) {
    let answer = compare_by(0, pair);
    let count = (answer >> 48) as u16;
    let what = format!(
        "{}, {} and {} bytes, differences: {}",
        pair.what,
        pair.left.len(),
        pair.right.len(),
        count
    );
    let walks = [0, 1, 2].map(|contender| walk_by(contender, pair, count));
    if compare_by(1, pair) != answer || walks != [walks[0]; 3] {
        println!("compare of {}: the answers differ: no comparison", what);
        return;
    }
    let best = best_times(300, calls, |contender| compare_by(contender, pair));
    print_times(&format!("compare of {}", what), &COMPARE_CONTENDERS, best);
    if count > 0 {
        let calls = calls.div_ceil(usize::from(count));
        let best = best_times(100, calls, |contender| walk_by(contender, pair, count));
        print_times(&format!("all differences of {}", what), &WALK_CONTENDERS, best);
    }
}

/// The table with another byte in each field of each structure, in each string and in the header: as many differences
/// as there can be.
fn all_changed(table: &Table) -> Vec<u8> {
    let mut changed = table.clone();
    changed.bytes[10] ^= 1;
    changed.bytes[16] ^= 1;
    changed.bytes[53] ^= 1;
    for word in table.used_words() {
        let (start, kind) = (table.start(word), table.kind(word));
        let fields: &[usize] = match kind.id {
            2 => &[5, 6, 22, 38, 54],
            3 => &[5, 6, 22, 23, 24, 40, 56, 72, 88, 90, 96],
            _ => &[5, 6, 22, 24, 32, 33],
        };
        for at in fields {
            changed.bytes[start + at] ^= 1;
        }
    }
    for entry in table.owned_entries() {
        let field = table.entry_field(entry).unwrap();
        let (size, offset) = (table.word(field), table.word(field + 2));
        if size > 0 {
            // The last byte is a letter or a digit, and so is this.
            let last = &mut changed.bytes[offset + size - 1];
            *last = if *last == b'x' { b'y' } else { b'x' };
        }
    }
    changed.mended().bytes
}

/// The table with another last byte of its last string: one difference, at the end of the list.
fn last_changed(table: &Table) -> Vec<u8> {
    let mut changed = table.clone();
    let fields = table
        .owned_entries()
        .into_iter()
        .filter_map(|entry| table.entry_field(entry));
    let field = fields.filter(|field| table.word(*field) > 0).last().unwrap();
    changed.bytes[table.word(field) + table.word(field + 2) - 1] ^= 1;
    changed.mended().bytes
}

fn measure_table(what: &str, table: &Table, calls: usize) {
    let others = [
        ("itself", table.bytes.clone()),
        ("one difference", last_changed(table)),
        ("all different", all_changed(table)),
    ];
    for (other, right) in others {
        let pair = Pair {
            what: format!("{}, {}", what, other),
            left: table.bytes.clone(),
            right,
        };
        measure_pair(&pair, calls);
    }
}

pub fn measure_compares() {
    measure_table("the common table", &common_table(), 200);
    measure_table("a table with 8 targets", &table_with_targets(8), 50);
    measure_table("all structures and strings", &full_table_with_extras(), 50);
    measure_table("the largest table with extras", &largest_table_with_extras(), 20);
}
