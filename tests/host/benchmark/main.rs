//! Times the library beside plain C and Rust twins. Prints; what it measures fails nothing.
//!
//! The contenders take turns in every round and the best time of each counts, so that what else
//! the machine does weighs on all alike. Each call goes through a pointer that is read as volatile:
//! the compiler can neither inline the callee nor know that a second call answers the same.

mod build;
mod compare;
mod families;
mod rebuild;

// Of the folders that follow, what is timed here and what it needs.
#[allow(dead_code)] // the comparisons use all of these three
#[path = "../call"]
mod call {
    pub mod library;
}
#[allow(dead_code)]
#[path = "../make"]
mod make {
    pub mod record;
    pub mod seeded;
    pub mod table;
}
#[allow(dead_code)]
#[path = "../model"]
mod model {
    pub mod layout;
    pub mod record_range;
}
#[path = "../twin"]
mod twin {
    pub mod check;
    #[allow(dead_code)] // the view, which is not timed
    pub mod compare;
    pub mod families;
    pub mod scan;
}

use call::library;
use make::seeded::Seeded;
use make::table::{common_table, largest_table, largest_table_with_extras, table_with_targets};
use std::time::Instant;
use twin::check::rust_check;
use twin::scan::{rust_checksum, rust_scan};

const CONTENDERS: [&str; 3] = ["library", "C twin", "Rust twin"];

const WINDOW_START: u64 = 0x80000;
const WINDOW_SIZE: usize = 0x80000;

/// The Length that every place claims in the scan with a signature at each: a common table's.
const CLAIMED_LENGTH: u32 = 427;

extern "C" {
    fn c_scan(memory: *const u8, size: usize, address: u64) -> u64;
    fn c_checksum(bytes: *const u8, size: usize, at: usize) -> u8;
    fn c_check(table: *const u8, size: usize) -> u64;
}

type Scan = unsafe extern "C" fn(*const u8, usize, u64) -> u64;
type Checksum = unsafe extern "C" fn(*const u8, usize, usize) -> u8;
type Check = unsafe extern "C" fn(*const u8, usize) -> u64;

static SCANS: [Scan; 3] = [library::ibft_scan, c_scan, rust_scan];
static CHECKSUMS: [Checksum; 3] = [library::test_checksum, c_checksum, rust_checksum];
static CHECKS: [Check; 3] = [library::ibft_check, c_check, rust_check];

fn scan_by(contender: usize, memory: &[u8]) -> u64 {
    unsafe {
        let scan = std::ptr::read_volatile(&SCANS[contender]);
        scan(memory.as_ptr(), memory.len(), WINDOW_START)
    }
}

fn checksum_by(contender: usize, bytes: &[u8]) -> u64 {
    unsafe {
        let checksum = std::ptr::read_volatile(&CHECKSUMS[contender]);
        u64::from(checksum(bytes.as_ptr(), bytes.len(), 9))
    }
}

fn check_by(contender: usize, table: &[u8]) -> u64 {
    unsafe {
        let check = std::ptr::read_volatile(&CHECKS[contender]);
        check(table.as_ptr(), table.len())
    }
}

/// The best time of a call, in nanoseconds, for each contender.
fn best_times(rounds: usize, calls: usize, call: impl Fn(usize) -> u64) -> [f64; 3] {
    let mut best = [f64::INFINITY; 3];
    for _ in 0..rounds {
        for contender in 0..3 {
            let start = Instant::now();
            for _ in 0..calls {
                call(contender);
            }
            let time = start.elapsed().as_nanos() as f64 / calls as f64;
            best[contender] = best[contender].min(time);
        }
    }
    best
}

fn answers_agree(what: &str, call: impl Fn(usize) -> u64) -> bool {
    let answers = [call(0), call(1), call(2)];
    let agree = answers == [answers[0]; 3];
    if !agree {
        println!("{}: the answers differ, {:?}: no comparison", what, answers);
    }
    agree
}

fn print_times(what: &str, best: [f64; 3], notes: [String; 3]) {
    println!("{}", what);
    for ((name, time), note) in CONTENDERS.iter().zip(best).zip(notes) {
        println!("  {:<10} {:>12.1} ns{}", name, time, note);
    }
    println!(
        "  library / C twin {:.2}, library / Rust twin {:.2}",
        best[0] / best[1],
        best[0] / best[2]
    );
}

/// Prints the times, and gives the library's; none where the answers differ.
fn measure(what: &str, rounds: usize, calls: usize, call: impl Fn(usize) -> u64) -> Option<f64> {
    if !answers_agree(what, &call) {
        return None;
    }
    let best = best_times(rounds, calls, call);
    print_times(what, best, [String::new(), String::new(), String::new()]);
    Some(best[0])
}

/// The check of tables with 2, 4 and 8 targets, and of the largest with extras.
fn measure_checks_with_extras() {
    let mut rows = Vec::new();
    for targets in [2, 4, 8] {
        let table = table_with_targets(targets);
        let bytes = table.length();
        let what = format!("check of a table with {} targets, {} bytes", targets, bytes);
        if let Some(time) = measure(&what, 1_000, 200, |c| check_by(c, &table.bytes)) {
            rows.push((targets, bytes, time));
        }
    }
    if rows.len() == 3 {
        print_growth("check", &rows);
    }
    let table = largest_table_with_extras();
    let what = format!(
        "check of the largest table with extras, {} bytes",
        table.length()
    );
    measure(&what, 500, 50, |c| check_by(c, &table.bytes));
}

/// How the cost of a call grows with targets: the library's time for each number beside that for the
/// first, and beside the bytes.
pub fn print_growth(what: &str, rows: &[(usize, usize, f64)]) {
    let (_, first_bytes, first_time) = rows[0];
    println!("{}: how the library's time grows", what);
    for (targets, bytes, time) in rows {
        println!(
            "  {} targets and NICs, {:>5} bytes: {:>10.1} ns, {:.2} times that for 2, bytes {:.2} times",
            targets,
            bytes,
            time,
            time / first_time,
            *bytes as f64 / first_bytes as f64
        );
    }
}

/// The table with another checksum byte: the check refuses it with the byte that stood there.
pub fn with_wrong_sum(table: &[u8]) -> Vec<u8> {
    let mut wrong = table.to_vec();
    wrong[9] ^= 1;
    wrong
}

/// 512 KiB without a signature.
fn nothing_there() -> Vec<u8> {
    let mut memory = Seeded::new(1).bytes(WINDOW_SIZE);
    for place in memory.chunks_mut(16) {
        place[0] = b'-';
    }
    memory
}

/// 512 KiB with a signature at every multiple of 16. The bytes that a place claims sum to 107
/// modulo 256.
fn signature_everywhere() -> Vec<u8> {
    let mut memory = vec![0; WINDOW_SIZE];
    for place in memory.chunks_mut(16) {
        place[..4].copy_from_slice(b"iBFT");
        place[4..8].copy_from_slice(&CLAIMED_LENGTH.to_le_bytes());
    }
    memory
}

fn main() {
    let nothing = nothing_there();
    measure("scan of 512 KiB, nothing there", 400, 20, |c| {
        scan_by(c, &nothing)
    });

    let everywhere = signature_everywhere();
    let what = format!(
        "scan of 512 KiB, signature at every place, Length {}, bad sums",
        CLAIMED_LENGTH
    );
    measure(&what, 400, 2, |c| scan_by(c, &everywhere));

    for size in [427, 3_702] {
        let bytes = Seeded::new(2).bytes(size);
        measure(&format!("checksum of {} bytes", size), 1_000, 2_000, |c| {
            checksum_by(c, &bytes)
        });
    }

    for (which, table) in [("common", common_table()), ("largest", largest_table())] {
        let what = format!("check of the {} table, {} bytes", which, table.length());
        measure(&what, 1_000, 300, |c| check_by(c, &table.bytes));
        let wrong = with_wrong_sum(&table.bytes);
        let what = format!("{}, a wrong sum", what);
        measure(&what, 1_000, 300, |c| check_by(c, &wrong));
    }

    measure_checks_with_extras();
    build::measure_builds();
    rebuild::measure_rebuilds();
    compare::measure_compares();
    families::measure_families();
}
