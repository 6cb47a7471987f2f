//! Times the rebuild beside the library's own check and build of the same record, and beside a twin in Rust:
//! a common table, one with eight targets, and the worst ones without extras and with them. As of the build,
//! the best of four copies counts, each 16 bytes further on.

use crate::best_times;
use crate::call::library::Build;
use crate::make::record::{worst_record, worst_record_with_extras, Given};
use crate::make::table::{common_table, table_with_targets};
use crate::model::record_range::range_of;

type Check = unsafe extern "C" fn(*const u8, usize) -> u64;
type Rebuild = unsafe extern "C" fn(*const u8, usize, *mut u8, usize) -> u64;

macro_rules! calls {
    ($check:ident $build:ident $rebuild:ident $twin:ident) => {
        extern "C" {
            fn $check(table: *const u8, size: usize) -> u64;
            fn $build(
                record: *const u8,
                record_size: usize,
                strings: *const u8,
                strings_size: usize,
                room: *mut u8,
                room_size: usize,
            ) -> u64;
            fn $rebuild(table: *const u8, size: usize, room: *mut u8, room_size: usize) -> u64;
            fn $twin(table: *const u8, size: usize, room: *mut u8, room_size: usize) -> u64;
        }
    };
}

calls! { ibft_check_0 ibft_build_0 ibft_rebuild_0 rust_rebuild_0 }
calls! { ibft_check_16 ibft_build_16 ibft_rebuild_16 rust_rebuild_16 }
calls! { ibft_check_32 ibft_build_32 ibft_rebuild_32 rust_rebuild_32 }
calls! { ibft_check_48 ibft_build_48 ibft_rebuild_48 rust_rebuild_48 }

/// One copy of each call.
struct Copies {
    check: Check,
    build: Build,
    rebuild: Rebuild,
    twin: Rebuild,
}

static COPIES: [Copies; 4] = [
    Copies {
        check: ibft_check_0,
        build: ibft_build_0,
        rebuild: ibft_rebuild_0,
        twin: rust_rebuild_0,
    },
    Copies {
        check: ibft_check_16,
        build: ibft_build_16,
        rebuild: ibft_rebuild_16,
        twin: rust_rebuild_16,
    },
    Copies {
        check: ibft_check_32,
        build: ibft_build_32,
        rebuild: ibft_rebuild_32,
        twin: rust_rebuild_32,
    },
    Copies {
        check: ibft_check_48,
        build: ibft_build_48,
        rebuild: ibft_rebuild_48,
        twin: rust_rebuild_48,
    },
];

const CONTENDERS: [&str; 3] = ["rebuild", "check and build", "Rust twin"];

const ROOM_SIZE: usize = 16_384;

/// A table, and the record range of what it holds; its strings are the table's.
struct Lent<'a> {
    table: &'a [u8],
    range: Vec<u8>,
}

fn rebuild_by(copies: &Copies, contender: usize, lent: &Lent, room: *mut u8) -> u64 {
    let (table, size) = (lent.table.as_ptr(), lent.table.len());
    let (range, range_size) = (lent.range.as_ptr(), lent.range.len());
    unsafe {
        match contender {
            0 => std::ptr::read_volatile(&copies.rebuild)(table, size, room, ROOM_SIZE),
            1 => match std::ptr::read_volatile(&copies.check)(table, size) {
                0 => {
                    let build = std::ptr::read_volatile(&copies.build);
                    build(range, range_size, table, size, room, ROOM_SIZE)
                }
                refusal => refusal,
            },
            _ => std::ptr::read_volatile(&copies.twin)(table, size, room, ROOM_SIZE),
        }
    }
}

fn measure_rebuild(what: &str, calls: usize, table: &[u8]) {
    let range = range_of(table);
    let lent = Lent { table, range };
    let mut room = vec![0xA5; ROOM_SIZE];
    let answer = rebuild_by(&COPIES[0], 0, &lent, room.as_mut_ptr());
    let what = format!(
        "{}, {} bytes rebuilt to {}",
        what,
        table.len(),
        answer >> 32
    );
    let mut best = [f64::INFINITY; 3];
    for copies in &COPIES {
        for contender in 0..3 {
            let mut other = vec![0xA5; ROOM_SIZE];
            let other_answer = rebuild_by(copies, contender, &lent, other.as_mut_ptr());
            if other_answer != answer || other != room {
                println!(
                    "{}: {}: another table: no comparison",
                    what, CONTENDERS[contender]
                );
                return;
            }
        }
        let mut room = room.clone();
        let room = room.as_mut_ptr();
        let times = best_times(300, calls, |c| rebuild_by(copies, c, &lent, room));
        for (best, time) in best.iter_mut().zip(times) {
            *best = best.min(time);
        }
    }
    println!("{}", what);
    for (name, time) in CONTENDERS.iter().zip(best) {
        println!("  {:<15} {:>12.1} ns", name, time);
    }
    println!(
        "  rebuild / check and build {:.2}, rebuild / Rust twin {:.2}",
        best[0] / best[1],
        best[0] / best[2]
    );
}

/// The library's table of a record.
fn table_of(given: &Given) -> Vec<u8> {
    let (record, strings) = (&given.record, given.strings());
    let mut room = vec![0; ROOM_SIZE];
    let answer = unsafe {
        ibft_build_0(
            record.as_ptr(),
            record.len(),
            strings.as_ptr(),
            strings.len(),
            room.as_mut_ptr(),
            ROOM_SIZE,
        )
    };
    room.truncate((answer >> 32) as usize);
    room
}

pub fn measure_rebuilds() {
    measure_rebuild("rebuild of the common table", 100, &common_table().bytes);
    let targets = table_with_targets(8);
    measure_rebuild("rebuild of a table with 8 targets", 20, &targets.bytes);
    let worst = table_of(&worst_record());
    measure_rebuild("rebuild of the worst table", 10, &worst);
    let worst = table_of(&worst_record_with_extras());
    measure_rebuild("rebuild of the worst table with extras", 2, &worst);
}
