//! Times the build beside its twins: a common record, the worst one, and one whose strings differ in the middle; then
//! records with 2, 4 and 8 targets, and the worst with extras. The twins compare tails as one would write it; on the last
//! two also from the back, byte by byte.
//!
//! The same code takes up to a quarter longer where the linker happens to lay it badly. So every build
//! stands in this program four times, each copy 16 bytes further on (tests/host/run makes them), and
//! the best of the four counts; the worst is printed beside it.

use crate::call::library::Build;
use crate::make::record::{
    common_record, middle_record, record_with_targets, worst_record, worst_record_with_extras, Given,
};
use crate::{answers_agree, best_times, print_growth, print_times};

/// The copies of a build.
type Copies = [Build; 4];

macro_rules! builds {
    ($($name:ident)*) => {
        extern "C" {
            $(fn $name(
                record: *const u8,
                record_size: usize,
                strings: *const u8,
                strings_size: usize,
                room: *mut u8,
                room_size: usize,
            ) -> u64;)*
        }
    };
}

builds! {
    ibft_build_0 ibft_build_16 ibft_build_32 ibft_build_48
    c_build_0 c_build_16 c_build_32 c_build_48
    c_build_from_back_0 c_build_from_back_16 c_build_from_back_32 c_build_from_back_48
    rust_build_0 rust_build_16 rust_build_32 rust_build_48
    rust_build_from_back_0 rust_build_from_back_16 rust_build_from_back_32 rust_build_from_back_48
}

static LIBRARY: Copies = [ibft_build_0, ibft_build_16, ibft_build_32, ibft_build_48];

static BUILDS: [Copies; 3] = [
    LIBRARY,
    [c_build_0, c_build_16, c_build_32, c_build_48],
    [rust_build_0, rust_build_16, rust_build_32, rust_build_48],
];

static BUILDS_FROM_BACK: [Copies; 3] = [
    LIBRARY,
    [
        c_build_from_back_0,
        c_build_from_back_16,
        c_build_from_back_32,
        c_build_from_back_48,
    ],
    [
        rust_build_from_back_0,
        rust_build_from_back_16,
        rust_build_from_back_32,
        rust_build_from_back_48,
    ],
];

const ROOM_SIZE: usize = 16_384;

fn build_by(build: &Build, given: &Given, room: *mut u8) -> u64 {
    let (record, strings) = (&given.record, given.strings());
    unsafe {
        let build = std::ptr::read_volatile(build);
        build(
            record.as_ptr(),
            record.len(),
            strings.as_ptr(),
            strings.len(),
            room,
            ROOM_SIZE,
        )
    }
}

/// The room after a build.
fn built_by(build: &Build, given: &Given) -> Vec<u8> {
    let mut room = vec![0xA5; ROOM_SIZE];
    build_by(build, given, room.as_mut_ptr());
    room
}

/// Prints the times, and gives the library's best; none where the answers differ.
fn measure_build(what: &str, builds: &[Copies; 3], calls: usize, given: &Given) -> Option<f64> {
    let table = built_by(&builds[0][0], given);
    if builds.iter().flatten().any(|build| built_by(build, given) != table) {
        println!("{}: the tables differ: no comparison", what);
        return None;
    }
    let mut room = vec![0; ROOM_SIZE];
    let room = room.as_mut_ptr();
    let mut best = [f64::INFINITY; 3];
    let mut worst = [0f64; 3];
    for copy in 0..4 {
        let call = |c: usize| build_by(&builds[c][copy], given, room);
        if !answers_agree(what, call) {
            return None;
        }
        for (c, time) in best_times(500, calls, call).into_iter().enumerate() {
            best[c] = best[c].min(time);
            worst[c] = worst[c].max(time);
        }
    }
    let notes = worst.map(|time| format!(", {:.1} ns where it lies worst", time));
    print_times(what, best, notes);
    Some(best[0])
}

fn measure_builds_with_extras() {
    let mut rows = Vec::new();
    for targets in [2, 4, 8] {
        let given = record_with_targets(targets);
        let bytes = built_length(&given);
        let what = format!("build of a record with {} targets, {} bytes", targets, bytes);
        if let Some(time) = measure_build(&what, &BUILDS, 40, &given) {
            rows.push((targets, bytes, time));
        }
    }
    if rows.len() == 3 {
        print_growth("build", &rows);
    }
    let worst = worst_record_with_extras();
    let what = "build of the worst record with extras, 13710 bytes";
    measure_build(what, &BUILDS, 4, &worst);
    let what = "build of that record, twins compare from the back";
    measure_build(what, &BUILDS_FROM_BACK, 4, &worst);
}

/// The Length of the C twin's table, so that a row has its bytes also where the library refuses.
fn built_length(given: &Given) -> usize {
    let mut room = vec![0; ROOM_SIZE];
    (build_by(&BUILDS[1][0], given, room.as_mut_ptr()) >> 32) as usize
}

pub fn measure_builds() {
    let (common, worst, middle) = (common_record(), worst_record(), middle_record());
    let what = "build of the common record, 414 bytes";
    measure_build(what, &BUILDS, 200, &common);
    let what = "build of the worst record, 3702 bytes";
    measure_build(what, &BUILDS, 20, &worst);
    let what = "build of the worst record, twins compare from the back";
    measure_build(what, &BUILDS_FROM_BACK, 20, &worst);
    let what = "build of a record whose strings differ in the middle, 3702 bytes";
    measure_build(what, &BUILDS, 20, &middle);
    let what = "build of that record, twins compare from the back";
    measure_build(what, &BUILDS_FROM_BACK, 20, &middle);
    measure_builds_with_extras();
}
