//! Times check and write of an aBFT and an sBFT beside their twins, on tables as they are written and on an sBFT
//! whose parts stand as far up as can be.

use crate::call::library::{self, Check, Write};
use crate::twin::families::{rust_abft_check, rust_abft_write, rust_sbft_check, rust_sbft_write};
use crate::{measure, with_wrong_sum};

extern "C" {
    fn c_abft_check(table: *const u8, table_size: usize) -> u64;
    fn c_sbft_check(table: *const u8, table_size: usize) -> u64;
    fn c_abft_write(image: *const u8, image_size: usize, room: *mut u8, room_size: usize) -> u64;
    fn c_sbft_write(image: *const u8, image_size: usize, room: *mut u8, room_size: usize) -> u64;
}

static ABFT_CHECKS: [Check; 3] = [library::abft_check, c_abft_check, rust_abft_check];
static SBFT_CHECKS: [Check; 3] = [library::sbft_check, c_sbft_check, rust_sbft_check];
static ABFT_WRITES: [Write; 3] = [library::abft_write, c_abft_write, rust_abft_write];
static SBFT_WRITES: [Write; 3] = [library::sbft_write, c_sbft_write, rust_sbft_write];

const ABFT_SIZE: usize = 46;
const SBFT_SIZE: usize = 136;
const LAST_OFFSET: u16 = 0xFFFF;

fn check_by(check: &Check, table: &[u8]) -> u64 {
    unsafe {
        let check = std::ptr::read_volatile(check);
        check(table.as_ptr(), table.len())
    }
}

fn write_by(write: &Write, image: &[u8], room: *mut u8, room_size: usize) -> u64 {
    unsafe {
        let write = std::ptr::read_volatile(write);
        write(image.as_ptr(), image.len(), room, room_size)
    }
}

fn measure_check(what: &str, checks: &[Check; 3], calls: usize, table: &[u8]) {
    let what = format!("check of {}, {} bytes", what, table.len());
    measure(&what, 1_000, calls, |c| check_by(&checks[c], table));
}

fn measure_write(what: &str, writes: &[Write; 3], image: &[u8]) {
    let written = |c: usize| {
        let mut room = [0xA5; 2 * SBFT_SIZE];
        write_by(&writes[c], image, room.as_mut_ptr(), room.len());
        room
    };
    if written(1) != written(0) || written(2) != written(0) {
        println!("write of {}: the tables differ: no comparison", what);
        return;
    }
    let mut room = [0; 2 * SBFT_SIZE];
    let (first, size) = (room.as_mut_ptr(), room.len());
    let what = format!("write of {}", what);
    measure(&what, 1_000, 2_000, |c| write_by(&writes[c], image, first, size));
}

/// Something in every field; the OEM fields full.
fn image(size: usize) -> Vec<u8> {
    (0..size).map(|at| 1 + at as u8 % 200).collect()
}

/// The table of an image, by the Rust twin.
fn table(write: Write, image: &[u8]) -> Vec<u8> {
    let mut room = vec![0; SBFT_SIZE];
    let answer = write_by(&write, image, room.as_mut_ptr(), room.len());
    room.truncate((answer >> 32) as usize);
    room
}

/// The sBFT with its IB part at the greatest offset.
fn far_sbft(near: &[u8]) -> Vec<u8> {
    let mut far = near.to_vec();
    let ib = far.split_off(SBFT_SIZE - 48);
    far.resize(usize::from(LAST_OFFSET), 1);
    far.extend(ib);
    let length = far.len() as u32;
    far[4..8].copy_from_slice(&length.to_le_bytes());
    far[40..42].copy_from_slice(&LAST_OFFSET.to_le_bytes());
    let sum = far.iter().fold(0u8, |sum, byte| sum.wrapping_add(*byte));
    far[9] = far[9].wrapping_sub(sum);
    far
}

pub fn measure_families() {
    let (abft_image, sbft_image) = (image(ABFT_SIZE), image(SBFT_SIZE));
    let abft = table(rust_abft_write, &abft_image);
    let sbft = table(rust_sbft_write, &sbft_image);
    measure_check("an aBFT", &ABFT_CHECKS, 2_000, &abft);
    measure_check("an sBFT", &SBFT_CHECKS, 2_000, &sbft);
    measure_check(
        "an aBFT with a wrong sum",
        &ABFT_CHECKS,
        2_000,
        &with_wrong_sum(&abft),
    );
    measure_check(
        "an sBFT with a wrong sum",
        &SBFT_CHECKS,
        2_000,
        &with_wrong_sum(&sbft),
    );
    measure_check(
        "an sBFT with its IB part far up",
        &SBFT_CHECKS,
        20,
        &far_sbft(&sbft),
    );
    measure_write("an aBFT, 46 bytes", &ABFT_WRITES, &abft_image);
    measure_write("an sBFT, 136 bytes", &SBFT_WRITES, &sbft_image);
    let mut without_ib = sbft_image;
    without_ib[40..42].fill(0);
    measure_write("an sBFT without IB part, 88 bytes", &SBFT_WRITES, &without_ib);
}
