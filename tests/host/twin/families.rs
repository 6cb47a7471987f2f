//! Check and write of an aBFT and an sBFT as one would write them in Rust, for the benchmark. They are called
//! through C's types, as the library is.

use super::check::{check_sum, has_zero_tail, refused, word, Refusal};
use super::scan::sum;

const ABFT_SIZE: usize = 46;
const SBFT_START: usize = 48;
const SBFT_SIZE: usize = 136;
const SBFT_WITHOUT_IB: usize = 88;

/// The parts of an sBFT: where the offset stands, and the size.
const PARTS: [(usize, usize); 3] = [(36, 8), (38, 32), (40, 48)];

pub unsafe extern "C" fn rust_abft_check(table: *const u8, size: usize) -> u64 {
    packed(abft_check(std::slice::from_raw_parts(table, size)))
}

pub unsafe extern "C" fn rust_sbft_check(table: *const u8, size: usize) -> u64 {
    packed(sbft_check(std::slice::from_raw_parts(table, size)))
}

pub unsafe extern "C" fn rust_abft_write(
    image: *const u8,
    image_size: usize,
    room: *mut u8,
    room_size: usize,
) -> u64 {
    let image = std::slice::from_raw_parts(image, image_size);
    written(abft_write(image, std::slice::from_raw_parts_mut(room, room_size)))
}

pub unsafe extern "C" fn rust_sbft_write(
    image: *const u8,
    image_size: usize,
    room: *mut u8,
    room_size: usize,
) -> u64 {
    let image = std::slice::from_raw_parts(image, image_size);
    written(sbft_write(image, std::slice::from_raw_parts_mut(room, room_size)))
}

fn packed(verdict: Result<(), Refusal>) -> u64 {
    match verdict {
        Ok(()) => 0,
        Err(refusal) => refusal.packed(),
    }
}

fn written(answer: Result<usize, Refusal>) -> u64 {
    match answer {
        Ok(length) => (length as u64) << 32,
        Err(refusal) => refusal.packed(),
    }
}

/// The table, cut to its Length.
fn check_header<'a>(lent: &'a [u8], signature: &[u8; 4], least: usize) -> Result<&'a [u8], Refusal> {
    if lent.len() < least {
        return refused(3, 0);
    }
    if !lent.starts_with(signature) {
        return refused(4, 0);
    }
    let length = u32::from_le_bytes(lent[4..8].try_into().unwrap()) as usize;
    if length < least || length > lent.len() {
        return refused(5, 4);
    }
    let table = &lent[..length];
    check_sum(table)?;
    if table[8] != 1 {
        return refused(7, 8);
    }
    check_oem(table)?;
    Ok(table)
}

fn check_oem(table: &[u8]) -> Result<(), Refusal> {
    if !has_zero_tail(&table[10..16]) {
        return refused(8, 10);
    }
    if !has_zero_tail(&table[16..24]) {
        return refused(8, 16);
    }
    Ok(())
}

fn check_reserved(table: &[u8], first: usize, end: usize) -> Result<(), Refusal> {
    match table[first..end].iter().position(|byte| *byte != 0) {
        Some(at) => refused(30, first + at),
        None => Ok(()),
    }
}

fn abft_check(lent: &[u8]) -> Result<(), Refusal> {
    let table = check_header(lent, b"aBFT", ABFT_SIZE)?;
    check_reserved(table, 24, 36)?;
    check_reserved(table, 39, 40)
}

fn sbft_check(lent: &[u8]) -> Result<(), Refusal> {
    let table = check_header(lent, b"sBFT", SBFT_START)?;
    check_reserved(table, 24, 36)?;
    check_reserved(table, 42, 48)?;
    let starts = PARTS.map(|(at, _)| word(table, at));
    let is_absent = |part: usize| part == 2 && starts[part] == 0;
    for (part, (at, size)) in PARTS.iter().enumerate() {
        let outside = starts[part] < SBFT_START || starts[part] + size > table.len();
        if outside && !is_absent(part) {
            return refused(31, *at);
        }
    }
    for (part, (at, size)) in PARTS.iter().enumerate() {
        let end = starts[part] + size;
        let overlaps = |other: usize| starts[other] < end && starts[part] < starts[other] + PARTS[other].1;
        if !is_absent(part) && (0..part).any(overlaps) {
            return refused(32, *at);
        }
    }
    if is_absent(2) {
        return Ok(());
    }
    check_reserved(table, starts[2] + 42, starts[2] + 48)
}

/// So many bytes of the image; those that are not lent are zero.
fn filled<const SIZE: usize>(image: &[u8]) -> [u8; SIZE] {
    let mut bytes = [0; SIZE];
    let size = image.len().min(SIZE);
    bytes[..size].copy_from_slice(&image[..size]);
    bytes
}

/// Lays the header and the checksum round what stands in the table, and puts it into the room.
fn seal(table: &mut [u8], signature: &[u8; 4], room: &mut [u8]) -> Result<usize, Refusal> {
    let length = table.len();
    if length > room.len() {
        return refused(21, 0);
    }
    table[..4].copy_from_slice(signature);
    table[4..8].copy_from_slice(&(length as u32).to_le_bytes());
    table[8] = 1;
    table[9] = 0;
    table[9] = sum(table).wrapping_neg();
    room[..length].copy_from_slice(table);
    Ok(length)
}

fn abft_write(image: &[u8], room: &mut [u8]) -> Result<usize, Refusal> {
    let mut table = filled::<ABFT_SIZE>(image);
    check_oem(&table)?;
    table[24..36].fill(0);
    table[39] = 0;
    seal(&mut table, b"aBFT", room)
}

fn sbft_write(image: &[u8], room: &mut [u8]) -> Result<usize, Refusal> {
    let mut table = filled::<SBFT_SIZE>(image);
    check_oem(&table)?;
    let (length, ib) = match word(&table, 40) {
        0 => (SBFT_WITHOUT_IB, 0),
        _ => (SBFT_SIZE, 88),
    };
    table[24..36].fill(0);
    table[36..42].copy_from_slice(&[48, 0, 56, 0, ib, 0]);
    table[42..48].fill(0);
    table[130..136].fill(0);
    seal(&mut table[..length], b"sBFT", room)
}
