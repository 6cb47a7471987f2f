//! The scan and the checksum byte as one would write them in Rust, for the benchmark. They are
//! called through C's types, as the library is.

const HEADER: usize = 48;
const WINDOW_START: u64 = 0x80000;
const WINDOW_END: u64 = 0x100000;

pub unsafe extern "C" fn rust_scan(memory: *const u8, size: usize, address: u64) -> u64 {
    scan(std::slice::from_raw_parts(memory, size), address)
}

pub unsafe extern "C" fn rust_checksum(bytes: *const u8, size: usize, at: usize) -> u8 {
    checksum(std::slice::from_raw_parts(bytes, size), at)
}

fn scan(memory: &[u8], address: u64) -> u64 {
    match address.checked_add(memory.len() as u64) {
        Some(end) if end <= WINDOW_END => {}
        _ => return 1,
    }
    let mut k = if address < WINDOW_START {
        (WINDOW_START - address) as usize
    } else {
        (address.wrapping_neg() % 16) as usize
    };
    while k + HEADER <= memory.len() {
        if let Some(length) = sound_length(&memory[k..]) {
            return (address + k as u64) << 8 | u64::from(length) << 32;
        }
        k += 16;
    }
    2
}

/// The Length of the sound table at the front of `place`.
fn sound_length(place: &[u8]) -> Option<u32> {
    if !place.starts_with(b"iBFT") {
        return None;
    }
    let length = u32::from_le_bytes(place[4..8].try_into().unwrap());
    let table = place.get(..length as usize)?;
    if table.len() < HEADER || sum(table) != 0 {
        return None;
    }
    Some(length)
}

pub fn sum(bytes: &[u8]) -> u8 {
    bytes.iter().fold(0, |sum, byte| sum.wrapping_add(*byte))
}

fn checksum(bytes: &[u8], at: usize) -> u8 {
    let there = bytes.get(at).copied().unwrap_or(0);
    there.wrapping_sub(sum(bytes))
}
