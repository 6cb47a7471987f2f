//! RULES.md, Finding, read a second time: byte by byte, with no thought of speed. The three families of
//! tables differ in signature, window and least Length, and in nothing else.
//!
//! Addresses are `u128`, so that no sum of an address, a size and a Length can wrap.

use crate::model::answer::packed;

#[derive(Clone, Copy, Debug, PartialEq)]
pub struct Family {
    pub name: &'static str,
    pub signature: [u8; 4],
    /// The first and the last address of the window.
    pub first: u128,
    pub last: u128,
    pub least_length: u128,
}

pub const IBFT: Family = Family {
    name: "iBFT",
    signature: *b"iBFT",
    first: 0x80000,
    last: 0xFFFFF,
    least_length: 48,
};

pub const ABFT: Family = Family {
    name: "aBFT",
    signature: *b"aBFT",
    first: 0x00000,
    last: 0x9FFFF,
    least_length: 46,
};

pub const SBFT: Family = Family {
    name: "sBFT",
    signature: *b"sBFT",
    first: 0x00000,
    last: 0x9FFFF,
    least_length: 48,
};

impl Family {
    /// The address just past the window, which no lent byte may reach.
    pub fn end(&self) -> u128 {
        self.last + 1
    }

    /// Is the place at offset `k` of the lent bytes sound?
    fn is_sound(&self, memory: &[u8], address: u128, k: usize) -> bool {
        (address + k as u128) % 16 == 0
            && memory.get(k..k + 4) == Some(&self.signature[..])
            && length_at(memory, k) >= self.least_length
            && self.lies_in_window(address + k as u128, length_at(memory, k))
            && lies_in_lent_bytes(memory, k, length_at(memory, k))
            && sums_to_zero(memory, k, length_at(memory, k))
    }

    fn lies_in_window(&self, place: u128, length: u128) -> bool {
        self.first <= place && place + length <= self.end()
    }

    /// The packed answer of a scan: the lowest sound place and its Length, or 1, or 2.
    pub fn scan(&self, memory: &[u8], address: u64) -> u64 {
        let address = u128::from(address);
        if address + memory.len() as u128 > self.end() {
            return packed(1, 0, 0);
        }
        for k in 0..memory.len() {
            if self.is_sound(memory, address, k) {
                return packed(0, (address + k as u128) as u64, length_at(memory, k) as u64);
            }
        }
        packed(2, 0, 0)
    }
}

/// The Length field of the table at `k`. Where the bytes end before the field does it is 0, which
/// is below the least.
fn length_at(memory: &[u8], k: usize) -> u128 {
    let mut length = 0;
    for i in 0..4 {
        match memory.get(k + 4 + i) {
            Some(byte) => length += u128::from(*byte) << (8 * i),
            None => return 0,
        }
    }
    length
}

fn lies_in_lent_bytes(memory: &[u8], k: usize, length: u128) -> bool {
    k as u128 + length <= memory.len() as u128
}

fn sums_to_zero(memory: &[u8], k: usize, length: u128) -> bool {
    let mut sum: u128 = 0;
    for byte in &memory[k..k + length as usize] {
        sum += u128::from(*byte);
    }
    sum % 256 == 0
}
