//! Memory for one scan: the lent stretch, and bytes on both sides of it that are not lent.
//!
//! Tables are laid by their offset from the first lent byte. An offset may be negative, and a table
//! may run on past the end: a scan that looks beyond what it was lent would see it whole.

use crate::make::seeded::Seeded;

/// Bytes in front of the lent ones and behind them.
const MARGIN: usize = 640;

pub const WINDOW_START: u64 = 0x80000;
pub const WINDOW_END: u64 = 0x100000;
pub const HEADER: usize = 48;

pub struct LentMemory {
    store: Vec<u8>,
    start: usize,
    pub size: usize,
    pub address: u64,
    stray_pointer: Option<usize>,
}

impl LentMemory {
    /// Memory with no table in it, at any alignment of the pointer.
    pub fn new(seeded: &mut Seeded, address: u64, size: usize) -> LentMemory {
        let start = MARGIN + seeded.between(0, 15);
        let total = start + size + MARGIN;
        let store = match seeded.between(0, 3) {
            0 => vec![0; total],
            1 => vec![0xFF; total],
            _ => seeded.bytes(total),
        };
        LentMemory {
            store,
            start,
            size,
            address,
            stray_pointer: None,
        }
    }

    /// No bytes at all, with a pointer to anywhere.
    pub fn empty(seeded: &mut Seeded, address: u64) -> LentMemory {
        let mut memory = LentMemory::new(seeded, address, 0);
        memory.stray_pointer = seeded.one_of(&[None, Some(0), Some(1), Some(usize::MAX)]);
        memory
    }

    pub fn bytes(&self) -> &[u8] {
        &self.store[self.start..self.start + self.size]
    }

    /// Calls `scan` on the lent bytes; says its answer, and whether every byte is as it was, in
    /// the lent stretch and beside it.
    pub fn scanned_by(
        &mut self,
        scan: unsafe extern "C" fn(*const u8, usize, u64) -> u64,
    ) -> (u64, bool) {
        let before = self.store.clone();
        let lent = match self.stray_pointer {
            Some(address) => address as *const u8,
            None => self.store[self.start..].as_mut_ptr() as *const u8,
        };
        let answer = unsafe { scan(lent, self.size, self.address) };
        (answer, self.store == before)
    }

    pub fn end(&self) -> isize {
        self.size as isize
    }

    /// The lowest offset from `offset` on whose address is a multiple of 16.
    pub fn align(&self, offset: isize) -> isize {
        let place = self.address as i128 + offset as i128;
        offset + (-place).rem_euclid(16) as isize
    }

    /// A place at which a table of `length` bytes lies wholly in the lent bytes, if there is one.
    pub fn aligned_place(&self, seeded: &mut Seeded, length: usize) -> isize {
        let first = self.align(0);
        let room = self.end() - first - length as isize;
        if room < 0 {
            return first;
        }
        first + 16 * seeded.between(0, room as usize / 16) as isize
    }

    fn index(&self, offset: isize) -> usize {
        (self.start as isize + offset) as usize
    }

    pub fn write(&mut self, offset: isize, bytes: &[u8]) {
        let i = self.index(offset);
        self.store[i..i + bytes.len()].copy_from_slice(bytes);
    }

    /// A table that is sound if its place is: its `length` bytes sum to 0.
    pub fn lay(&mut self, offset: isize, length: usize) {
        self.lay_claiming(offset, length as u32, length);
    }

    /// The signature, `claimed` in the Length field, and a sum of 0 over `summed` bytes, as far as
    /// there are any.
    pub fn lay_claiming(&mut self, offset: isize, claimed: u32, summed: usize) {
        self.lay_of(b"iBFT", offset, claimed, summed);
    }

    /// The same with the signature of any family.
    pub fn lay_of(&mut self, signature: &[u8; 4], offset: isize, claimed: u32, summed: usize) {
        self.write(offset, signature);
        self.write(offset + 4, &claimed.to_le_bytes());
        self.balance(offset, summed);
    }

    /// Sets the checksum byte so that `summed` bytes sum to 0.
    pub fn balance(&mut self, offset: isize, summed: usize) {
        let i = self.index(offset);
        let end = (i + summed).min(self.store.len());
        let sum = self.store[i..end]
            .iter()
            .fold(0u8, |sum, byte| sum.wrapping_add(*byte));
        self.store[i + 9] = self.store[i + 9].wrapping_sub(sum);
    }

    /// Changes the checksum byte.
    pub fn spoil(&mut self, seeded: &mut Seeded, offset: isize) {
        let i = self.index(offset);
        self.store[i + 9] = self.store[i + 9].wrapping_add(seeded.between(1, 255) as u8);
    }
}
