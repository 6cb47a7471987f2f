//! A table as it is lent to a call, at any alignment, with bytes on both sides that are not lent.

use crate::make::seeded::Seeded;
use crate::make::table::Table;

/// Bytes in front of the lent ones and behind them.
const MARGIN: usize = 80;

pub struct LentTable {
    store: Vec<u8>,
    before: Vec<u8>,
    start: usize,
    size: usize,
    stray_pointer: Option<usize>,
}

impl LentTable {
    pub fn new(seeded: &mut Seeded, table: &Table) -> LentTable {
        let start = MARGIN + seeded.between(0, 15);
        let filler = seeded.one_of(&[0, 0, 0xFF, b'a']);
        let mut store = vec![filler; start + table.bytes.len() + MARGIN];
        store[start..start + table.bytes.len()].copy_from_slice(&table.bytes);
        let mut stray_pointer = None;
        if table.lent == 0 {
            stray_pointer = seeded.one_of(&[None, Some(0), Some(1), Some(usize::MAX)]);
        }
        LentTable {
            before: store.clone(),
            store,
            start,
            size: table.lent,
            stray_pointer,
        }
    }

    /// The lent bytes as they were made.
    pub fn bytes(&self) -> &[u8] {
        &self.before[self.start..self.start + self.size]
    }

    /// What a call gets: the first lent byte, and how many there are. Without any, the pointer may
    /// be anything.
    pub fn lend(&mut self) -> (*const u8, usize) {
        let first = match self.stray_pointer {
            Some(address) => address as *const u8,
            None => self.store[self.start..].as_mut_ptr() as *const u8,
        };
        (first, self.size)
    }

    /// Is every byte as it was, in the lent stretch and beside it?
    pub fn is_unchanged(&self) -> bool {
        self.store == self.before
    }

    /// The lent bytes in hexadecimal, for a report; of a long table the first thousand.
    pub fn in_hex(&self) -> String {
        let shown = &self.bytes()[..self.size.min(1000)];
        shown.iter().map(|byte| format!("{:02x}", byte)).collect()
    }
}
