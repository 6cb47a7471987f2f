//! The aBFT, read a second time: source document 003 and request 1 of the papers.

use crate::model::check::{Refusal, Verdict};
use crate::model::header::*;
use crate::model::layout::{OEM_ID, OEM_TABLE_ID};
use crate::model::scan::ABFT;

pub const SIZE: usize = 46;
pub const SHELF: usize = 36;
pub const SLOT: usize = 38;
pub const MAC: std::ops::Range<usize> = 40..46;

/// What an aBFT says.
#[derive(Clone, Debug, PartialEq)]
pub struct Abft {
    pub oem_id: Vec<u8>,
    pub oem_table_id: Vec<u8>,
    pub shelf: u16,
    pub slot: u8,
    pub mac: Vec<u8>,
}

/// The reserved bytes.
pub fn reserved() -> Vec<usize> {
    RESERVED.chain([39]).collect()
}

/// All refusals that apply, in the order of the check.
pub fn faults(table: &[u8]) -> Vec<Refusal> {
    let mut faults = header_faults(&ABFT, table);
    if is_whole(&ABFT, table) {
        faults.extend(reserved_faults(table, reserved().into_iter()));
    }
    faults
}

pub fn check(table: &[u8]) -> Verdict {
    faults(table).first().map_or(Ok(()), |first| Err(*first))
}

/// What stands in 46 bytes.
fn fields(bytes: &[u8]) -> Abft {
    Abft {
        oem_id: bytes[OEM_ID].to_vec(),
        oem_table_id: bytes[OEM_TABLE_ID].to_vec(),
        shelf: u16::from(bytes[SHELF]) + 256 * u16::from(bytes[SHELF + 1]),
        slot: bytes[SLOT],
        mac: bytes[MAC].to_vec(),
    }
}

pub fn read(table: &[u8]) -> Result<Abft, Refusal> {
    check(table).map(|()| fields(table))
}

/// What an image gives.
pub fn given(image: &[u8]) -> Abft {
    fields(&filled(image, SIZE))
}

impl Abft {
    /// The fields' bytes in a row, as the reading's export lays them.
    pub fn laid(&self) -> Vec<u8> {
        let mut bytes = self.oem_id.clone();
        bytes.extend(&self.oem_table_id);
        bytes.extend(self.shelf.to_le_bytes());
        bytes.push(self.slot);
        bytes.extend(&self.mac);
        bytes
    }

    pub fn table(&self) -> Vec<u8> {
        let mut bytes = header(&ABFT, SIZE, &self.oem_id, &self.oem_table_id);
        bytes.extend(self.shelf.to_le_bytes());
        bytes.extend([self.slot, 0]);
        bytes.extend(&self.mac);
        sealed(bytes)
    }
}

/// The table that a write lays, or its refusal.
pub fn write(image: &[u8], room_size: usize) -> Result<Vec<u8>, Refusal> {
    let oem = oem_faults(&filled(image, SIZE));
    written(oem, given(image).table(), room_size)
}
