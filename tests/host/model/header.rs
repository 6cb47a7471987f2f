//! The header that an aBFT and an sBFT begin with, read from the papers a second time: refusals 3 to 8,
//! and 30 for reserved bytes. A fault is a refusal that applies; the first of them is the answer of a check.

use crate::model::check::{check_sum, is_zero_after_first_zero, Refusal};
use crate::model::layout::{length, CHECKSUM, LENGTH, OEM_ID, OEM_TABLE_ID, REVISION};
use crate::model::scan::Family;

/// Bytes 24 to 35 are reserved in both families.
pub const RESERVED: std::ops::RangeInclusive<usize> = 24..=35;

/// Is there a whole table, so that what stands in it can be asked for?
pub fn is_whole(family: &Family, table: &[u8]) -> bool {
    let lent = table.len() as u128;
    lent >= family.least_length
        && u128::from(length(table)) >= family.least_length
        && u128::from(length(table)) <= lent
}

/// All of 3 to 8 that apply, as far as the bytes are there to tell.
pub fn header_faults(family: &Family, table: &[u8]) -> Vec<Refusal> {
    if (table.len() as u128) < family.least_length {
        return vec![Refusal::new(3, 0)];
    }
    let mut faults = Vec::new();
    if table[..4] != family.signature {
        faults.push(Refusal::new(4, 0));
    }
    if !is_whole(family, table) {
        faults.push(Refusal::new(5, LENGTH));
        return faults;
    }
    faults.extend(check_sum(table).err());
    if table[REVISION as usize] != 1 {
        faults.push(Refusal::new(7, REVISION));
    }
    faults.extend(oem_faults(table));
    faults
}

/// 8 of each OEM field.
pub fn oem_faults(table: &[u8]) -> Vec<Refusal> {
    [OEM_ID, OEM_TABLE_ID]
        .into_iter()
        .filter(|field| !is_zero_after_first_zero(&table[field.clone()]))
        .map(|field| Refusal::new(8, field.start as u64))
        .collect()
}

/// 30 of each of these bytes that is not zero.
pub fn reserved_faults(table: &[u8], places: impl Iterator<Item = usize>) -> Vec<Refusal> {
    places
        .filter(|place| table[*place] != 0)
        .map(|place| Refusal::new(30, place as u64))
        .collect()
}

/// So many bytes of an image; those that are not lent are zero.
pub fn filled(image: &[u8], size: usize) -> Vec<u8> {
    let mut bytes = image[..image.len().min(size)].to_vec();
    bytes.resize(size, 0);
    bytes
}

/// The header of a table, its checksum byte still zero: signature, Length, Revision, the OEM fields, zeros.
pub fn header(family: &Family, length: usize, oem_id: &[u8], oem_table_id: &[u8]) -> Vec<u8> {
    let mut bytes = family.signature.to_vec();
    bytes.extend((length as u32).to_le_bytes());
    bytes.extend([1, 0]);
    bytes.extend(oem_id);
    bytes.extend(oem_table_id);
    bytes.resize(RESERVED.end() + 1, 0);
    bytes
}

/// The table with the checksum byte that makes it sum to 0.
pub fn sealed(mut table: Vec<u8>) -> Vec<u8> {
    let sum: u64 = table.iter().map(|byte| u64::from(*byte)).sum();
    table[CHECKSUM as usize] = ((256 - sum % 256) % 256) as u8;
    table
}

/// What a write answers: 8, then 21 where the table is longer than the room.
pub fn written(oem: Vec<Refusal>, table: Vec<u8>, room_size: usize) -> Result<Vec<u8>, Refusal> {
    if let Some(refusal) = oem.first() {
        return Err(*refusal);
    }
    if table.len() > room_size {
        return Err(Refusal::new(21, 0));
    }
    Ok(table)
}
