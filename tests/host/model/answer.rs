//! An answer as C gets it: number in bits 0 to 7, place or address in 8 to 31, Length in 32 to 63. Of a
//! refusal with 6 the checksum byte that would be right stands in 32 to 39; of any other refusal these are 0.

use crate::model::check::Refusal;

pub fn packed(number: u64, place: u64, length: u64) -> u64 {
    assert!(number < 1 << 8 && place < 1 << 24 && length < 1 << 32);
    number + (place << 8) + (length << 32)
}

fn packed_refusal(refusal: &Refusal) -> u64 {
    packed(refusal.number, refusal.place, u64::from(refusal.checksum))
}

/// What a check or a reading answers: 0 where it accepts.
pub fn packed_verdict<T>(verdict: &Result<T, Refusal>) -> u64 {
    match verdict {
        Ok(_) => 0,
        Err(refusal) => packed_refusal(refusal),
    }
}

/// What a build, a rebuild or a write answers: the table's Length where it accepts.
pub fn packed_table<T: AsRef<[u8]>>(laid: &Result<T, Refusal>) -> u64 {
    match laid {
        Ok(table) => packed(0, 0, table.as_ref().len() as u64),
        Err(refusal) => packed_refusal(refusal),
    }
}

pub fn number(answer: u64) -> u64 {
    answer % (1 << 8)
}

/// Number and place: what a call answers of a refusal that has no bits left for the checksum byte.
pub fn number_and_place(answer: u64) -> u64 {
    answer % (1 << 32)
}

/// The parts in words, for a report.
pub fn in_words(answer: u64) -> String {
    let place = (answer >> 8) % (1 << 24);
    format!(
        "{:#x} (number {}, place or address {} = {:#x}, Length or checksum {})",
        answer,
        number(answer),
        place,
        place,
        answer >> 32
    )
}
