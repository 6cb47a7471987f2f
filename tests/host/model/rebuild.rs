//! The rebuild, read a second time: what the check refuses, then 20 for the first string with a zero byte in
//! it, then 21; else the table of RULES.md, Building, of the record that the table reads as.

use crate::model::build::table_of;
use crate::model::check::{refuse_if, Refusal, Verdict};
use crate::model::record::{record_checked, Record};

/// A table that can be rebuilt: what it reads as, and the table of that.
pub struct Rebuilt {
    pub record: Record,
    pub table: Vec<u8>,
}

/// What a table is rebuilt to where there is room for it.
pub fn rebuilt(table: &[u8]) -> Result<Rebuilt, Refusal> {
    let record = record_checked(table)?;
    check_zeros(&record)?;
    let table = table_of(&record);
    Ok(Rebuilt { record, table })
}

/// 20, for the lowest entry. A record lists its entries by the numbers that callers have for them.
fn check_zeros(record: &Record) -> Verdict {
    for (number, text) in record.entries.iter().enumerate() {
        let has_zero = text.as_ref().map_or(false, |text| text.contains(&0));
        refuse_if(has_zero, 20, number as u64)?;
    }
    Ok(())
}

impl Rebuilt {
    /// What a room of so many bytes gets.
    pub fn into_room(&self, room_size: usize) -> Result<&[u8], Refusal> {
        refuse_if(self.table.len() > room_size, 21, 0)?;
        Ok(&self.table)
    }
}
