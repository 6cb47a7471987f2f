//! Tables of the two small families that the check accepts, as various as the papers let them be: parts of an
//! sBFT in any order, apart or touching, at any alignment; Length above the least; bytes lent past Length.

use crate::make::good_tables::{any_bytes, oem_text, shuffle};
use crate::make::seeded::Seeded;
use crate::make::table::Table;
use crate::model::abft as abft;
use crate::model::layout::{OEM_ID, OEM_TABLE_ID, REVISION};
use crate::model::sbft::{self as sbft, Part, PARTS};
use crate::model::scan::{Family, ABFT, SBFT};

/// The greatest offset that a word can hold.
pub const LAST_OFFSET: usize = 0xFFFF;

/// A header with any OEM fields before zeros, `length` bytes in all; the sum is still to be mended.
fn headed(seeded: &mut Seeded, family: &Family, length: usize) -> Table {
    let mut table = Table {
        bytes: vec![0; length],
        lent: length,
    };
    table.write(0, &family.signature);
    table.set_length(length as u32);
    table.write(REVISION as usize, &[1]);
    let (oem_id, oem_table_id) = (oem_text(seeded, 6), oem_text(seeded, 8));
    table.write(OEM_ID.start, &oem_id);
    table.write(OEM_TABLE_ID.start, &oem_table_id);
    table
}

/// Lends some bytes past Length, or none.
fn lend_some_more(seeded: &mut Seeded, table: &mut Table) {
    let more = seeded.one_of(&[0, 0, 1, 2, 100]);
    let bytes = any_bytes(seeded, more);
    table.lend_more(&bytes);
}

pub fn good_abft(seeded: &mut Seeded) -> Table {
    let behind = seeded.one_of(&[0, 0, 0, 1, 2, 50]);
    let length = abft::SIZE + behind;
    let mut table = headed(seeded, &ABFT, length);
    let fields = any_bytes(seeded, length - abft::SHELF);
    table.write(abft::SHELF, &fields);
    table.write(39, &[0]);
    lend_some_more(seeded, &mut table);
    table.mended()
}

/// Where each part of an sBFT is to start, 0 for an IB part that is absent.
pub type Starts = [usize; 3];

/// An sBFT of `length` bytes with its parts at these places, every byte that is not reserved any byte.
pub fn sbft_with(seeded: &mut Seeded, length: usize, starts: Starts) -> Table {
    let mut table = headed(seeded, &SBFT, length);
    let rest = any_bytes(seeded, length.saturating_sub(sbft::START));
    table.write(sbft::START, &rest);
    for (part, start) in PARTS.iter().zip(starts) {
        table.write_word(part.word, start);
    }
    if starts[2] != 0 {
        table.write(starts[2] + sbft::IB_RESERVED.start, &[0; 6]);
    }
    table
}

/// The parts one behind the other in any order from `first` on, with gaps, and where the last one ends.
pub fn any_starts(seeded: &mut Seeded, first: usize, gaps: &[usize]) -> (Starts, usize) {
    let mut order = vec![0, 1, 2];
    if seeded.once_in(3) {
        order.pop();
    }
    shuffle(seeded, &mut order);
    let (mut starts, mut end) = ([0; 3], first);
    for part in order {
        starts[part] = end + seeded.one_of(gaps);
        end = starts[part] + PARTS[part].size;
    }
    (starts, end)
}

pub fn good_sbft(seeded: &mut Seeded) -> Table {
    let (starts, end) = any_starts(seeded, sbft::START, &[0, 0, 0, 1, 2, 3, 8, 40]);
    let length = end + seeded.one_of(&[0, 0, 0, 1, 2, 47]);
    let mut table = sbft_with(seeded, length, starts);
    lend_some_more(seeded, &mut table);
    table.mended()
}

/// A good sBFT one part of which stands as far up as its word can say.
pub fn far_sbft(seeded: &mut Seeded) -> Table {
    let (mut starts, _) = any_starts(seeded, sbft::START, &[0, 1, 2]);
    let part = seeded.between(0, 2);
    starts[part] = LAST_OFFSET - seeded.one_of(&[0, 0, 1, 2, 30, 43]);
    let length = starts[part] + PARTS[part].size + seeded.one_of(&[0, 0, 1]);
    sbft_with(seeded, length, starts).mended()
}

/// Where a part starts, as its word says.
pub fn start_of(table: &Table, part: &Part) -> usize {
    table.word(part.word)
}

/// As a write lays it, with the IB part or without.
pub fn written_sbft(seeded: &mut Seeded) -> Table {
    let starts = seeded.one_of(&[[48, 56, 88], [48, 56, 0]]);
    let length = if starts[2] == 0 { 88 } else { sbft::SIZE };
    sbft_with(seeded, length, starts).mended()
}
