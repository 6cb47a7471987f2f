//! Tables of all three families with the sums worked by hand: what the check answers, and the line that `show`
//! and `tell` print where it refuses.

use crate::make::table::{structures, Table};
use crate::model::layout::REVISION;
use crate::model::scan::{Family, ABFT, IBFT, SBFT};

pub struct KnownSum {
    pub family: Family,
    pub table: Table,
    pub answer: u64,
    /// Empty where the table is accepted.
    pub line: &'static str,
}

/// A header and zeros.
fn headed(family: &Family, length: usize) -> Table {
    let mut table = Table {
        bytes: vec![0; length],
        lent: length,
    };
    table.write(0, &family.signature);
    table.set_length(length as u32);
    table.write(REVISION as usize, &[1]);
    table
}

/// 105 + 66 + 70 + 84 of the signature, 66 of Length, 1 of Revision, 1 + 1 + 18 of Control: 412, which is 100
/// short of 512.
fn ibft() -> Table {
    structures(&[])
}

/// 97 + 66 + 70 + 84, 46 and 1: 364, which is 148 short of 512.
fn abft() -> Table {
    headed(&ABFT, 46)
}

/// 115 + 66 + 70 + 84, 88, 1, and the offsets 48 and 56: 528, which is 240 short of 768.
fn sbft() -> Table {
    with(headed(&SBFT, 88), &[(36, 48), (38, 56)])
}

/// The table with bytes set.
fn with(mut table: Table, bytes: &[(usize, u8)]) -> Table {
    for (at, byte) in bytes {
        table.write(*at, &[*byte]);
    }
    table
}

/// The table with a byte behind it that is lent too.
fn and_behind(mut table: Table, byte: u8) -> Table {
    table.lend_more(&[byte]);
    table
}

fn known(family: Family, table: Table, answer: u64, line: &'static str) -> KnownSum {
    KnownSum {
        family,
        table,
        answer,
        line,
    }
}

fn known_ibfts() -> Vec<KnownSum> {
    let known = |bytes: &[(usize, u8)], answer, line| known(IBFT, with(ibft(), bytes), answer, line);
    vec![
        known(&[], 0x64_0000_0906, "refused 6 9 100"),
        known(&[(9, 99)], 0x64_0000_0906, "refused 6 9 100"),
        known(&[(9, 100)], 0, ""),
        // A reserved byte of 98, 100 and 101: 2 are lacking, none, and one is too many.
        known(&[(47, 98)], 0x02_0000_0906, "refused 6 9 2"),
        known(&[(47, 100), (9, 1)], 0x00_0000_0906, "refused 6 9 0"),
        known(&[(47, 101)], 0xFF_0000_0906, "refused 6 9 255"),
        // Revision 2, with a wrong sum and with a right one.
        known(&[(8, 2)], 0x63_0000_0906, "refused 6 9 99"),
        known(&[(8, 2), (9, 99)], 0x00_0000_0807, "refused 7 8"),
        // Another signature, and a Length of 65: they come before the sum.
        known(&[(0, b'I')], 0x00_0000_0004, "refused 4 0"),
        known(&[(4, 65)], 0x00_0000_0405, "refused 5 4"),
    ]
}

fn known_abfts() -> Vec<KnownSum> {
    let known = |bytes: &[(usize, u8)], answer, line| known(ABFT, with(abft(), bytes), answer, line);
    vec![
        known(&[], 0x94_0000_0906, "refused 6 9 148"),
        known(&[(9, 148)], 0, ""),
        known(&[(38, 148), (9, 1)], 0x00_0000_0906, "refused 6 9 0"),
        // A reserved byte, with a wrong sum and with a right one: 30 at 39.
        known(&[(39, 1)], 0x93_0000_0906, "refused 6 9 147"),
        known(&[(39, 1), (9, 147)], 0x00_0000_271E, "refused 30 39"),
    ]
}

fn known_sbfts() -> Vec<KnownSum> {
    let known = |bytes: &[(usize, u8)], answer, line| known(SBFT, with(sbft(), bytes), answer, line);
    vec![
        known(&[], 0xF0_0000_0906, "refused 6 9 240"),
        known(&[(9, 240)], 0, ""),
        known(&[(48, 240), (9, 1)], 0x00_0000_0906, "refused 6 9 0"),
        // The SCSI part at 47, with a wrong sum and with a right one: 31 at 36.
        known(&[(36, 47)], 0xF1_0000_0906, "refused 6 9 241"),
        known(&[(36, 47), (9, 241)], 0x00_0000_241F, "refused 31 36"),
    ]
}

/// A byte behind the table that is lent too, with which 100, 148 and 240 bytes would not be lacking.
fn known_with_bytes_behind() -> Vec<KnownSum> {
    vec![
        known(IBFT, and_behind(ibft(), 100), 0x64_0000_0906, "refused 6 9 100"),
        known(ABFT, and_behind(abft(), 148), 0x94_0000_0906, "refused 6 9 148"),
        known(SBFT, and_behind(sbft(), 240), 0xF0_0000_0906, "refused 6 9 240"),
    ]
}

pub fn known_sums() -> Vec<KnownSum> {
    let mut all = known_ibfts();
    all.extend(known_abfts());
    all.extend(known_sbfts());
    all.extend(known_with_bytes_behind());
    all
}
