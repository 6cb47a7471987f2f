//! Faults for an aBFT or an sBFT: each changes one thing that the check looks at, mostly for the worse. The sum
//! is mended afterwards by who calls them, so that the fault itself is met.

use crate::damage::table::{oem_tail, revision, Damage};
use crate::make::family::{start_of, LAST_OFFSET};
use crate::make::seeded::Seeded;
use crate::make::table::Table;
use crate::model::abft as abft;
use crate::model::sbft::{self as sbft, Part, IB, PARTS, SCSI, SRP};

pub const ABFT_DAMAGES: &[Damage] = &[signature, table_length, revision, oem_tail, abft_reserved];

pub const SBFT_DAMAGES: &[Damage] = &[
    signature,
    table_length,
    revision,
    oem_tail,
    sbft_reserved,
    ib_reserved,
    offset_anywhere,
    offset_near_the_start,
    offset_near_the_end,
    offset_zero,
    offset_onto_another,
    offset_beside_another,
];

pub fn signature(seeded: &mut Seeded, table: &mut Table) {
    let other = seeded.one_of(&[*b"iBFT", *b"aBFT", *b"sBFT", *b"ABFT", *b"sbft", *b"TFBa"]);
    table.write(0, &other);
}

pub fn table_length(seeded: &mut Seeded, table: &mut Table) {
    let (lent, length) = (table.lent as u32, table.length() as u32);
    let near = (length + seeded.between(0, 6) as u32).saturating_sub(3);
    let small = seeded.one_of(&[0, 1, 45, 46, 47, 48, 49]);
    let huge = seeded.one_of(&[u32::MAX, 1 << 31, length | 1 << 16, length | 1 << 24]);
    let claimed = seeded.one_of(&[near, near, lent, lent + 1, small, small, huge]);
    table.set_length(claimed);
}

fn not_zero(seeded: &mut Seeded) -> u8 {
    let any = seeded.between(1, 255) as u8;
    seeded.one_of(&[1, 0x80, 0xFF, any])
}

/// One reserved byte or several.
fn reserved(seeded: &mut Seeded, table: &mut Table, places: &[usize]) {
    for _ in 0..seeded.one_of(&[1, 1, 2, 3]) {
        let byte = not_zero(seeded);
        table.write(seeded.one_of(places), &[byte]);
    }
}

pub fn abft_reserved(seeded: &mut Seeded, table: &mut Table) {
    reserved(seeded, table, &abft::reserved());
}

pub fn sbft_reserved(seeded: &mut Seeded, table: &mut Table) {
    reserved(seeded, table, &sbft::reserved());
}

/// The bytes round the IB part's reserved ones too, which may be anything.
pub fn ib_reserved(seeded: &mut Seeded, table: &mut Table) {
    let start = start_of(table, &IB);
    if start != 0 {
        let places: Vec<usize> = (41..49).map(|at| start + at).collect();
        reserved(seeded, table, &places);
    }
}

fn any_part(seeded: &mut Seeded) -> Part {
    seeded.one_of(&PARTS)
}

pub fn offset_anywhere(seeded: &mut Seeded, table: &mut Table) {
    let part = any_part(seeded);
    let inside = seeded.between(0, table.length().min(LAST_OFFSET));
    let any = seeded.between(0, LAST_OFFSET);
    let start = seeded.one_of(&[inside, inside, any, LAST_OFFSET, 0x8000, 0x100]);
    table.write_word(part.word, start);
}

/// From 47 to 49, and what is 48 in one of its two bytes.
pub fn offset_near_the_start(seeded: &mut Seeded, table: &mut Table) {
    let part = any_part(seeded);
    let start = seeded.one_of(&[1, 8, 36, 46, 47, 47, 48, 49, 0x30 << 8]);
    table.write_word(part.word, start);
}

/// So that the part ends with Length, or one or two bytes off.
pub fn offset_near_the_end(seeded: &mut Seeded, table: &mut Table) {
    let part = any_part(seeded);
    let last = table.length().saturating_sub(part.size);
    let start = (last + seeded.between(0, 4)).saturating_sub(2);
    table.write_word(part.word, start.min(LAST_OFFSET));
}

pub fn offset_zero(seeded: &mut Seeded, table: &mut Table) {
    let part = any_part(seeded);
    table.write_word(part.word, 0);
}

/// Two different parts.
fn two_parts(seeded: &mut Seeded) -> (Part, Part) {
    seeded.one_of(&[
        (SCSI, SRP),
        (SCSI, IB),
        (SRP, IB),
        (SRP, SCSI),
        (IB, SCSI),
        (IB, SRP),
    ])
}

/// Any byte of the one is the first of the other.
pub fn offset_onto_another(seeded: &mut Seeded, table: &mut Table) {
    let (one, other) = two_parts(seeded);
    let start = start_of(table, &other) + seeded.between(0, other.size - 1);
    table.write_word(one.word, start.min(LAST_OFFSET));
}

/// The one ends where the other starts, or starts where it ends, or one byte off, in a table that has room
/// for that.
pub fn offset_beside_another(seeded: &mut Seeded, table: &mut Table) {
    let (one, other) = two_parts(seeded);
    let at = start_of(table, &other);
    let before = (at + seeded.between(0, 2)).saturating_sub(one.size + 1);
    let behind = (at + other.size + seeded.between(0, 2)).saturating_sub(1);
    let start = seeded.one_of(&[before, behind]);
    if at < 0x1000 && start + one.size > table.length() && seeded.once_in(2) {
        let end = start + one.size;
        table.bytes.resize(end.max(table.bytes.len()), 0);
        table.lent = table.lent.max(end);
        table.set_length(end as u32);
    }
    table.write_word(one.word, start.min(LAST_OFFSET));
}
