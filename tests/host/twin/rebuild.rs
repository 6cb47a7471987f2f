//! The rebuild as one would write it in Rust over the twins of check and build, for the benchmark: the table
//! is checked, its record range made, and that built with the table as the range of strings. It is called
//! through C's types, as the library is.

use super::build::rust_build;
use super::check::{rust_check, word, Kind, NAMED, NIC, TARGET};
use std::slice::from_raw_parts;

const LARGEST_RANGE: usize = 1393;
const EXTRA_COUNTS: usize = 419;
const EXTRAS: usize = 421;
const SLOT_MARKS: usize = 15;
const ENTRY_MARKS: usize = 20;
const FIRST_IMAGE: usize = 33;
const CONTROL: usize = 48;
const CONTROL_END: usize = 66;
const WORDS: usize = 56;

#[no_mangle]
pub unsafe extern "C" fn rust_rebuild(
    table: *const u8,
    table_size: usize,
    room: *mut u8,
    room_size: usize,
) -> u64 {
    let refusal = rust_check(table, table_size);
    if refusal != 0 {
        return refusal;
    }
    let mut range = [0; LARGEST_RANGE];
    let size = read(from_raw_parts(table, table_size), &mut range);
    rust_build(range.as_ptr(), size, table, table_size, room, room_size)
}

/// Makes the record range of a table that the check accepts, and says its size.
fn read(table: &[u8], range: &mut [u8; LARGEST_RANGE]) -> usize {
    range[..14].copy_from_slice(&table[10..24]);
    range[14] = table[CONTROL + 5];
    let (mut image, mut marks) = (FIRST_IMAGE, ENTRY_MARKS);
    for (slot, (kind, _)) in NAMED.iter().enumerate() {
        let start = word(table, WORDS + 2 * slot);
        if start != 0 {
            range[SLOT_MARKS + slot] = 1;
            copy(table, start, kind, range, image, marks);
        }
        image += kind.length;
        marks += kind.texts.len();
    }
    let control_end = CONTROL + word(table, CONTROL + 2);
    let words = (CONTROL_END..control_end).step_by(2);
    let mut image = EXTRAS;
    for (i, kind) in [&NIC, &TARGET].into_iter().enumerate() {
        let mut starts = [(0, 0); 6];
        let mut count = 0;
        for start in words.clone().map(|at| word(table, at)) {
            if start != 0 && table[start] == kind.id {
                starts[count] = (table[start + 4], start);
                count += 1;
            }
        }
        range[EXTRA_COUNTS + i] = count as u8;
        starts[..count].sort_unstable();
        for (_, start) in &starts[..count] {
            copy(table, *start, kind, range, image, image + kind.length);
            image += kind.length + kind.texts.len();
        }
    }
    image
}

/// A structure as it stands, and the marks of its strings.
fn copy(
    table: &[u8],
    start: usize,
    kind: &Kind,
    range: &mut [u8; LARGEST_RANGE],
    image: usize,
    marks: usize,
) {
    range[image..image + kind.length].copy_from_slice(&table[start..start + kind.length]);
    for (i, (at, _)) in kind.texts.iter().enumerate() {
        let is_missing = table[start + at..start + at + 4] == [0; 4];
        range[marks + i] = u8::from(!is_missing);
    }
}
