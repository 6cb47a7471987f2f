//! The views as compiled (`test_structure_view`, `test_entry_view`), held to model/readings.rs: their bytes in every table, and
//! their place. A call for C cannot return a part of what it was lent, so each copies what its view shows; where that stands is
//! seen by a change of one byte of the table, which shows in the view of the stretch that has it, and in no other.

use crate::call::library::{self, View};
use crate::check::report;
use crate::make::good_tables::{good_table, good_table_with_extras};
use crate::make::seeded::Seeded;
use crate::make::table::{with_texts, Table};
use crate::model::check::{check, Refusal};
use crate::model::layout::{ENTRY_NUMBERS, SLOT_NUMBERS};
use crate::model::readings::{self as model, Accepted};
use crate::shapes::table::{all_agree, Input};

const LEAST_INPUTS: usize = 200_000;

/// Bytes lent for what a view shows, and guards on both sides. A view that is longer is copied as far as it fits.
const OUT_SIZE: usize = 300;
const GUARD: usize = 32;
const GUARD_BYTE: u8 = 0xC3;

/// The answer of a call, and the bytes that it copied; none where a byte is changed that is not the view's.
fn viewed(call: View, table: *const u8, size: usize, n: u8, lent: usize) -> Option<(usize, Vec<u8>)> {
    let mut out = [GUARD_BYTE; GUARD + OUT_SIZE + GUARD];
    let answer = unsafe { call(table, size, n, out[GUARD..].as_mut_ptr(), lent) };
    let end = GUARD + answer.min(lent);
    let untouched = out[..GUARD].iter().chain(&out[end..]).all(|b| *b == GUARD_BYTE);
    untouched.then(|| (answer, out[GUARD..end].to_vec()))
}

/// A table that was accepted, or the check's refusal.
type Checked<'a> = Result<Accepted<'a>, Refusal>;

/// What is shown: a stretch of the table, none where the reading is refused.
type Shown<'a> = Result<&'a [u8], Refusal>;

fn structure_shown<'a>(bytes: &'a [u8], table: &Checked, slot: u8) -> Shown<'a> {
    let table = table.as_ref().map_err(|refusal| *refusal)?;
    let read = table.structure(u64::from(slot))?;
    Ok(&bytes[read.start as usize..])
}

fn entry_shown<'a>(bytes: &'a [u8], table: &Checked, entry: u8) -> Shown<'a> {
    let table = table.as_ref().map_err(|refusal| *refusal)?;
    let words = table.entry(u64::from(entry))?;
    Ok(&bytes[words.offset as usize..(words.offset + words.length) as usize])
}

/// One view of one table, copied into so many bytes.
fn compare_view(name: &str, input: &mut Input, stretch: Shown, call: View, n: u8, lent: usize) -> bool {
    let (table, size) = input.table.lend();
    let given = viewed(call, table, size, n, lent);
    let stretch = stretch.unwrap_or_default();
    let expected = (stretch.len(), stretch[..stretch.len().min(lent)].to_vec());
    if given.as_ref() != Some(&expected) {
        let name = format!("{} {}", name, n);
        report(&name, input, &format!("{:02x?}", given), &format!("{:02x?}", expected));
        return false;
    }
    true
}

/// Every number where the table is accepted, else two; and one that is too high.
fn numbers(seeded: &mut Seeded, table: &Checked, count: u64) -> Vec<u8> {
    let count = count as usize;
    let asked = if table.is_ok() { 0..count } else { 1..3 };
    let past = seeded.between(count, 255);
    asked.chain([past]).map(|n| n as u8).collect()
}

/// Every view of a table, and one of a number that is too high.
fn compare_one(input: &mut Input, shown: &mut usize) -> bool {
    let lent = input.seeded.one_of(&[OUT_SIZE, OUT_SIZE, 8, 0]);
    let bytes = input.table.bytes().to_vec();
    let table = model::accepted(&bytes);
    let slots = numbers(&mut input.seeded, &table, SLOT_NUMBERS);
    let entries = numbers(&mut input.seeded, &table, ENTRY_NUMBERS);
    let structures = slots.into_iter().all(|slot| {
        let stretch = structure_shown(&bytes, &table, slot);
        compare_view("structure", input, stretch, library::test_structure_view, slot, lent)
    });
    let entries = entries.into_iter().all(|entry| {
        let stretch = entry_shown(&bytes, &table, entry);
        *shown += usize::from(stretch.is_ok());
        compare_view("entry", input, stretch, library::test_entry_view, entry, lent)
    });
    structures && entries && input.table.is_unchanged()
}

// ---- Places ----

/// What the library's view of an entry shows.
pub fn entry_viewed(table: &Table, entry: usize) -> Vec<u8> {
    let bytes = table.lent_bytes();
    let view = viewed(library::test_entry_view, bytes.as_ptr(), bytes.len(), entry as u8, OUT_SIZE);
    view.expect("a byte beside the view is changed").1
}

/// Entries 3 and 9, CHAP names of both targets, have the same bytes at two places: a change of a byte of the one shows
/// there alone.
fn equal_strings_keep_apart() -> bool {
    let table = with_texts(&[2, 4], &[(3, b"depot7"), (9, b"depot7")]).mended();
    [(3, 9), (9, 3)].into_iter().all(|(changed, other)| {
        let at = model::entry(table.lent_bytes(), changed as u64).ok().unwrap().offset as usize;
        (0..6).all(|k| {
            let mut table = table.clone();
            table.write(at + k, b"X");
            table.mend();
            let mut expected = *b"depot7";
            expected[k] = b'X';
            entry_viewed(&table, changed) == expected && entry_viewed(&table, other) == b"depot7"
        })
    })
}

/// In tables of every kind, strings shared or not: each byte of an entry, changed, shows in its view where it stands. (A
/// change that makes a host name none, or cuts another string, is refused by the check and left out.)
fn changes_show(changes: &mut usize) -> bool {
    (0..400).all(|seed| {
        let make = [good_table, good_table_with_extras][seed as usize % 2];
        let table = make(&mut Seeded::new(seed));
        (0..table.entries().len()).all(|entry| {
            let Ok(words) = model::entry(table.lent_bytes(), entry as u64) else {
                return true;
            };
            (0..words.length as usize).all(|k| {
                let mut table = table.clone();
                let at = words.offset as usize + k;
                let byte = if table.bytes[at] == b'x' { b'y' } else { b'x' };
                table.write(at, &[byte]);
                table.mend();
                if check(table.lent_bytes()).is_err() {
                    return true;
                }
                *changes += 1;
                let view = entry_viewed(&table, entry);
                let accepted = model::accepted(table.lent_bytes());
                let shown = entry_shown(table.lent_bytes(), &accepted, entry as u8);
                view.get(k) == Some(&byte) && Ok(view.as_slice()) == shown
            })
        })
    })
}

pub fn compare() -> bool {
    let (mut tables, mut shown, mut changes) = (0, 0, 0);
    let agree = equal_strings_keep_apart()
        && changes_show(&mut changes)
        && all_agree(|mut input| {
            tables += 1;
            compare_one(&mut input, &mut shown)
        });
    println!("views: {} tables, {} entries shown, {} changed bytes seen", tables, shown, changes);
    agree && tables >= LEAST_INPUTS && shown >= LEAST_INPUTS && changes >= 10_000
}
