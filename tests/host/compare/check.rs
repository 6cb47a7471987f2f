//! `ibft_check` held to the reading of RULES.md in model/check.rs, on tables of many shapes.

use crate::call::library;
use crate::known::extras::known_extras_agree;
use crate::make::table::*;
use crate::model::answer::{in_words, packed_verdict};
use crate::model::check::check;
use crate::model::layout::{extra_words, CONTROL_END};
use crate::shapes::table::{all_agree, Input};
use crate::tally::answers::Tally;
use crate::tally::refusals::Refusals;

const LEAST_INPUTS: usize = 200_000;

/// So many of them with extra words.
const LEAST_WITH_WORDS: usize = 200_000;

/// A Length that needs all four bytes of its field.
const OVER_16_MIB: usize = 0x0100_0042;

/// Prints how to make an input again, and the two answers.
pub fn report(call: &str, input: &Input, answer: &str, expected: &str) {
    println!(
        "{}: DIFFERENCE in shape '{}', seed {:#x}",
        call, input.shape, input.seed
    );
    println!(
        "  {} bytes lent: {}",
        input.table.bytes().len(),
        input.table.in_hex()
    );
    println!("  library  {}", answer);
    println!("  document {}", expected);
    if !input.table.is_unchanged() {
        println!("  bytes of the table have changed");
    }
}

struct Counts {
    tally: Tally,
    refusals: Refusals,
    with_words: usize,
}

/// Is there a Control with extra words?
fn has_words(table: &[u8]) -> bool {
    table.len() >= CONTROL_END as usize && !extra_words(table).is_empty()
}

/// One input: true if the library's answer is the reading's and no byte has changed.
fn compare_one(input: &mut Input, counts: &mut Counts) -> bool {
    let verdict = check(input.table.bytes());
    let expected = packed_verdict(&verdict);
    let (table, size) = input.table.lend();
    let answer = unsafe { library::ibft_check(table, size) };
    if answer != expected || !input.table.is_unchanged() {
        report("check", input, &in_words(answer), &in_words(expected));
        return false;
    }
    counts
        .tally
        .count(input.shape, usize::from(verdict.is_err()));
    counts.with_words += usize::from(has_words(input.table.bytes()));
    if let Err(refusal) = verdict {
        counts.refusals.count(input.table.bytes(), &refusal);
    }
    true
}

/// Tables by name, with the Length that RULES.md gives them.
fn known_tables() -> [(&'static str, usize, Table); 16] {
    [
        ("case 1, nothing present", 66, structures(&[]).mended()),
        ("case 2, name missing", 146, structures(&[0]).mended()),
        (
            "case 3, name empty",
            147,
            with_texts(&[0], &[(0, b"")]).mended(),
        ),
        (
            "case 4, iqn.a",
            152,
            with_texts(&[0], &[(0, b"iqn.a")]).mended(),
        ),
        ("case 5, depot7 and 7", 133, case_5()),
        ("case 7, depot7 and depot", 139, depot7_and_depot()),
        (
            "case 8, all five",
            470,
            structures(&[0, 1, 2, 3, 4]).mended(),
        ),
        (
            "case 9, NIC 0 and Target 0",
            230,
            structures(&[1, 2]).mended(),
        ),
        ("a common table", 427, common_table()),
        ("the largest table", 3_702, largest_table()),
        (
            "two words, both unused",
            70,
            Table::with_words(70, 2).mended(),
        ),
        (
            "NIC 2 and Target 2 alone",
            230,
            structures_and_extras(&[], 1, 1).mended(),
        ),
        (
            "twelve extras, no strings",
            1_454,
            structures_and_extras(&[0, 1, 2, 3, 4], 6, 6).mended(),
        ),
        ("a table with 4 targets", 1_240, table_with_targets(4)),
        (
            "the largest table with extras",
            13_710,
            largest_table_with_extras(),
        ),
        ("over 16 MiB", OVER_16_MIB, ends_in_a_one(OVER_16_MIB)),
    ]
}

/// The maker lays the known tables as the document has them, and both sides accept them.
fn known_tables_are_accepted() -> bool {
    for (name, length, table) in &known_tables() {
        let answer = unsafe { library::ibft_check(table.bytes.as_ptr(), table.lent) };
        let expected = packed_verdict(&check(table.lent_bytes()));
        if table.length() != *length || answer != 0 || expected != 0 {
            println!("check: {}: Length {}", name, table.length());
            println!("  library  {}", in_words(answer));
            println!("  document {}", in_words(expected));
            return false;
        }
    }
    true
}

/// Nothing present, and a last byte that the sum must not leave out.
fn ends_in_a_one(length: usize) -> Table {
    let mut table = Table::new(length);
    table.write(length - 1, &[1]);
    table.mended()
}

fn depot7_and_depot() -> Table {
    with_texts(&[2], &[(3, b"depot7"), (5, b"depot")]).mended()
}

pub fn compare() -> bool {
    let mut counts = Counts {
        tally: Tally::new("check", &["accepted", "refused"]),
        refusals: Refusals::default(),
        with_words: 0,
    };
    let agree = known_tables_are_accepted()
        && known_extras_agree()
        && all_agree(|mut input| compare_one(&mut input, &mut counts));
    if !agree {
        return false;
    }
    counts.tally.print();
    counts.refusals.print("refused");
    counts.refusals.print_causes();
    println!("  tables with extra words: {}", counts.with_words);
    counts.refusals.are_all_met("check")
        && counts.with_words >= LEAST_WITH_WORDS
        && counts.tally.is_enough(LEAST_INPUTS)
}
