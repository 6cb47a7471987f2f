//! The program `compare` held to model/compare_text.rs, with secrets and with these hidden: pairs worked by hand, the
//! samples against each other, and some of each shape. The environment variable COMPARE names the program; each input
//! is a run.

use crate::call::programs::{fed, program, run_with, Fed};
use crate::known::differences::known_pairs;
use crate::make::seeded::Seeded;
use crate::make::table::Table;
use crate::model::compare_text::compare_text;
use crate::model::enter_tell::INPUT_LIMIT;
use crate::shapes::pair::{Pair, FIRST_SHAPE, PAIR_SHAPES};
use crate::tally::answers::Tally;
use std::ffi::OsStr;

/// About so many pairs of each shape.
const OF_EACH: usize = 16;
const LEAST_RUNS: usize = 700;

const HIDE: &str = "hide-secrets";

/// Columns of the counts.
const ANSWERS: &[&str] = &["none", "some", "refused"];

/// Words that have to be met in what is printed.
const WANTED: &[&str] = &[
    "no difference\n",
    "\n1 difference\n",
    " differences\n",
    "oem.id ",
    "oem.table ",
    "control multi\t| single\n",
    "control single\t| multi\n",
    "initiator\tonly in LEFT\n",
    "nic0\tonly in RIGHT\n",
    "target255\tonly in ",
    ".flags none\t| ",
    ".address ::\t| ",
    ".vlan 0\t| ",
    ".mac ",
    ".pci ",
    ".lun ",
    ".chap none\t| mutual\n",
    "initiator.name ",
    ".host ",
    "\tfrom byte 0: ",
    ": \"\"\n",
    "\"\"\t| ",
    "\t| \"\"\t",
    "\"\"\tonly in LEFT\n",
    "\"\"\tonly in RIGHT\n",
    ".chap-secret\tdiffers, hidden\n",
    ".reverse-secret\tdiffers, hidden\n",
    ".chap-secret\tonly in LEFT\n",
    ".reverse-secret\tonly in RIGHT\n",
    "refused 6 9 ",
];

// ---- Inputs ----

/// The left table's size, both tables.
fn input_of(name: &'static str, left: &Table, right: &Table) -> Fed {
    let (left, right) = (left.lent_bytes(), right.lent_bytes());
    let size = format!("{}\n", left.len());
    fed(name, [size.as_bytes(), left, right].concat())
}

fn has_room(pair: &Pair) -> bool {
    pair.left.lent <= INPUT_LIMIT && pair.right.lent <= INPUT_LIMIT
}

/// Some of each shape, from its first to its last, as far as the program takes tables that large.
fn some_pairs() -> Vec<(&'static str, Pair)> {
    let mut some = Vec::new();
    for (i, (shape, pairs, make)) in (FIRST_SHAPE..).zip(PAIR_SHAPES) {
        let step = match *shape {
            "each sample against each" => 1,
            _ => (pairs / OF_EACH) | 1,
        };
        for n in (0..*pairs).step_by(step) {
            let seed = ((i as u64) << 32) + n as u64;
            some.push((*shape, make(n, &mut Seeded::new(seed))));
        }
    }
    some.retain(|(_, pair)| has_room(pair));
    some
}

fn all_pairs() -> Vec<(&'static str, Pair)> {
    let by_hand = known_pairs().into_iter().map(|(left, right)| {
        let pair = Pair {
            left,
            right,
            differences: None,
        };
        ("worked by hand", pair)
    });
    by_hand.chain(some_pairs()).collect()
}

// ---- Runs ----

fn run_agrees(program: &OsStr, words: &[&str], input: &Fed, expected: &str) -> bool {
    let output = run_with(program, words, input);
    let agrees = matches!(&output, Ok(done) if done.stdout == expected.as_bytes() && done.stderr.is_empty());
    if !agrees {
        println!(
            "compare {}: DIFFERENCE in '{}': {}",
            words.join(" "),
            input.name,
            input.bytes.escape_ascii()
        );
        println!("  program  {:?}", output);
        println!("  document {:?}", expected);
    }
    agrees
}

/// Whole, and one in eight in pieces.
fn pair_agrees(
    program: &OsStr,
    number: usize,
    (shape, pair): &(&'static str, Pair),
    tally: &mut Tally,
    printed: &mut String,
) -> bool {
    let mut input = input_of(shape, &pair.left, &pair.right);
    if number % 8 == 0 {
        input.piece = 1 + input.bytes.len() / 7;
    }
    for (words, hides) in [(&[][..], false), (&[HIDE][..], true)] {
        let expected = compare_text(pair.left.lent_bytes(), pair.right.lent_bytes(), hides);
        if !run_agrees(program, words, &input, &expected) {
            return false;
        }
        let answer = match expected.as_str() {
            "no difference\n" => 0,
            text if text.starts_with("refused ") => 2,
            _ => 1,
        };
        tally.count(shape, answer);
        *printed += &expected;
    }
    true
}

pub fn compare() -> bool {
    let Some(program) = program("COMPARE") else {
        return false;
    };
    let mut tally = Tally::new("differences, program", ANSWERS);
    let mut printed = String::new();
    let pairs = all_pairs();
    let mut numbered = pairs.iter().enumerate();
    if !numbered.all(|(n, pair)| pair_agrees(&program, n, pair, &mut tally, &mut printed)) {
        return false;
    }
    tally.print();
    let unmet: Vec<&&str> = WANTED.iter().filter(|words| !printed.contains(**words)).collect();
    for words in &unmet {
        println!("differences, program: nothing printed has {:?}", words);
    }
    unmet.is_empty() && tally.is_enough(LEAST_RUNS)
}
