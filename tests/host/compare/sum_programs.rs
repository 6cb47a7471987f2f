//! The line that `show`, `tell` and `rebuild` print of a refusal, which has the checksum byte with 6 alone: the
//! programs held to the models on tables whose sums are worked by hand and on samples with a bit flipped. The
//! environment variables SHOW, TELL and REBUILD name the programs; each input is a run.

use crate::call::programs::{fed, program, run_with};
use crate::known::samples::{ABFT_SAMPLE, SAMPLES, SBFT_SAMPLE};
use crate::known::sums::known_sums;
use crate::model::family_text::{show, tell, tell_hidden};
use crate::model::rebuild::rebuilt;
use crate::sum::BEHIND;
use crate::tally::answers::Tally;
use std::ffi::OsStr;

/// Columns of the counts.
const ANSWERS: &[&str] = &["accepted", "6", "another"];
const ACCEPTED: usize = 0;
const WRONG_SUM: usize = 1;
const ANOTHER: usize = 2;

/// A program, the variable that names it, its words, and what it writes: on standard output, on standard error.
struct Program {
    name: &'static str,
    variable: &'static str,
    words: &'static [&'static str],
    document: fn(&[u8]) -> (Vec<u8>, String),
}

const PROGRAMS: [Program; 4] = [
    Program {
        name: "show",
        variable: "SHOW",
        words: &[],
        document: |table| (show(table).into_bytes(), String::new()),
    },
    Program {
        name: "tell",
        variable: "TELL",
        words: &[],
        document: |table| (tell(table).into_bytes(), String::new()),
    },
    Program {
        name: "tell hide-secrets",
        variable: "TELL",
        words: &["hide-secrets"],
        document: |table| (tell_hidden(table).into_bytes(), String::new()),
    },
    Program {
        name: "rebuild",
        variable: "REBUILD",
        words: &[],
        document: |table| match rebuilt(table) {
            Ok(rebuilt) => (rebuilt.table, String::new()),
            Err(refusal) => (Vec::new(), format!("{}\n", refusal.line())),
        },
    },
];

/// Samples with a bit flipped in Length, Revision, the checksum byte, the first reserved byte and the last byte.
fn flipped_samples() -> Vec<Vec<u8>> {
    let mut tables = Vec::new();
    for sample in SAMPLES.iter().chain([&ABFT_SAMPLE, &SBFT_SAMPLE]) {
        for (at, bit) in [
            (4, 0),
            (4, 7),
            (8, 0),
            (9, 0),
            (9, 7),
            (24, 3),
            (sample.table.len() - 1, 5),
        ] {
            let mut table = sample.table.to_vec();
            table[at] ^= 1 << bit;
            tables.push([&table[..], &BEHIND].concat());
            tables.push(table);
        }
    }
    tables
}

/// The lines that are worked by hand are those of the models.
fn known_lines_hold() -> bool {
    known_sums().iter().all(|known| {
        let table = known.table.lent_bytes();
        let line = format!("{}\n", known.line);
        let holds =
            known.line.is_empty() || [show(table), tell(table)].iter().all(|printed| *printed == line);
        if !holds {
            println!("sum: {} is printed as {}", known.line, show(table));
        }
        holds
    })
}

fn program_agrees(subject: &Program, path: &OsStr, table: Vec<u8>, tally: &mut Tally) -> bool {
    let (printed, said) = (subject.document)(&table);
    let input = fed(subject.name, table);
    let output = run_with(path, subject.words, &input);
    let agrees = matches!(&output, Ok(done) if done.stdout == printed && done.stderr == said.as_bytes());
    if !agrees {
        println!("sum: {}: DIFFERENCE, {:02x?}", subject.name, input.bytes);
        println!("  program  {:?}", output);
        println!("  document {:?} {:?}", String::from_utf8_lossy(&printed), said);
    }
    let line = [&printed, said.as_bytes()].concat();
    let answer = match line.as_slice() {
        line if line.starts_with(b"refused 6 9 ") => WRONG_SUM,
        line if line.starts_with(b"refused ") => ANOTHER,
        _ => ACCEPTED,
    };
    tally.count(subject.name, answer);
    agrees
}

pub fn compare() -> bool {
    if !known_lines_hold() {
        return false;
    }
    let mut tally = Tally::new("checksum byte, programs", ANSWERS);
    for subject in &PROGRAMS {
        let Some(path) = program(subject.variable) else {
            return false;
        };
        let known = known_sums()
            .into_iter()
            .map(|known| known.table.lent_bytes().to_vec());
        let mut tables = known.chain(flipped_samples());
        if !tables.all(|table| program_agrees(subject, &path, table, &mut tally)) {
            return false;
        }
    }
    tally.print();
    tally.is_enough(PROGRAMS.len() * 100)
}
