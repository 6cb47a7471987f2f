//! The program `show` held to model/show.rs, and to model/family_text.rs where damage makes a table one of
//! another family. The environment variable SHOW names the program; each
//! input is one run of it.

use crate::call::programs::{fed, program, run, Fed};
use crate::known::samples::SAMPLES;
use crate::make::table::*;
use crate::model::check::check;
use crate::model::enter_tell::INPUT_LIMIT;
use crate::model::family_text::show;
use crate::model::layout::{NIC, TARGET};
use crate::shapes::table::some_of_each;
use crate::tally::answers::Tally;
use crate::tally::refusals::Refusals;
use std::ffi::OsString;

const LEAST_INPUTS: usize = 300;
const OF_EACH_SHAPE: usize = 12;

// ---- Running the program ----

/// What the program prints. Nothing may go to standard error.
fn printed(program: &OsString, input: &Fed) -> String {
    match run(program, input) {
        Ok(output) if output.stderr.is_empty() => {
            String::from_utf8_lossy(&output.stdout).into_owned()
        }
        Ok(output) => {
            let said = String::from_utf8_lossy(&output.stderr);
            format!("{}, standard error: {}", output.status, said)
        }
        Err(error) => error,
    }
}

fn compare_one(program: &OsString, input: &Fed, counts: &mut (Tally, Refusals)) -> bool {
    let expected = show(&input.bytes);
    let answer = printed(program, input);
    if answer != expected {
        println!(
            "show: DIFFERENCE in '{}', {} bytes",
            input.name,
            input.bytes.len()
        );
        println!("  program:\n{}", answer);
        println!("  document:\n{}", expected);
        return false;
    }
    let table = &input.bytes[..input.bytes.len().min(INPUT_LIMIT)];
    let verdict = check(table);
    counts.0.count(input.name, usize::from(verdict.is_err()));
    if let Err(refusal) = verdict {
        counts.1.count(table, &refusal);
    }
    true
}

// ---- Inputs ----

/// The stored outputs are those of the reading.
fn stored_outputs_hold() -> bool {
    SAMPLES.iter().all(|sample| {
        let shown = show(sample.table);
        if shown != sample.shown {
            println!(
                "show: samples/{}.txt is not what the document asks:",
                sample.name
            );
            println!("{}", shown);
        }
        shown == sample.shown
    })
}

/// The example of RULES.md, Show, letter by letter, for the table that it describes.
fn example_holds() -> bool {
    let example = "table 133\ncontrol multi\ntarget0 72 1\nentry 3 126 6\nentry 5 131 1\norder 0\n";
    let holds = SAMPLES[0].shown == example && SAMPLES[0].table == case_5().bytes;
    if !holds {
        println!(
            "show: samples/{} is not the document's example",
            SAMPLES[0].name
        );
    }
    holds
}

/// The names of extras, letter by letter: NIC 5, Target 9 and Target 255 of a Control of 24 bytes, with a
/// string of each.
fn extras_are_named() -> bool {
    let mut table = Table::with_words(286, 3);
    table.put_extra(5, &TARGET, 255, 232);
    table.put_extra(6, &NIC, 5, 72);
    table.put_extra(7, &TARGET, 9, 176);
    table.set_flags(5, 1);
    table.append_text(13, b"a.");
    table.append_text(14, b"iqn.9");
    table.append_text(20, b"login");
    let shown = show(&table.mended().bytes);
    let example = "table 301\ncontrol multi\nnic5 72 0\ntarget9 176 0\ntarget255 232 1\n\
                   entry 13 286 2\nentry 14 289 5\nentry 20 295 5\norder 255\n";
    if shown != example {
        println!("show: the reading does not name extras:\n{}", shown);
    }
    shown == example
}

fn samples() -> Vec<Fed> {
    let mut inputs = Vec::new();
    for sample in &SAMPLES {
        inputs.push(fed("samples", sample.table.to_vec()));
        inputs.push(fed("samples", with_rest(sample.table, 300)));
        let mut broken = sample.table.to_vec();
        broken[9] ^= 1;
        inputs.push(fed("samples", broken));
    }
    inputs
}

/// The bytes and as many more, which are no part of the table.
fn with_rest(table: &[u8], more: usize) -> Vec<u8> {
    let mut bytes = table.to_vec();
    bytes.resize(table.len() + more, 0x5A);
    bytes
}

/// A good table of just that Length: Target 1 alone, a string at the very end.
fn table_of_length(length: usize) -> Vec<u8> {
    let mut table: Table = structures(&[4]);
    let end = table.length();
    table.append_bytes(&vec![0; length - end - 3]);
    table.append_text(9, b"ab");
    table.set_flags(4, 3);
    table.mended().bytes
}

/// The input's limit: a table that fills it, one that is a byte longer, and bytes behind a table.
fn about_the_limit() -> Vec<Fed> {
    let mut inputs = Vec::new();
    for length in [
        INPUT_LIMIT - 1,
        INPUT_LIMIT,
        INPUT_LIMIT + 1,
        INPUT_LIMIT + 904,
        65_536,
    ] {
        let table = table_of_length(length);
        for more in [0, 1, 5_000, 300_000] {
            inputs.push(fed("about 16,384 bytes", with_rest(&table, more)));
        }
    }
    for size in [0, 1, 3, 4, 47, 48, 49, 65, 66] {
        inputs.push(fed("few bytes", with_rest(b"", size)));
        let cut = SAMPLES[0].table[..size].to_vec();
        inputs.push(fed("few bytes", cut));
    }
    inputs
}

/// What the program reads at once is less than there is.
fn in_pieces() -> Vec<Fed> {
    let mut inputs = Vec::new();
    for sample in &SAMPLES {
        for piece in [41, 100, 512] {
            inputs.push(Fed {
                name: "in pieces",
                bytes: sample.table.to_vec(),
                piece,
            });
        }
    }
    for length in [INPUT_LIMIT, INPUT_LIMIT + 1] {
        inputs.push(Fed {
            name: "in pieces",
            bytes: with_rest(&table_of_length(length), 700),
            piece: 1_000,
        });
    }
    inputs
}

/// Tables whose output has something of its own: an empty string and a missing one, both modes, a
/// selected target, none that is valid, a host name with a dot at its end.
fn told_apart() -> Vec<Fed> {
    let mut tables = vec![
        structures(&[]),
        structures(&[0]),
        with_texts(&[0], &[(0, b"")]),
        with_texts(&[1, 3], &[(1, b"a."), (7, b"a.b")]),
        with_texts(&[1], &[(1, b"a.b.")]),
        with_texts(&[0], &[(0, &[b'n'; 223])]),
        with_texts(&[0], &[(0, &[b'n'; 224])]),
        structures(&[0, 1, 2, 3, 4]),
    ];
    tables.push(structures_and_extras(&[], 1, 1));
    tables.push(structures_and_extras(&[0, 1, 2, 3, 4], 6, 6));
    tables.push(full_table_with_extras());
    tables.push(largest_table_with_extras());
    tables.push(Table::with_words(90, 12));
    for n in 0..32 {
        let mut table = structures(&[2, 4]);
        table.set_control_flags(n >> 4);
        table.set_flags(2, n & 3);
        table.set_flags(4, n >> 2 & 3);
        tables.push(table);
    }
    let inputs = tables.into_iter().map(|table| table.mended().bytes);
    inputs.map(|bytes| fed("told apart", bytes)).collect()
}

fn shapes() -> Vec<Fed> {
    let inputs = some_of_each(OF_EACH_SHAPE).into_iter();
    inputs
        .map(|input| fed(input.shape, input.table.bytes().to_vec()))
        .collect()
}

pub fn compare() -> bool {
    let program = match program("SHOW") {
        Some(program) => program,
        None => return false,
    };
    if !stored_outputs_hold() || !example_holds() || !extras_are_named() {
        return false;
    }
    let inputs = [
        samples(),
        about_the_limit(),
        in_pieces(),
        told_apart(),
        shapes(),
    ]
    .concat();
    let mut counts = (
        Tally::new("show", &["shown", "refused"]),
        Refusals::default(),
    );
    if !inputs
        .iter()
        .all(|input| compare_one(&program, input, &mut counts))
    {
        return false;
    }
    let (tally, refusals) = counts;
    tally.print();
    refusals.print("refused");
    let numbers = (3..=19).chain([33, 34]);
    let unmet: Vec<u64> = numbers.filter(|n| !refusals.is_met(*n)).collect();
    if !unmet.is_empty() {
        println!("show: no input has the refusals {:?}", unmet);
        return false;
    }
    tally.is_enough(LEAST_INPUTS)
}
