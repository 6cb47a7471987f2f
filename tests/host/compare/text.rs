//! The programs `tell` and `enter` held to model/enter_tell.rs: tables told, with secrets and with these
//! hidden, and entered again; and texts entered. The environment variables TELL and ENTER name the
//! programs; each input is a run.

use crate::call::programs::{fed, program, run, run_with, Fed};
use crate::known::extras::{worked_tables, WORKED_TEXT};
use crate::known::samples::SAMPLES;
use crate::known::texts::known_texts_agree;
use crate::known::values::known_values_agree;
use crate::make::seeded::Seeded;
use crate::model::build::table_of;
use crate::model::check::Refusal;
use crate::model::enter_tell::*;
use crate::model::family_text::{enter, tell, tell_hidden};
use crate::model::record::{record_read, Record};
use crate::model::text::{record_of, text_of, LONGEST_TEXT};
use crate::shapes::text::{all_tables, all_texts, any_text, table_of_the_longest_text};
use crate::shapes::text_extras::any_text_with_extras;
use crate::tally::answers::Tally;
use crate::tally::text_sights::TextSights;
use std::ffi::OsString;
use std::process::Output;

const LEAST_TABLES: usize = 4_500;
const LEAST_TEXTS: usize = 18_000;

/// The word for `tell` that is to hide secrets.
const HIDE: &str = "hide-secrets";

/// What becomes of a table: it is entered again, it has a zero byte in a string, or it is refused.
const TOLD: &[&str] = &["entered", "zero byte", "refused"];
const AGAIN: usize = 0;
const ZERO_BYTE: usize = 1;
const REFUSED: usize = 2;

/// What becomes of a text.
const ENTERED: &[&str] = &["built", "unread", "refused"];

struct Programs {
    tell: OsString,
    enter: OsString,
}

struct Counts {
    told: Tally,
    entered: Tally,
    sights: TextSights,
}

fn report(call: &str, input: &Fed, answer: &str, expected: &str) {
    println!(
        "{}: DIFFERENCE in '{}', {} bytes",
        call,
        input.name,
        input.bytes.len()
    );
    println!("  input:    {}", in_ascii(&input.bytes));
    println!("  program:  {}", answer);
    println!("  document: {}", expected);
}

fn in_ascii(bytes: &[u8]) -> String {
    let shown = &bytes[..bytes.len().min(5_000)];
    shown.escape_ascii().to_string()
}

fn in_words(output: &Result<Output, String>) -> String {
    match output {
        Ok(output) => format!(
            "standard output {}, standard error {}",
            in_ascii(&output.stdout),
            in_ascii(&output.stderr)
        ),
        Err(error) => error.clone(),
    }
}

// ---- One run ----

/// Is this what is told? Nothing goes to standard error.
fn is_told(output: &Output, expected: &str) -> bool {
    output.stdout == expected.as_bytes() && output.stderr.is_empty()
}

/// A table goes to standard output and nothing to standard error, or the other way round.
fn is_entered(output: &Output, expected: &Entered) -> bool {
    let Output { stdout, stderr, .. } = output;
    match expected {
        Entered::Table(table) => stdout == table && stderr.is_empty(),
        Entered::Unread(message) => {
            stdout.is_empty() && *stderr == format!("{}\n", message).into_bytes()
        }
        Entered::Refused(refusal, words) => {
            let lines = format!("{}\n{}\n", refusal.line(), words);
            stdout.is_empty() && *stderr == lines.into_bytes()
        }
    }
}

/// Tells a table: its words, what is to be told.
fn compare_tell(programs: &Programs, words: &[&str], input: &Fed, expected: &str) -> bool {
    let output = run_with(&programs.tell, words, input);
    let agrees = matches!(&output, Ok(output) if is_told(output, expected));
    if !agrees {
        let call = ["tell"].into_iter().chain(words.iter().copied());
        let call = call.collect::<Vec<&str>>().join(" ");
        let expected = in_ascii(expected.as_bytes());
        report(&call, input, &in_words(&output), &expected);
    }
    agrees
}

fn compare_enter(programs: &Programs, input: &Fed, expected: &Entered) -> bool {
    let output = run(&programs.enter, input);
    let agrees = matches!(&output, Ok(output) if is_entered(output, expected));
    if !agrees {
        let expected = match expected {
            Entered::Table(table) => in_ascii(table),
            other => format!("{:?}", other),
        };
        report("enter", input, &in_words(&output), &expected);
    }
    agrees
}

// ---- Tables ----

/// What is to come of a record that was read from a table: its build, or the refusal of the first
/// string that has a zero byte.
fn entered_again(record: &Record) -> Entered {
    let has_zero = |text: &Option<Vec<u8>>| matches!(text, Some(text) if text.contains(&0));
    match record.entries.iter().position(has_zero) {
        None => Entered::Table(table_of(record)),
        Some(entry) => refused(record, Refusal::new(20, entry as u64)),
    }
}

/// The record with every secret missing.
fn without_secrets(record: &Record) -> Record {
    let mut record = record.clone();
    for (entry, is_secret) in record.secrets().into_iter().enumerate() {
        if is_secret {
            record.entries[entry] = None;
        }
    }
    record
}

/// Tells a table with its secrets and with these hidden, enters what was told, and holds what comes of
/// that to the table's record.
fn compare_table(programs: &Programs, input: &Fed, counts: &mut Counts) -> bool {
    let (text, hidden) = (tell(&input.bytes), tell_hidden(&input.bytes));
    if !compare_tell(programs, &[], input, &text)
        || !compare_tell(programs, &[HIDE], input, &hidden)
    {
        return false;
    }
    let table = &input.bytes[..input.bytes.len().min(INPUT_LIMIT)];
    match record_read(table) {
        None => {
            counts.told.count(input.name, REFUSED);
            // A text that says "refused" is none of a record.
            let told = fed(input.name, text.into_bytes());
            compare_enter(programs, &told, &enter(&told.bytes))
        }
        Some(record) => {
            counts.sights.see_told(table, &text);
            counts.sights.see_hidden(&hidden);
            let entered = entered_again(&record);
            let is_table = matches!(entered, Entered::Table(_));
            let column = if is_table { AGAIN } else { ZERO_BYTE };
            counts.told.count(input.name, column);
            let has_secrets = hidden != text;
            let rest = without_secrets(&record);
            compare_again(programs, input, &record, text, counts)
                && (!has_secrets || compare_again(programs, input, &rest, hidden, counts))
        }
    }
}

/// Enters a text that was told, which gives this record; its table reads as the record, and is told as
/// the same text but for comments.
fn compare_again(
    programs: &Programs,
    input: &Fed,
    record: &Record,
    text: String,
    counts: &mut Counts,
) -> bool {
    let told = fed(input.name, text.clone().into_bytes());
    let entered = enter(&told.bytes);
    counts.sights.see_entered(&told.bytes, &entered);
    if !is_the_record(input, record, &entered) || !compare_enter(programs, &told, &entered) {
        return false;
    }
    match entered {
        Entered::Table(table) => {
            let lines = text.lines().filter(|line| !line.starts_with('#'));
            let lines: String = lines.map(|line| format!("{}\n", line)).collect();
            compare_tell(programs, &[], &fed(input.name, table), &lines)
        }
        _ => true,
    }
}

/// Is this what is to come of the record, and does the table read as it?
fn is_the_record(input: &Fed, record: &Record, entered: &Entered) -> bool {
    let again = entered_again(record);
    let reads_the_same = match entered {
        Entered::Table(table) => record_read(table).as_ref() == Some(record),
        _ => true,
    };
    if *entered != again || !reads_the_same {
        let (entered, again) = (format!("{:?}", entered), format!("{:?}", again));
        report("tell, then enter", input, &entered, &again);
        return false;
    }
    true
}

// ---- Texts ----

fn compare_text(programs: &Programs, input: &Fed, counts: &mut Counts) -> bool {
    let expected = enter(&input.bytes);
    if !compare_enter(programs, input, &expected) {
        return false;
    }
    counts.sights.see_entered(&input.bytes, &expected);
    let column = match expected {
        Entered::Table(_) => 0,
        Entered::Unread(_) => 1,
        Entered::Refused(..) => 2,
    };
    counts.entered.count(input.name, column);
    true
}

// ---- The model alone ----

/// The stored texts are those of the model, and give the tables' records.
fn stored_texts_hold() -> bool {
    SAMPLES.iter().all(|sample| {
        let told = tell(sample.table);
        let holds =
            told == sample.told && record_of(told.as_bytes()).ok() == record_read(sample.table);
        if !holds {
            println!(
                "text: samples/{}.record is not what the document asks:",
                sample.name
            );
            println!("{}", told);
        }
        holds
    })
}

/// A text gives the record that it was made from, whatever the notation, and so does the text that
/// the record is told as.
fn model_agrees_with_maker() -> bool {
    let makers = [any_text, any_text_with_extras];
    (0..8_000).all(|seed| {
        let make = makers[seed % makers.len()];
        let (record, text) = make(&mut Seeded::new(seed as u64));
        let agrees = record_of(&text).as_ref() == Ok(&record)
            && record_of(text_of(&record).as_bytes()).as_ref() == Ok(&record);
        if !agrees {
            println!(
                "text: the record of seed {} is not read from its text:",
                seed
            );
            println!("{}", in_ascii(&text));
            println!("{:?}\n{:?}", record, record_of(&text));
        }
        agrees
    })
}

/// The table that is worked by hand is told by Index, whatever the order of its words; and the longest
/// text there is can be entered.
fn told_as_known() -> bool {
    let longest = tell(&table_of_the_longest_text().bytes);
    let fits = longest.len() <= LONGEST_TEXT && record_of(longest.as_bytes()).is_ok();
    if !fits {
        println!("text: the longest text has {} bytes", longest.len());
    }
    fits && worked_tables().iter().all(|table| {
        let told = tell(&table.bytes);
        if told != WORKED_TEXT {
            println!("text: the worked table is told as\n{}", told);
        }
        told == WORKED_TEXT
    })
}

pub fn compare() -> bool {
    if !known_values_agree()
        || !known_texts_agree()
        || !stored_texts_hold()
        || !model_agrees_with_maker()
        || !told_as_known()
    {
        return false;
    }
    let programs = match (program("TELL"), program("ENTER")) {
        (Some(tell), Some(enter)) => Programs { tell, enter },
        _ => return false,
    };
    let mut counts = Counts {
        told: Tally::new("tell, then enter", TOLD),
        entered: Tally::new("enter", ENTERED),
        sights: TextSights::default(),
    };
    let agree = all_tables()
        .iter()
        .all(|input| compare_table(&programs, input, &mut counts))
        && all_texts()
            .iter()
            .all(|input| compare_text(&programs, input, &mut counts));
    if !agree {
        return false;
    }
    counts.told.print();
    counts.entered.print();
    counts.sights.print();
    counts.sights.are_enough()
        && counts.told.is_enough(LEAST_TABLES)
        && counts.entered.is_enough(LEAST_TEXTS)
}
