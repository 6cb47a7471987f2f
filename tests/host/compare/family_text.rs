//! The programs `enter`, `tell`, `show` and `find` held to model/family_text.rs on tables, texts and dumps of the
//! other two families, and of all three together. The environment variables ENTER, TELL, SHOW and FIND name the
//! programs; each input is a run.

use crate::call::programs::{fed, program, run, run_with, Fed};
use crate::damage::family::{ABFT_DAMAGES, SBFT_DAMAGES};
use crate::damage::table::Damage;
use crate::families::{self as families, Make};
use crate::known::samples::{Sample, ABFT_SAMPLE, SAMPLES, SBFT_SAMPLE};
use crate::make::family::{good_abft, good_sbft, written_sbft};
use crate::make::family_texts::*;
use crate::make::seeded::Seeded;
use crate::make::table::Table;
use crate::model::abft as abft;
use crate::model::enter_tell::Entered;
use crate::model::family_text::*;
use crate::model::sbft as sbft;
use crate::model::scan::{ABFT, IBFT, SBFT};
use crate::tally::answers::Tally;
use std::collections::BTreeMap;
use std::ffi::OsString;
use std::process::Output;

const LEAST_TABLES: usize = 1_100;
const LEAST_TEXTS: usize = 2_500;
const LEAST_DUMPS: usize = 200;

struct Programs {
    enter: OsString,
    tell: OsString,
    show: OsString,
    find: OsString,
}

fn in_ascii(bytes: &[u8]) -> String {
    bytes[..bytes.len().min(3_000)].escape_ascii().to_string()
}

fn report(call: &str, input: &Fed, output: &Result<Output, String>, expected: &str) -> bool {
    println!(
        "{}: DIFFERENCE in '{}', {} bytes",
        call,
        input.name,
        input.bytes.len()
    );
    println!("  input:    {}", in_ascii(&input.bytes));
    match output {
        Ok(output) => {
            println!("  program:  standard output {}", in_ascii(&output.stdout));
            println!("            standard error {}", in_ascii(&output.stderr));
        }
        Err(error) => println!("  program:  {}", error),
    }
    println!("  document: {}", expected.escape_default());
    false
}

// ---- One run ----

/// Does the program print this, and nothing on standard error?
fn prints(call: &str, program: &OsString, words: &[&str], input: &Fed, expected: &str) -> bool {
    let output = run_with(program, words, input);
    match &output {
        Ok(done) if done.stdout == expected.as_bytes() && done.stderr.is_empty() => true,
        _ => report(call, input, &output, expected),
    }
}

/// A table goes to standard output and nothing to standard error, or the other way round.
fn enters(programs: &Programs, input: &Fed, expected: &Entered) -> bool {
    let (table, said) = match expected {
        Entered::Table(table) => (table.clone(), String::new()),
        Entered::Unread(message) => (Vec::new(), format!("{}\n", message)),
        Entered::Refused(refusal, words) => (Vec::new(), format!("{}\n{}\n", refusal.line(), words)),
    };
    let output = run(&programs.enter, input);
    match &output {
        Ok(done) if done.stdout == table && done.stderr == said.as_bytes() => true,
        _ => report("enter", input, &output, &format!("{} {}", in_ascii(&table), said)),
    }
}

// ---- Samples ----

/// Both sides have what is stored beside a sample, and its record is entered as the table again.
fn sample_agrees(programs: &Programs, sample: &Sample) -> bool {
    let table = fed(sample.name, sample.table.to_vec());
    let text = fed(sample.name, sample.told.as_bytes().to_vec());
    if (show(sample.table).as_str(), tell(sample.table).as_str()) != (sample.shown, sample.told) {
        println!("{}: the stored outputs are not those of the reading", sample.name);
        return false;
    }
    prints("show", &programs.show, &[], &table, sample.shown)
        && prints("tell", &programs.tell, &[], &table, sample.told)
        && enters(programs, &text, &Entered::Table(sample.table.to_vec()))
}

// ---- Tables ----

/// How a table of one of the two families is made, and its faults.
fn either(seeded: &mut Seeded) -> (Make, &'static [Damage]) {
    seeded.one_of(&[(good_abft as Make, ABFT_DAMAGES), (good_sbft, SBFT_DAMAGES)])
}

fn damaged(seeded: &mut Seeded) -> Table {
    let (make, damages) = either(seeded);
    families::damaged(seeded, make, damages, 1)
}

fn sum_wrong(seeded: &mut Seeded) -> Table {
    let (make, damages) = either(seeded);
    families::sum_wrong(seeded, make, damages)
}

type TableShape = (&'static str, usize, fn(&mut Seeded) -> Table);

const TABLES: &[TableShape] = &[
    ("aBFTs", 250, good_abft),
    ("sBFTs", 250, good_sbft),
    ("sBFTs as they are written", 150, written_sbft),
    ("with a fault", 300, damaged),
    ("with a wrong sum", 200, sum_wrong),
];

/// A table is shown and told; told with secrets hidden it is the same, as it has none; what is told of one that
/// is accepted is entered as the table that a write lays.
fn compare_table(programs: &Programs, input: &Fed, tally: &mut Tally) -> bool {
    let (shown, told) = (show(&input.bytes), tell(&input.bytes));
    let agrees = prints("show", &programs.show, &[], input, &shown)
        && prints("tell", &programs.tell, &[], input, &told)
        && prints(
            "tell hide-secrets",
            &programs.tell,
            &["hide-secrets"],
            input,
            &told,
        );
    let written = match family_of_table(&input.bytes) {
        ABFT => abft::read(&input.bytes).ok().map(|read| read.table()),
        SBFT => sbft::read(&input.bytes).ok().map(|read| read.table()),
        _ => None,
    };
    tally.count(input.name, usize::from(written.is_none()));
    match written {
        Some(table) if agrees => {
            let again = fed(input.name, told.into_bytes());
            enters(programs, &again, &Entered::Table(table))
        }
        _ => agrees,
    }
}

fn tables_agree(programs: &Programs) -> bool {
    let mut tally = Tally::new("families: show, tell, enter", &["accepted", "refused"]);
    for (i, (shape, inputs, make)) in TABLES.iter().enumerate() {
        for n in 0..*inputs {
            let table = make(&mut Seeded::new((0x30 << 48) + ((i as u64) << 32) + n as u64));
            let input = fed(shape, table.lent_bytes().to_vec());
            if !compare_table(programs, &input, &mut tally) {
                return false;
            }
        }
    }
    tally.print();
    tally.is_enough(LEAST_TABLES)
}

// ---- Texts ----

type TextShape = (&'static str, usize, fn(&mut Seeded) -> Vec<u8>);

const TEXTS: &[TextShape] = &[
    ("good texts", 700, good_text),
    ("odd fields", 300, text_with_odd_field),
    ("fields twice", 200, text_with_field_twice),
    ("odd values", 700, text_with_odd_value),
    ("odd OEM fields", 300, text_with_odd_oem),
    ("lines of another family", 500, text_with_stray_line),
    ("OEM fields alone", 50, text_of_oem_fields),
];

/// What is said of a text, without the line's number.
fn said(entered: &Entered) -> String {
    match entered {
        Entered::Table(table) => family_of_table(table).name.to_string(),
        Entered::Unread(message) => message.splitn(3, ": ").last().unwrap().to_string(),
        Entered::Refused(refusal, _) => refusal.line(),
    }
}

/// All that `enter` can say of a text of these two families.
fn all_said() -> Vec<String> {
    let known = [
        "aBFT",
        "sBFT",
        "iBFT",
        "there is no such field",
        "this field was given before",
        "the string has more than 6 bytes",
        "the string has more than 8 bytes",
        "refused 8 10",
        "refused 8 16",
    ];
    let mut all: Vec<String> = known.iter().map(|said| said.to_string()).collect();
    for (_, notation) in [rows(&ABFT), rows(&SBFT)].concat() {
        all.push(reason(notation));
    }
    for text in FOUND_ORDER {
        for stray in FOUND_ORDER.iter().filter(|stray| **stray != text) {
            all.push(format!(
                "this field is of an {}, and the text of an {}",
                stray.name, text.name
            ));
        }
    }
    all
}

fn texts_agree(programs: &Programs) -> bool {
    let mut tally = Tally::new("families: enter", &["table", "unread", "refused"]);
    let mut times: BTreeMap<String, usize> = BTreeMap::new();
    for (i, (shape, inputs, make)) in TEXTS.iter().enumerate() {
        for n in 0..*inputs {
            let text = make(&mut Seeded::new((0x31 << 48) + ((i as u64) << 32) + n as u64));
            let expected = enter(&text);
            if !enters(programs, &fed(shape, text), &expected) {
                return false;
            }
            let answer = match &expected {
                Entered::Table(_) => 0,
                Entered::Unread(_) => 1,
                Entered::Refused(..) => 2,
            };
            tally.count(shape, answer);
            *times.entry(said(&expected)).or_default() += 1;
        }
    }
    tally.print();
    let unsaid: Vec<String> = all_said()
        .into_iter()
        .filter(|said| !times.contains_key(said))
        .collect();
    for said in &unsaid {
        println!("families: enter: no text is answered by '{}'", said);
    }
    unsaid.is_empty() && longest_text_agrees(programs) && tally.is_enough(LEAST_TEXTS)
}

/// As long as a text can be, and one byte longer.
fn longest_text_agrees(programs: &Programs) -> bool {
    let mut text = b"abft.slot 3\n#".to_vec();
    text.resize(65_536, b'-');
    let whole = fed("as long as can be", text.clone());
    text.push(b'-');
    let longer = fed("a byte too long", text);
    let too_long = Entered::Unread("enter: the text has more than 65536 bytes".to_string());
    enters(programs, &whole, &enter(&whole.bytes))
        && enter(&longer.bytes) == too_long
        && enters(programs, &longer, &too_long)
}

// ---- Dumps ----

/// A table of any family, good or with a wrong sum.
fn any_table(seeded: &mut Seeded) -> Vec<u8> {
    let ibft = SAMPLES[seeded.between(0, 1)].table.to_vec();
    let (abft, sbft) = (good_abft(seeded), good_sbft(seeded));
    let cut = |table: Table| table.bytes[..table.length()].to_vec();
    let (abft, sbft) = (cut(abft), cut(sbft));
    let mut table = [ibft, abft, sbft][seeded.between(0, 2)].clone();
    if seeded.once_in(6) {
        table[9] ^= 1;
    }
    table
}

/// A dump with tables at some of the places that matter: address 0, the ends of both windows, anywhere.
fn any_dump(seeded: &mut Seeded) -> (u64, Vec<u8>) {
    let (first, end): (usize, usize) = seeded.one_of(&[
        (0, 0xA0000),
        (0, 0x100000),
        (0, 0x100001),
        (0, 0x1000),
        (0x9F000, 0xA0000),
        (0x9F000, 0xA0800),
        (0x7F008, 0x81000),
        (0xFF000, 0x100000),
        (0xA0000, 0xA1000),
    ]);
    let mut dump = vec![0xFF; end - first];
    for _ in 0..seeded.between(1, 5) {
        let table = any_table(seeded);
        let any = seeded.between(first, end) / 16 * 16;
        let at = seeded.one_of(&[0, 0x80000, 0xA0000 - 0x400, 0xFF000, first, any, any + 8]);
        if first <= at && at + table.len() <= end {
            dump[at - first..at - first + table.len()].copy_from_slice(&table);
        }
    }
    (first as u64, dump)
}

/// What `find` prints, and the bytes of each family's table that it writes.
fn compare_dump(programs: &Programs, address: u64, input: &Fed) -> bool {
    let address_word = format!("{:#x}", address);
    if !prints(
        "find",
        &programs.find,
        &[&address_word],
        input,
        &find(&input.bytes, address),
    ) {
        return false;
    }
    FOUND_ORDER
        .iter()
        .zip(["ibft", "abft", "sbft"])
        .all(|(family, word)| {
            let expected = find_bytes(family, &input.bytes, address);
            let output = run_with(&programs.find, &[&address_word, word, "bytes"], input);
            let (table, said) = match &expected {
                Ok(table) => (table.clone(), String::new()),
                Err(number) => (Vec::new(), format!("refused {} 0\n", number)),
            };
            match &output {
                Ok(done) if done.stdout == table && done.stderr == said.as_bytes() => true,
                _ => report(&format!("find {} bytes", word), input, &output, &said),
            }
        })
}

fn dumps_agree(programs: &Programs) -> bool {
    let mut tally = Tally::new(
        "families: find",
        &["none", "one family", "two", "three", "refused 1"],
    );
    for n in 0..LEAST_DUMPS {
        let (address, dump) = any_dump(&mut Seeded::new((0x32 << 48) + n as u64));
        let input = fed("dump", dump);
        if !compare_dump(programs, address, &input) {
            println!("  the dump starts at {:#x}, seed {}", address, n);
            return false;
        }
        let printed = find(&input.bytes, address);
        let answer = match printed.as_str() {
            "refused 1 0\n" => 4,
            "refused 2 0\n" => 0,
            lines => lines.lines().count(),
        };
        tally.count("dumps", answer);
    }
    tally.print();
    all_three_are_found(programs) && tally.is_enough(LEAST_DUMPS)
}

/// Low memory from address 0 on with a table of each family, the aBFT at address 0.
fn all_three_are_found(programs: &Programs) -> bool {
    let mut dump = vec![0; IBFT.end() as usize];
    let tables = [
        (0, ABFT_SAMPLE.table),
        (0x500, SBFT_SAMPLE.table),
        (0x9F000, SAMPLES[0].table),
    ];
    for (at, table) in tables {
        dump[at..at + table.len()].copy_from_slice(table);
    }
    let printed = "table 0x9f000 133 iBFT\ntable 0x0 46 aBFT\ntable 0x500 136 sBFT\n";
    if find(&dump, 0) != printed {
        println!("families: find: the reading finds other tables");
        return false;
    }
    compare_dump(programs, 0, &fed("all three families", dump))
}

pub fn compare() -> bool {
    let programs = match ["ENTER", "TELL", "SHOW", "FIND"].map(program) {
        [Some(enter), Some(tell), Some(show), Some(find)] => Programs {
            enter,
            tell,
            show,
            find,
        },
        _ => return false,
    };
    sample_agrees(&programs, &ABFT_SAMPLE)
        && sample_agrees(&programs, &SBFT_SAMPLE)
        && tables_agree(&programs)
        && texts_agree(&programs)
        && dumps_agree(&programs)
}
