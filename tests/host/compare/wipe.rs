//! What a driver does that wipes CHAP secrets after login, done to built and rebuilt tables: each secret is
//! overwritten with its zero byte, alone and together with all others, and every other string has to be what
//! it was, with its zero byte behind it (RULES.md, Building). That is read from the bytes. Where secrets are
//! wiped with zeros and the sum is mended the check accepts the table, and the library has to read all else
//! of the record from it. (Other bytes leave a secret without its zero byte, for which the check refuses it.)

use crate::build::record_read_by_library;
use crate::call::library;
use crate::known::builds::records_with_secrets;
use crate::known::samples::SAMPLES;
use crate::known::texts::EXAMPLE;
use crate::lent::build::LentBuild;
use crate::make::seeded::Seeded;
use crate::make::table::Table;
use crate::model::answer::number;
use crate::model::enter_tell::given_from;
use crate::model::layout::{ENTRIES, NUMBERS_OF_A_KIND};
use crate::model::readings::{accepted, Accepted, EntryWords};
use crate::model::record::{record_given, record_read, Record};
use crate::model::string_stretches::{stretches, Stretch};
use crate::model::text::record_of;
use crate::shapes::rebuild::{FIRST_SHAPE, REBUILD_SHAPES};
use crate::shapes::record::some_agree;
use crate::shapes::table::inputs_agree;
use crate::tally::build_sights::LARGEST_LENGTH;
use crate::views::entry_viewed;
use std::ops::Range;

/// One in so many of the inputs on which the build is compared, and of the shapes that are the rebuild's own.
/// Some shapes go by the remainder of the input's number by 3, 7, 256 and the like: 11 divides none of these.
const BUILD_STEP: usize = 11;
const REBUILD_STEP: usize = 5;

/// At least so many tables of each kind with a secret, and so many secrets that another string could have
/// shared bytes with.
const LEAST_BUILT: usize = 15_000;
const LEAST_REBUILT: usize = 10_000;
const LEAST_THAT_COULD_SHARE: usize = 50_000;

/// With what a secret is overwritten.
#[derive(Clone, Copy)]
enum With {
    Zeros,
    Ones,
    Any,
}

#[derive(Default)]
struct Counts {
    built: usize,
    rebuilt: usize,
    secrets: usize,
    of_extras: usize,
    empty: usize,
    /// Secrets that end another string of the record, or end with one.
    could_share: usize,
    wipes: usize,
    strings: usize,
    read: usize,
}

/// A table that the library made, where its strings stand, what it has to read as, and how to make it again.
struct Made<'a> {
    how: &'a str,
    table: &'a [u8],
    strings: Vec<Stretch>,
    record: Record,
}

impl Made<'_> {
    fn secrets(&self) -> Vec<&Stretch> {
        let secrets = self.strings.iter().filter(|string| string.is_secret);
        secrets.collect()
    }

    fn report(&self, what: &str) -> bool {
        println!("wipe: DIFFERENCE in {}: {}", self.how, what);
        let hex = self.table.iter().map(|byte| format!("{:02x}", byte));
        println!("  table {}", hex.collect::<String>());
        false
    }

    fn text(&self, string: &Stretch) -> &[u8] {
        self.record.entries[string.entry].as_ref().unwrap()
    }
}

// ---- Wiping ----

/// The secrets as the targets' own fields say where they stand, each with its zero byte.
fn secrets_of_targets(table: &Accepted<'_>) -> Vec<Range<usize>> {
    let targets = (0..NUMBERS_OF_A_KIND).filter_map(|n| table.target(n).ok());
    let words = targets.flat_map(|target| [target.chap_secret, target.reverse_secret]);
    let is_present = |words: &EntryWords| (words.length, words.offset) != (0, 0);
    let stretch = |words: EntryWords| {
        let start = words.offset as usize;
        start..start + words.length as usize + 1
    };
    words.filter(is_present).map(stretch).collect()
}

fn wiped(table: &[u8], secrets: &[&Stretch], with: With, seeded: &mut Seeded) -> Vec<u8> {
    let mut wiped = table.to_vec();
    for secret in secrets {
        let bytes = &mut wiped[secret.bytes.clone()];
        match with {
            With::Zeros => bytes.fill(0),
            With::Ones => bytes.fill(0xFF),
            With::Any => bytes.copy_from_slice(&seeded.bytes(bytes.len())),
        }
    }
    wiped
}

/// Is every string but the secrets that were wiped what it was, with a zero byte behind it?
fn others_stay(made: &Made, bytes: &[u8], gone: &[&Stretch], counts: &mut Counts) -> bool {
    if stretches(bytes) != made.strings {
        return made.report("strings stand elsewhere");
    }
    for string in made.strings.iter().filter(|string| !gone.contains(string)) {
        let (zero, text) = bytes[string.bytes.clone()].split_last().unwrap();
        if *zero != 0 || text != made.text(string) {
            let wiped: Vec<usize> = gone.iter().map(|secret| secret.entry).collect();
            let what = format!("entries {:?} wiped, {} is another", wiped, string.entry);
            return made.report(&what);
        }
        counts.strings += 1;
    }
    true
}

/// Wiped with zeros, the sum mended, the table reads as the record with secrets of so many zero bytes, by the
/// library, by its views, and by the document.
fn reads_as_the_rest(made: &Made, gone: &[&Stretch], counts: &mut Counts) -> bool {
    let mut table = Table {
        bytes: made.table.to_vec(),
        lent: made.table.len(),
    };
    for secret in gone {
        table.bytes[secret.bytes.clone()].fill(0);
    }
    table.mend();
    counts.read += 1;
    let mut expected = made.record.clone();
    for secret in gone {
        expected.entries[secret.entry] = Some(vec![0; made.text(secret).len()]);
    }
    let by_library = record_read_by_library(table.lent_bytes());
    let by_document = record_read(table.lent_bytes());
    let views_agree = expected.entries.iter().enumerate().all(|(entry, text)| {
        let shown = text.as_deref().unwrap_or_default();
        entry_viewed(&table, entry) == shown
    });
    let expected = Some(expected);
    if by_library != expected || by_document != expected || !views_agree {
        return made.report("wiped it reads as another record");
    }
    true
}

/// Wipes these secrets in every way.
fn wipe(made: &Made, gone: &[&Stretch], seeded: &mut Seeded, counts: &mut Counts) -> bool {
    for with in [With::Zeros, With::Ones, With::Any] {
        let bytes = wiped(made.table, gone, with, seeded);
        counts.wipes += 1;
        if !others_stay(made, &bytes, gone, counts) {
            return false;
        }
    }
    true
}

/// Wipes each secret of a table, then all of them; to read the table, one of them and all. True where there
/// is none.
fn secrets_can_be_wiped(made: &Made, seeded: &mut Seeded, counts: &mut Counts) -> bool {
    let secrets = made.secrets();
    let of_targets = match accepted(made.table) {
        Ok(table) => secrets_of_targets(&table),
        Err(_) => return made.report("the check refuses it"),
    };
    let is_of_target = |secret: &&Stretch| of_targets.contains(&secret.bytes);
    if secrets.len() != of_targets.len() || !secrets.iter().all(is_of_target) {
        return made.report("other secrets than the targets have");
    }
    for secret in &secrets {
        let text = made.text(secret);
        let could_share = |other: &Stretch| {
            let of_other = made.text(other);
            other != *secret && (text.ends_with(of_other) || of_other.ends_with(text))
        };
        counts.secrets += 1;
        counts.of_extras += usize::from(secret.entry >= ENTRIES.len());
        counts.empty += usize::from(text.is_empty());
        counts.could_share += usize::from(made.strings.iter().any(could_share));
        if !wipe(made, &[secret], seeded, counts) {
            return false;
        }
    }
    if secrets.is_empty() {
        return true;
    }
    let one = seeded.one_of(&secrets);
    wipe(made, &secrets, seeded, counts)
        && reads_as_the_rest(made, &[one], counts)
        && reads_as_the_rest(made, &secrets, counts)
}

// ---- Tables ----

/// A record that the library builds; one that it refuses is passed over.
fn built_can_be_wiped(
    how: &str,
    lent: &mut LentBuild,
    seeded: &mut Seeded,
    counts: &mut Counts,
) -> bool {
    let answer = lent.built_by(library::ibft_build);
    if number(answer) != 0 {
        return true;
    }
    let table = &lent.room()[..(answer >> 32) as usize];
    let made = Made {
        how,
        table,
        strings: stretches(table),
        record: record_given(lent.record(), lent.strings()),
    };
    counts.built += usize::from(!made.secrets().is_empty());
    secrets_can_be_wiped(&made, seeded, counts)
}

/// A table that the library rebuilds; one that it refuses is passed over.
fn rebuilt_can_be_wiped(how: &str, table: &[u8], seeded: &mut Seeded, counts: &mut Counts) -> bool {
    let mut room = vec![0xA5; LARGEST_LENGTH];
    let (at, size) = (room.as_mut_ptr(), room.len());
    let answer = unsafe { library::ibft_rebuild(table.as_ptr(), table.len(), at, size) };
    if number(answer) != 0 {
        return true;
    }
    let rebuilt = &room[..(answer >> 32) as usize];
    let made = Made {
        how,
        table: rebuilt,
        strings: stretches(rebuilt),
        record: record_read(table).unwrap(),
    };
    counts.rebuilt += usize::from(!made.secrets().is_empty());
    secrets_can_be_wiped(&made, seeded, counts)
}

/// Records known by name, the document's example and the samples.
fn known_can_be_wiped(counts: &mut Counts) -> bool {
    let seeded = &mut Seeded::new(0x317E);
    let example = given_from(&record_of(EXAMPLE.as_bytes()).unwrap());
    let mut records = records_with_secrets();
    records.push(("the example", example));
    for (name, given) in &records {
        let mut lent = LentBuild::new(seeded, given, LARGEST_LENGTH);
        if !built_can_be_wiped(name, &mut lent, seeded, counts) {
            return false;
        }
    }
    assert_eq!(counts.built, records.len(), "a known record is refused");
    SAMPLES
        .iter()
        .all(|sample| rebuilt_can_be_wiped(sample.name, sample.table, seeded, counts))
}

pub fn compare() -> bool {
    let mut counts = Counts::default();
    let rebuilds = (FIRST_SHAPE..).zip(REBUILD_SHAPES.iter().copied());
    let agree = known_can_be_wiped(&mut counts)
        && some_agree(BUILD_STEP, |mut input| {
            let how = format!("shape '{}', seed {:#x}", input.shape, input.seed);
            built_can_be_wiped(&how, &mut input.lent, &mut input.seeded, &mut counts)
        })
        && inputs_agree(rebuilds, REBUILD_STEP, |mut input| {
            let how = format!("shape '{}', seed {:#x}", input.shape, input.seed);
            let table = input.table.bytes().to_vec();
            rebuilt_can_be_wiped(&how, &table, &mut input.seeded, &mut counts)
        });
    if !agree {
        return false;
    }
    println!(
        "wipes: {} tables built and {} rebuilt with secrets, {} wipes, {} strings unchanged, {} wiped tables read",
        counts.built, counts.rebuilt, counts.wipes, counts.strings, counts.read
    );
    println!(
        "  of {} secrets {} are of extras, {} empty, {} end another string or with one",
        counts.secrets, counts.of_extras, counts.empty, counts.could_share
    );
    let enough = counts.built >= LEAST_BUILT
        && counts.rebuilt >= LEAST_REBUILT
        && counts.could_share >= LEAST_THAT_COULD_SHARE
        && counts.of_extras > 0
        && counts.empty > 0;
    if !enough {
        println!("wipe: too few tables, or too few secrets of a kind");
    }
    enough
}
