//! Two tables compared, worked by hand from the words of the request: a string against another, missing and empty;
//! extras by kind and Index; every kind of difference in one list; refusals of either side. The model is held to
//! these, and the library.

use crate::call::library;
use crate::known::samples::SAMPLES;
use crate::make::table::{structures, with_texts, Table};
use crate::model::compare::*;
use crate::model::compare_text::compare_text;
use crate::model::layout::*;
use crate::model::text::{Group, Place};

/// What differs by number, ID, Index and where it stands in the structure; then start and length in the left table, in
/// the right one, and of what is shown.
type Row = (u8, u8, u8, u16, (u32, u16), (u32, u16), (u32, u16));

const NOWHERE: (u32, u16) = (0, 0);

/// Two tables, what `test_compare` answers, the list, and what the program prints.
struct Known {
    name: &'static str,
    left: Table,
    right: Table,
    answer: u64,
    rows: Vec<Row>,
    lines: String,
}

fn differing(name: &'static str, left: Table, right: Table, rows: &[Row], lines: &str) -> Known {
    let count = match rows.len() {
        0 => "no difference\n".to_string(),
        1 => "1 difference\n".to_string(),
        n => format!("{} differences\n", n),
    };
    Known {
        name,
        left,
        right,
        answer: (rows.len() as u64) << 48,
        rows: rows.to_vec(),
        lines: lines.to_string() + &count,
    }
}

fn refused(name: &'static str, left: Table, right: Table, answer: u64, line: &str) -> Known {
    Known {
        name,
        left,
        right,
        answer,
        rows: Vec::new(),
        lines: format!("{}\n", line),
    }
}

// ---- Strings ----

/// Target 0 at 72, its CHAP name from 126 on, or missing.
fn chap_name(text: Option<&[u8]>) -> Table {
    match text {
        Some(text) => with_texts(&[2], &[(3, text)]).mended(),
        None => structures(&[2]).mended(),
    }
}

/// Left and right string, what is shown of the left one, and what the program says.
type TextCase<'a> = (Option<&'a str>, Option<&'a str>, (u32, u16), &'a str);

const TEXT_CASES: &[TextCase] = &[
    (Some("abc"), Some("abd"), (128, 1), "abc\t| abd\tfrom byte 2: c"),
    (Some("abc"), Some("xbc"), (126, 3), "abc\t| xbc\tfrom byte 0: abc"),
    (Some("abc"), Some("axc"), (127, 2), "abc\t| axc\tfrom byte 1: bc"),
    (Some("abc"), Some("ab"), (128, 1), "abc\t| ab\tfrom byte 2: c"),
    (
        Some("abc"),
        Some("abcd"),
        (129, 0),
        "abc\t| abcd\tfrom byte 3: \"\"",
    ),
    (
        Some("abc"),
        Some("xbcd"),
        (126, 3),
        "abc\t| xbcd\tfrom byte 0: abc",
    ),
    (Some("abc"), None, (126, 3), "abc\tonly in LEFT"),
    (None, Some("abc"), NOWHERE, "abc\tonly in RIGHT"),
    (Some(""), None, (126, 0), "\"\"\tonly in LEFT"),
    (None, Some(""), NOWHERE, "\"\"\tonly in RIGHT"),
    (Some(""), Some("abc"), (126, 0), "\"\"\t| abc\tfrom byte 0: \"\""),
    (Some("abc"), Some(""), (126, 3), "abc\t| \"\"\tfrom byte 0: abc"),
    // A space stands first in what is shown, though not in the string; a zero byte is a byte like any other.
    (
        Some("a b"),
        Some("ac"),
        (127, 2),
        "a b\t| ac\tfrom byte 1: \\x20b",
    ),
    (
        Some("a\0b"),
        Some("a\0c"),
        (128, 1),
        "a\\x00b\t| a\\x00c\tfrom byte 2: b",
    ),
    (
        Some("a\0"),
        Some("a"),
        (127, 1),
        "a\\x00\t| a\tfrom byte 1: \\x00",
    ),
];

fn text_cases() -> Vec<Known> {
    let place = |text: Option<&str>| text.map_or(NOWHERE, |text| (126, text.len() as u16));
    let table = |text: Option<&str>| chap_name(text.map(str::as_bytes));
    let known = |(left, right, shown, line): &TextCase| {
        let row = (6, 4, 0, 38, place(*left), place(*right), *shown);
        let line = format!("target0.chap-name {}\n", line);
        differing("a string", table(*left), table(*right), &[row], &line)
    };
    let same = |text| differing("the same string", table(text), table(text), &[], "");
    let mut all: Vec<Known> = TEXT_CASES.iter().map(known).collect();
    all.extend([Some("abc"), Some(""), None].map(same));
    all
}

/// The left secret `abc` is a tail of the CHAP name there, the right one stands by itself: what is shown are the left
/// table's bytes at 128.
fn shared_string() -> Known {
    let mut left = with_texts(&[2], &[(3, b"xxabc")]);
    left.point(4, 128, 3);
    let right = with_texts(&[2], &[(4, b"abd"), (3, b"xxabc")]);
    let row = (6, 4, 0, 42, (128, 3), (126, 3), (130, 1));
    let line = "target0.chap-secret abc\t| abd\tfrom byte 2: c\n";
    differing("a shared string", left.mended(), right.mended(), &[row], line)
}

// ---- Extras ----

/// Extras of these kinds and Indexes, one behind the other from the first multiple of 8 behind Control on, under words
/// in the opposite order.
fn extras(names: &[(Kind, u8)]) -> Table {
    let control_end = CONTROL_END as usize + 2 * names.len();
    let mut end = control_end;
    let mut starts = Vec::new();
    for (kind, _) in names {
        starts.push((end + 7) / 8 * 8);
        end = starts[starts.len() - 1] + kind.length as usize;
    }
    let mut table = Table::with_words(end, names.len());
    for (i, ((kind, index), start)) in names.iter().zip(starts).enumerate() {
        table.put_extra(5 + names.len() - 1 - i, kind, *index, start);
    }
    table
}

/// NICs 2 and 9 and Target 255, at 72, 176 and 280.
fn left_extras() -> Table {
    extras(&[(NIC, 2), (NIC, 9), (TARGET, 255)])
}

/// NICs 5 and 9, Targets 3 and 255, at 80, 184, 288 and 344; they end at 398.
fn right_extras() -> Table {
    extras(&[(NIC, 5), (NIC, 9), (TARGET, 3), (TARGET, 255)])
}

const THREE_PRESENCES: [Row; 3] = [
    (4, 3, 2, 0, (72, 102), NOWHERE, NOWHERE),
    (4, 3, 5, 0, NOWHERE, (80, 102), NOWHERE),
    (4, 4, 3, 0, NOWHERE, (288, 54), NOWHERE),
];

const THREE_LINES: &str = "nic2\tonly in LEFT\n\
    nic5\tonly in RIGHT\n\
    target3\tonly in RIGHT\n";

/// What NIC 5 and Target 3 hold is not listed; NIC 9 and Target 255 have another slot in each table and differ in a
/// field and a string each: both fields come before both strings.
fn extras_and_contents() -> Known {
    let mut right = right_extras();
    right.write(80 + 88, &[9]);
    right.write(184 + 88, &[7, 1]);
    right.write(288 + 22, &[0xBC, 0x0C]);
    right.write(344 + 33, &[9]);
    // NIC 9's string has the number 14; those of Target 3 have the numbers from 15 on, of Target 255 from 20 on.
    right.append_text(20, b"iqn.t");
    right.append_text(15, b"not listed");
    right.append_text(14, b"h");
    let mut rows = THREE_PRESENCES.to_vec();
    rows.extend([
        (5, 3, 9, 88, (264, 2), (272, 2), NOWHERE),
        (5, 4, 255, 33, (313, 1), (377, 1), NOWHERE),
        (6, 3, 9, 98, NOWHERE, (415, 1), NOWHERE),
        (6, 4, 255, 34, NOWHERE, (398, 5), NOWHERE),
    ]);
    let lines = THREE_LINES.to_string()
        + "nic9.vlan 0\t| 263\n\
           target255.nic 0\t| 9\n\
           nic9.host h\tonly in RIGHT\n\
           target255.name iqn.t\tonly in RIGHT\n";
    let left = left_extras().mended();
    differing("extras that differ", left, right.mended(), &rows, &lines)
}

fn extra_cases() -> Vec<Known> {
    let left = || left_extras().mended();
    let turned = |mut row: Row| {
        (row.4, row.5) = (row.5, row.4);
        row
    };
    let lines = THREE_LINES.replace("LEFT", "-").replace("RIGHT", "LEFT");
    let turned_lines = lines.replace('-', "RIGHT");
    vec![
        differing(
            "sparse Indexes",
            left(),
            right_extras().mended(),
            &THREE_PRESENCES,
            THREE_LINES,
        ),
        differing(
            "sparse Indexes turned round",
            right_extras().mended(),
            left(),
            &THREE_PRESENCES.map(turned),
            &turned_lines,
        ),
        extras_and_contents(),
    ]
}

// ---- Every kind of difference ----

/// Initiator at 72, NIC 0 at 152, NIC 1 at 256, Target 0 at 360, its strings from 414 on; and the same without the
/// initiator and NIC 1, NIC 0 at 72 and Target 0 at 176, its strings from 230 on.
fn all_kinds() -> Known {
    let mut left = with_texts(&[0, 1, 2, 3], &[(6, b"hush"), (2, b"iqn.a")]);
    let mut right = with_texts(&[1, 2], &[(2, b"iqn.b"), (4, b"")]);
    left.write(10, b"METTA");
    right.write(16, b"CABINET7");
    right.set_control_flags(1);
    left.set_flags(1, 5);
    left.write(152 + 24, &[0, 0, 0, 0, 0, 0, 0, 0, 0, 0, 0xFF, 0xFF, 10, 0, 0, 1]);
    right.write(176 + 31, &[1]);
    right.write(176 + 32, &[2]);
    let rows = [
        (1, 0, 0, 0, (10, 6), (10, 6), NOWHERE),
        (2, 0, 0, 0, (16, 8), (16, 8), NOWHERE),
        (3, 0, 0, 0, (53, 1), (53, 1), NOWHERE),
        (4, 2, 0, 0, (72, 74), NOWHERE, NOWHERE),
        (4, 3, 1, 0, (256, 102), NOWHERE, NOWHERE),
        (5, 3, 0, 5, (157, 1), (77, 1), NOWHERE),
        (5, 3, 0, 24, (176, 16), (96, 16), NOWHERE),
        (5, 4, 0, 24, (384, 8), (200, 8), NOWHERE),
        (5, 4, 0, 32, (392, 1), (208, 1), NOWHERE),
        (6, 4, 0, 34, (419, 5), (230, 5), (423, 1)),
        (6, 4, 0, 42, NOWHERE, (236, 0), NOWHERE),
        (6, 4, 0, 50, (414, 4), NOWHERE, (414, 4)),
    ];
    let lines = "oem.id METTA\t| \"\"\n\
        oem.table \"\"\t| CABINET7\n\
        control multi\t| single\n\
        initiator\tonly in LEFT\n\
        nic1\tonly in LEFT\n\
        nic0.flags valid global\t| none\n\
        nic0.gateway 10.0.0.1\t| ::\n\
        target0.lun 0\t| 72057594037927936\n\
        target0.chap none\t| mutual\n\
        target0.name iqn.a\t| iqn.b\tfrom byte 4: a\n\
        target0.chap-secret \"\"\tonly in RIGHT\n\
        target0.reverse-secret hush\tonly in LEFT\n";
    differing("every kind", left.mended(), right.mended(), &rows, lines)
}

/// Secrets of the case above, and of one that both tables have.
fn hidden_lines_hold() -> bool {
    let Known {
        left, right, lines, ..
    } = all_kinds();
    let lines = lines
        .replace("target0.chap-secret \"\"\t", "# target0.chap-secret\t")
        .replace("target0.reverse-secret hush\t", "# target0.reverse-secret\t");
    let secret = |text: &[u8]| with_texts(&[2], &[(4, text)]).mended();
    let both = compare_text(&secret(b"abc").bytes, &secret(b"abd").bytes, true);
    let hidden = compare_text(left.lent_bytes(), right.lent_bytes(), true);
    let holds = hidden == lines && both == "# target0.chap-secret\tdiffers, hidden\n1 difference\n";
    if !holds {
        println!("differences: with secrets hidden\n{}{}", hidden, both);
    }
    holds
}

// ---- Refusals ----

fn sample(name: &str) -> Table {
    let sample = SAMPLES.iter().find(|sample| sample.name == name).unwrap();
    Table {
        bytes: sample.table.to_vec(),
        lent: sample.table.len(),
    }
}

/// Case 5 with `depot8`: the sum is one too many, and at 9 stands 66.
fn wrong_sum() -> Table {
    let mut table = sample("case-5");
    table.write(131, b"8");
    table
}

/// Target 0 at 73: refused with 12 at its word.
fn wrong_start() -> Table {
    let mut table = sample("case-5");
    table.write(60, &[73]);
    table.mended()
}

fn refused_cases() -> Vec<Known> {
    let good = || sample("case-5");
    let cut = || Table {
        bytes: good().bytes,
        lent: 47,
    };
    vec![
        refused(
            "left sum",
            wrong_sum(),
            good(),
            0x41_0000_0906,
            "refused 6 9 65 0",
        ),
        refused(
            "right sum",
            good(),
            wrong_sum(),
            0x0141_0000_0906,
            "refused 6 9 65 1",
        ),
        refused(
            "left start",
            wrong_start(),
            good(),
            0x00_0000_3C0C,
            "refused 12 60 0",
        ),
        refused(
            "right start",
            good(),
            wrong_start(),
            0x0100_0000_3C0C,
            "refused 12 60 1",
        ),
        // The left one's refusal comes first, whichever has the lower number.
        refused(
            "both",
            wrong_start(),
            wrong_sum(),
            0x00_0000_3C0C,
            "refused 12 60 0",
        ),
        refused(
            "both turned",
            wrong_sum(),
            wrong_start(),
            0x41_0000_0906,
            "refused 6 9 65 0",
        ),
        refused("right cut", good(), cut(), 0x0100_0000_0003, "refused 3 0 1"),
    ]
}

// ---- The model and the library ----

fn all_known() -> Vec<Known> {
    let mut all = text_cases();
    all.push(shared_string());
    all.extend(extra_cases());
    all.push(all_kinds());
    all.extend(refused_cases());
    all
}

fn bytes_of(row: &Row) -> [u8; LAID_SIZE] {
    let (what, id, index, at, left, right, shown) = *row;
    let mut bytes = vec![what, id, index];
    bytes.extend(at.to_le_bytes());
    for (start, length) in [left, right, shown] {
        bytes.extend(start.to_le_bytes());
        bytes.extend(length.to_le_bytes());
    }
    bytes.try_into().unwrap()
}

fn model_holds(known: &Known) -> bool {
    let (left, right) = (known.left.lent_bytes(), known.right.lent_bytes());
    let compared = compared(left, right);
    let list = compared.as_deref().unwrap_or_default();
    let laid: Vec<_> = list.iter().map(|difference| laid(Some(difference))).collect();
    let rows: Vec<_> = known.rows.iter().map(bytes_of).collect();
    let lines = compare_text(left, right, false);
    let holds = packed_comparison(&compared) == known.answer && laid == rows && lines == known.lines;
    if !holds {
        println!(
            "differences: {}: the model has {:?}\n{}",
            known.name, compared, lines
        );
        println!("  worked by hand: {:?}\n{}", known.rows, known.lines);
    }
    holds
}

/// What the library answers to two tables, and each difference of so many.
fn asked(left: &[u8], right: &[u8], count: usize) -> (u64, Vec<[u8; LAID_SIZE]>) {
    let (l, l_size, r, r_size) = (left.as_ptr(), left.len(), right.as_ptr(), right.len());
    let difference = |k: usize| {
        let mut out = [0xA5; LAID_SIZE];
        unsafe { library::test_difference(l, l_size, r, r_size, k as u16, out.as_mut_ptr(), LAID_SIZE) };
        out
    };
    let answer = unsafe { library::test_compare(l, l_size, r, r_size) };
    (answer, (0..count).map(difference).collect())
}

fn library_holds(known: &Known) -> bool {
    let rows: Vec<_> = known.rows.iter().map(bytes_of).collect();
    let expected = (known.answer, rows);
    let given = asked(
        known.left.lent_bytes(),
        known.right.lent_bytes(),
        known.rows.len(),
    );
    if given != expected {
        println!("differences: {}: the library has {:02x?}", known.name, given);
        println!("  worked by hand: {:02x?}", expected);
    }
    given == expected
}

/// Fields stand one behind the other from the flags up to the first string, and are those that a text of a record has.
fn fields_hold() -> bool {
    [INITIATOR, NIC, TARGET].into_iter().all(|kind| {
        let texts = kind.texts.iter().map(|text| text.at);
        let ends = fields_in(&kind).iter().map(|(at, size)| at + size);
        let starts = fields_in(&kind).iter().map(|(at, _)| *at).skip(1);
        let joined = ends.eq(starts.chain(texts.take(1)));
        let group = Group { kind, index: 0 };
        let told = group.fields().into_iter().filter_map(|field| match field.place {
            Place::Byte { at, .. } => Some((at as u64 + FLAGS_AT, field.notation.size() as u64)),
            _ => None,
        });
        joined && told.eq(fields_in(&kind).iter().copied())
    })
}

/// The model alone, without the library.
pub fn known_differences_hold() -> bool {
    if !fields_hold() {
        println!("differences: the fields are others than those of a record's text");
        return false;
    }
    all_known().iter().all(model_holds) && hidden_lines_hold()
}

pub fn known_differences_agree() -> bool {
    known_differences_hold() && all_known().iter().all(library_holds)
}

/// The two tables of each case, for the program.
pub fn known_pairs() -> Vec<(Table, Table)> {
    let known = all_known().into_iter();
    known.map(|known| (known.left, known.right)).collect()
}
