//! Pairs of tables to compare, by shape: the same record laid in two ways, one thing changed, structures that only one
//! table has, extras of other Indexes, refused tables. A pair is the same on every machine.

use crate::call::library;
use crate::damage::table as damage;
use crate::known::samples::SAMPLES;
use crate::make::draft_edits::*;
use crate::make::drafts::*;
use crate::make::good_tables::*;
use crate::make::seeded::Seeded;
use crate::make::table::*;
use crate::model::build::table_of;
use crate::model::compare::fields_in;
use crate::model::layout::*;
use crate::model::record::record_read;

/// Two tables, and how many differences they have by how they were made, where that is known.
pub struct Pair {
    pub left: Table,
    pub right: Table,
    pub differences: Option<usize>,
}

/// A name, how many pairs, and how number `n` of them is made.
pub type PairShape = (&'static str, usize, fn(usize, &mut Seeded) -> Pair);

/// Seeds of these shapes are numbered on from here.
pub const FIRST_SHAPE: usize = 2_000;

/// The most differences that two tables can have: 3, of the initiator 6, of each NIC 12, of each target 11.
pub const MOST: usize = 3 + 6 + 8 * 12 + 8 * 11;

/// The bytes of flags and fields of all seventeen structures.
const ALL_FIELD_BYTES: usize = 65 + 8 * 93 + 8 * 29;

/// The longest strings of an initiator, a NIC and a target, byte by byte.
const ALL_TEXT_BYTES: usize = 2 * 223 + 5 * 255;

pub const PAIR_SHAPES: &[PairShape] = &[
    ("the same, laid in two ways", 14_000, same_laid_twice),
    ("the same, rebuilt", 5_000, same_rebuilt),
    ("a table against itself", 2_000, against_itself),
    ("each byte of each field", 3 * ALL_FIELD_BYTES, each_field_byte),
    ("an OEM field or Control's flags", 3_000, one_of_the_header),
    (
        "each byte of the longest strings",
        2 * ALL_TEXT_BYTES,
        each_text_byte,
    ),
    ("a byte of a string", 8_000, one_text_byte),
    ("a string longer or shorter", 8_000, one_text_longer_or_shorter),
    ("a string missing or empty", 8_000, one_text_replaced),
    ("structures missing on either side", 8_000, structures_missing),
    ("an extra's Index moved", 5_000, index_moved),
    ("other extras on each side", 14_000, other_extras),
    ("presence behind, a field before", 3_000, presence_and_field),
    ("one to 20 changes", 20_000, random_edits),
    ("two tables of any kind", 4_000, any_two),
    ("a byte of a table, sum mended", 4_000, one_byte_mended),
    ("one refused, left or right", 10_000, one_refused),
    ("both refused", 5_000, both_refused),
    ("a wrong sum, left or right", 2_000, wrong_sum),
    ("bytes lent behind", 4_000, bytes_behind),
    ("over 64 KiB", 300, over_64_kib),
    ("the most", 60, the_most),
    ("the most but for one Index", 60, most_but_one),
    ("the largest tables", 6, largest),
    ("each sample against each", 36, samples),
    ("each sample against it rebuilt", 6, sample_rebuilt),
];

fn pair(seeded: &mut Seeded, one: Table, other: Table, differences: Option<usize>) -> Pair {
    let (left, right) = match seeded.once_in(2) {
        true => (one, other),
        false => (other, one),
    };
    Pair {
        left,
        right,
        differences,
    }
}

/// Two drafts, each laid in any way.
fn laid_pair(seeded: &mut Seeded, one: &Draft, other: &Draft, differences: Option<usize>) -> Pair {
    let (one, other) = (laid(seeded, one), laid(seeded, other));
    pair(seeded, one, other, differences)
}

fn given(bytes: Vec<u8>) -> Table {
    let lent = bytes.len();
    Table { bytes, lent }
}

// ---- The same record ----

/// In two ways, or in one and as a build lays it.
fn same_laid_twice(n: usize, seeded: &mut Seeded) -> Pair {
    let draft = any_draft(seeded);
    let one = laid(seeded, &draft);
    let has_zero = |body: &Body| body.texts.iter().flatten().any(|text| text.contains(&0));
    let may_be_built = !draft.structures.values().any(has_zero);
    let other = match n % 4 {
        0 if may_be_built => given(table_of(&record_read(one.lent_bytes()).unwrap())),
        _ => laid(seeded, &draft),
    };
    pair(seeded, one, other, Some(0))
}

/// As the library rebuilds it; none for a table with a zero byte in a string, the one refusal that an accepted table can get.
fn rebuilt_by_library(table: &Table) -> Option<Table> {
    let mut room = vec![0xA5; 16_384];
    let answer =
        unsafe { library::ibft_rebuild(table.bytes.as_ptr(), table.lent, room.as_mut_ptr(), room.len()) };
    match answer % (1 << 8) {
        0 => {
            room.truncate((answer >> 32) as usize);
            Some(given(room))
        }
        20 => None,
        number => panic!("a table that is accepted is not rebuilt: {number}"),
    }
}

fn same_rebuilt(_: usize, seeded: &mut Seeded) -> Pair {
    let make = seeded.one_of(&[lent_table as fn(&mut Seeded) -> Table, table_with_extras]);
    let table = make(seeded);
    let rebuilt = match rebuilt_by_library(&table) {
        Some(rebuilt) => rebuilt,
        None => laid(seeded, &Draft::of(table.lent_bytes())),
    };
    pair(seeded, table, rebuilt, Some(0))
}

fn against_itself(_: usize, seeded: &mut Seeded) -> Pair {
    let draft = any_draft(seeded);
    let table = laid(seeded, &draft);
    pair(seeded, table.clone(), table, Some(0))
}

fn sample(n: usize) -> Table {
    given(SAMPLES[n].table.to_vec())
}

fn samples(n: usize, _: &mut Seeded) -> Pair {
    let (i, j) = (n / SAMPLES.len(), n % SAMPLES.len());
    Pair {
        left: sample(i),
        right: sample(j),
        differences: (i == j).then_some(0),
    }
}

fn sample_rebuilt(n: usize, _: &mut Seeded) -> Pair {
    let rebuilt = rebuilt_by_library(&sample(n)).expect("no sample has a zero byte in a string");
    Pair {
        left: sample(n),
        right: rebuilt,
        differences: Some(0),
    }
}

// ---- One thing changed ----

/// The n-th byte of all flags and fields of seventeen structures.
fn each_field_byte(n: usize, seeded: &mut Seeded) -> Pair {
    let draft = full_draft(seeded, 8);
    let all = field_bytes(&draft);
    assert_eq!(all.len(), ALL_FIELD_BYTES);
    let (name, at) = all[n % ALL_FIELD_BYTES];
    let mut changed = draft.clone();
    change_byte(seeded, &mut changed, &name, at);
    laid_pair(seeded, &draft, &changed, Some(1))
}

fn one_of_the_header(n: usize, seeded: &mut Seeded) -> Pair {
    let draft = any_draft(seeded);
    let mut changed = draft.clone();
    [change_oem_id, change_oem_table_id, change_control][n % 3](seeded, &mut changed);
    laid_pair(seeded, &draft, &changed, Some(1))
}

/// An initiator, a NIC and a target, named or extra, whose strings are as long as they may be; the n-th byte of these.
fn each_text_byte(n: usize, seeded: &mut Seeded) -> Pair {
    let index = [seeded.between(0, 1) as u64, u64::from(any_extra_index(seeded))][n / ALL_TEXT_BYTES];
    let names = [(INITIATOR.id, 0), (NIC.id, index), (TARGET.id, index)];
    let mut draft = draft_of(seeded, &names, 1);
    let mut places = Vec::new();
    for text in text_names(&draft) {
        let field = kind_of(&text.0).texts[text.1];
        let longest = match field.is_host_name {
            true => dots_between(128, b'h'),
            false => vec![b'a' + text.1 as u8; field.longest as usize],
        };
        places.extend((0..longest.len()).map(|at| (text, at)));
        set_text(&mut draft, &text, Some(longest));
    }
    assert_eq!(places.len(), ALL_TEXT_BYTES);
    let (text, at) = places[n % ALL_TEXT_BYTES];
    let mut changed = draft.clone();
    // A dot of a host name may not become another dot's neighbour: it becomes a letter.
    assert!(change_text_at(seeded, &mut changed, &text, at));
    laid_pair(seeded, &draft, &changed, Some(1))
}

/// A draft and one of its strings, changed by `change`.
fn one_text(seeded: &mut Seeded, change: fn(&mut Seeded, &mut Draft, &TextName) -> bool) -> Pair {
    loop {
        let draft = draft_with_structures(seeded);
        let text = seeded.one_of(&text_names(&draft));
        let mut changed = draft.clone();
        if change(seeded, &mut changed, &text) {
            return laid_pair(seeded, &draft, &changed, Some(1));
        }
    }
}

fn one_text_byte(_: usize, seeded: &mut Seeded) -> Pair {
    one_text(seeded, |seeded, draft, text| {
        let size = text_of(draft, text).map_or(0, |bytes| bytes.len());
        if size == 0 {
            return false;
        }
        let any = seeded.between(0, size - 1);
        let at = seeded.one_of(&[0, size - 1, any, any]);
        change_text_at(seeded, draft, text, at)
    })
}

fn one_text_longer_or_shorter(n: usize, seeded: &mut Seeded) -> Pair {
    one_text(seeded, [lengthen, shorten][n % 2])
}

fn one_text_replaced(_: usize, seeded: &mut Seeded) -> Pair {
    one_text(seeded, replace)
}

// ---- Structures ----

/// Each of two tables lacks some structures of a third: one difference for each that only one of them lacks.
fn structures_missing(_: usize, seeded: &mut Seeded) -> Pair {
    let draft = match seeded.once_in(2) {
        true => full_draft(seeded, 8),
        false => draft_with_structures(seeded),
    };
    let odds = seeded.one_of(&[2, 3, 10]);
    let mut some = || -> Vec<Name> {
        let names = draft.names().into_iter();
        names.filter(|_| seeded.once_in(odds)).collect()
    };
    let (one, other) = (some(), some());
    let only_one = |name: &&Name| one.contains(name) != other.contains(name);
    let names = draft.names();
    let count = names.iter().filter(only_one).count();
    laid_pair(seeded, &draft.without(&one), &draft.without(&other), Some(count))
}

fn index_moved(_: usize, seeded: &mut Seeded) -> Pair {
    loop {
        let draft = any_draft(seeded);
        let mut moved = draft.clone();
        if move_index(seeded, &mut moved) {
            return laid_pair(seeded, &draft, &moved, Some(2));
        }
    }
}

/// Up to six extras of each kind on each side, about half of the Indexes in common. What stands under a common one may
/// be the same or not; an Index of one kind is often one of the other too.
fn other_extras(_: usize, seeded: &mut Seeded) -> Pair {
    let pool: Vec<u8> = (0..9).map(|_| any_extra_index(seeded)).collect();
    let common = draft_of(seeded, &[(NIC.id, 0), (TARGET.id, 1)], 10);
    let (mut one, mut other) = (common.clone(), common);
    for kind in [NIC, TARGET] {
        for index in &pool {
            let name = (kind.id, u64::from(*index));
            let body = any_body(seeded, &kind, 10);
            for draft in [&mut one, &mut other] {
                let has_room = draft.extras(kind.id).len() < EXTRAS_OF_A_KIND;
                if has_room && seeded.once_in(2) {
                    draft.structures.insert(name, body.clone());
                }
            }
        }
    }
    let edits = seeded.one_of(&[0, 1, 3]);
    let one = edited(seeded, &one, edits);
    laid_pair(seeded, &one, &other, None)
}

/// Presence of a structure and a field or a string of one that comes before it: presence is listed first.
fn presence_and_field(_: usize, seeded: &mut Seeded) -> Pair {
    loop {
        let draft = full_draft(seeded, 8);
        let (early, late) = (seeded.one_of(&draft.names()), seeded.one_of(&draft.names()));
        if early == late {
            continue;
        }
        let mut changed = draft.clone();
        let bytes = field_bytes(&draft);
        let own: Vec<u64> = bytes
            .iter()
            .filter(|byte| byte.0 == early)
            .map(|byte| byte.1)
            .collect();
        let at = seeded.one_of(&own);
        change_byte(seeded, &mut changed, &early, at);
        let texted = replace(seeded, &mut changed, &(early, 0));
        let less = changed.without(&[late]);
        return laid_pair(seeded, &draft, &less, Some(2 + usize::from(texted)));
    }
}

// ---- More than one thing ----

fn random_edits(n: usize, seeded: &mut Seeded) -> Pair {
    let draft = match n % 8 {
        0 => full_draft(seeded, 12),
        _ => any_draft(seeded),
    };
    let edits = seeded.between(1, 20);
    let changed = edited(seeded, &draft, edits);
    laid_pair(seeded, &draft, &changed, None)
}

fn any_two(_: usize, seeded: &mut Seeded) -> Pair {
    let makes = [
        lent_table as fn(&mut Seeded) -> Table,
        table_with_extras,
        packed_table,
    ];
    let (one, other) = (seeded.one_of(&makes)(seeded), seeded.one_of(&makes)(seeded));
    pair(seeded, one, other, None)
}

/// A byte of the header, of Control or of a structure, or any other: what it means may change, or nothing.
fn one_byte_mended(n: usize, seeded: &mut Seeded) -> Pair {
    let table = [full_table, full_table_with_extras, common_table][n % 3]();
    let mut changed = table.clone();
    let anywhere = seeded.between(8, table.length() - 1);
    let early = seeded.between(8, 600.min(table.length() - 1));
    let at = seeded.one_of(&[anywhere, early, early]);
    changed.bytes[at] ^= seeded.one_of(&[1, 1, 2, 0x20, 0x80, 0xFF]);
    pair(seeded, table, changed.mended(), None)
}

/// Every flag, field and string of the same structures another one.
fn all_changed(seeded: &mut Seeded, draft: &Draft) -> Draft {
    let mut changed = draft.clone();
    change_oem_id(seeded, &mut changed);
    change_oem_table_id(seeded, &mut changed);
    change_control(seeded, &mut changed);
    for name in draft.names() {
        for (at, size) in fields_in(&kind_of(&name)) {
            let byte = seeded.one_of(&[0, size - 1]);
            change_byte(seeded, &mut changed, &name, at + byte);
        }
    }
    for text in text_names(draft) {
        while !replace(seeded, &mut changed, &text) {}
    }
    changed
}

fn the_most(_: usize, seeded: &mut Seeded) -> Pair {
    let draft = full_draft(seeded, 20);
    let changed = all_changed(seeded, &draft);
    laid_pair(seeded, &draft, &changed, Some(MOST))
}

/// One extra has another Index: two differences in place of its 12 or 11.
fn most_but_one(_: usize, seeded: &mut Seeded) -> Pair {
    let draft = full_draft(seeded, 20);
    let mut changed = all_changed(seeded, &draft);
    while !move_index(seeded, &mut changed) {}
    let nics_differ = draft.extras(NIC.id) != changed.extras(NIC.id);
    let count = if nics_differ { MOST - 12 + 2 } else { MOST - 11 + 2 };
    laid_pair(seeded, &draft, &changed, Some(count))
}

/// Every string as long as it may be; the same record, a common one, and one that differs in every string.
fn largest(n: usize, seeded: &mut Seeded) -> Pair {
    let left = largest_table_with_extras();
    let draft = Draft::of(left.lent_bytes());
    let (right, differences) = match n % 3 {
        0 => (laid(seeded, &draft), Some(0)),
        1 => (common_table(), None),
        _ => {
            let mut changed = draft.clone();
            for text in text_names(&draft) {
                let size = text_of(&draft, &text).unwrap().len();
                let at = seeded.one_of(&[0, size - 1]);
                assert!(change_text_at(seeded, &mut changed, &text, at));
            }
            (laid(seeded, &changed), Some(49))
        }
    };
    Pair {
        left,
        right,
        differences,
    }
}

/// A string of the left table may end past 64 KiB.
fn over_64_kib(n: usize, seeded: &mut Seeded) -> Pair {
    let left = [large_table, large_table_with_extras][n % 2](seeded);
    let draft = Draft::of(left.lent_bytes());
    let mut changed = draft.clone();
    for text in text_names(&draft) {
        if seeded.once_in(2) {
            shorten(seeded, &mut changed, &text);
        }
    }
    let edits = seeded.between(0, 6);
    let changed = edited(seeded, &changed, edits);
    let right = laid(seeded, &changed);
    match seeded.once_in(5) {
        true => pair(seeded, left, right, None),
        false => Pair {
            left,
            right,
            differences: None,
        },
    }
}

// ---- Refused tables and bytes behind ----

/// A table that one or two faults were put in, its sum mended mostly; or one with too many extras.
fn damaged(seeded: &mut Seeded) -> Table {
    if seeded.once_in(30) {
        return table_with_too_many(seeded);
    }
    let make = seeded.one_of(&[
        table_with_structures as fn(&mut Seeded) -> Table,
        table_with_extras,
    ]);
    let mut table = make(seeded);
    for _ in 0..seeded.between(1, 2) {
        damage::any_damage_with_extras(seeded, &mut table);
    }
    match seeded.between(0, 19) {
        0 => table,
        1 => {
            table.lent = seeded.between(0, table.lent);
            table
        }
        _ => table.mended(),
    }
}

fn one_refused(_: usize, seeded: &mut Seeded) -> Pair {
    let draft = any_draft(seeded);
    let (one, other) = (damaged(seeded), laid(seeded, &draft));
    pair(seeded, one, other, None)
}

/// Two such tables, or one of them on both sides.
fn both_refused(n: usize, seeded: &mut Seeded) -> Pair {
    let one = damaged(seeded);
    let other = match n % 4 {
        0 => one.clone(),
        _ => damaged(seeded),
    };
    pair(seeded, one, other, None)
}

/// Of the same record or another; some with bytes behind that make the sum right over all that is lent.
fn wrong_sum(_: usize, seeded: &mut Seeded) -> Pair {
    let draft = any_draft(seeded);
    let (mut one, other) = (laid_alone(seeded, &draft), laid(seeded, &draft));
    let by = seeded.between(1, 255) as u8;
    let at = seeded.between(CHECKSUM as usize, one.length() - 1);
    one.bytes[at] = one.bytes[at].wrapping_add(by);
    if seeded.once_in(2) {
        one.lend_more(&[by.wrapping_neg()]);
    }
    pair(seeded, one, other, None)
}

/// The same bytes up to Length, and others behind.
fn bytes_behind(_: usize, seeded: &mut Seeded) -> Pair {
    let draft = any_draft(seeded);
    let table = laid_alone(seeded, &draft);
    let mut more = |table: &Table| {
        let mut table = table.clone();
        let size = seeded.one_of(&[0, 1, 7, 300]);
        let more = seeded.bytes(size);
        table.lend_more(&more);
        table
    };
    let (one, other) = (more(&table), more(&table));
    pair(seeded, one, other, Some(0))
}
