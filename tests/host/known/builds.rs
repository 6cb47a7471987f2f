//! Builds of the records of RULES.md, Worked cases, with the answers and offsets given there; and of records
//! with secrets, with the heap written out.

use crate::call::library;
use crate::known::samples::SAMPLES;
use crate::lent::build::LentBuild;
use crate::make::record::*;
use crate::make::seeded::Seeded;
use crate::model::answer::{in_words, packed, packed_table};
use crate::model::build::build;

/// A record that RULES.md or a test knows: the room it is built into, the Length or the refusal
/// that it is answered, offsets of entries, and the bytes at the table's end.
struct Known {
    name: &'static str,
    given: Given,
    room_size: usize,
    answer: Result<u64, (u64, u64)>,
    offsets: &'static [(u8, u64)],
    heap: &'static [u8],
}

/// Built into as many bytes as it takes.
fn built(name: &'static str, given: Given, length: u64, offsets: &'static [(u8, u64)]) -> Known {
    Known {
        name,
        given,
        room_size: length as usize,
        answer: Ok(length),
        offsets,
        heap: b"",
    }
}

fn refused(name: &'static str, given: Given, room_size: usize, number: u64, place: u64) -> Known {
    Known {
        name,
        given,
        room_size,
        answer: Err((number, place)),
        offsets: &[],
        heap: b"",
    }
}

/// Cases 1 to 9, 11 and 12 of RULES.md, Worked cases, and its names of 223 and 224 bytes; then records
/// with extras, worked by hand.
fn known_records() -> Vec<Known> {
    let of = record_with;
    let with_extras = record_with_extras;
    let twelve = |texts: &[(usize, &[u8])]| with_extras(&[0, 1, 2, 3, 4], &SIX, &SIX, texts);
    let target = |reverse: &[u8]| of(&[2], &[(3, b"depot7"), (5, reverse)]);
    let name = |size: usize| of(&[2], &[(2, &vec![b'n'; size])]);
    vec![
        built("case 1", of(&[], &[]), 66, &[]),
        built("case 2", of(&[0], &[]), 146, &[]),
        built("case 3", of(&[0], &[(0, b"")]), 147, &[(0, 146)]),
        built("case 4", of(&[0], &[(0, b"iqn.a")]), 152, &[(0, 146)]),
        built("case 5", case_5(), 133, &[(3, 126), (5, 131)]),
        built("case 6", target(b"depot7"), 133, &[(3, 126), (5, 126)]),
        built("case 7", target(b"depot"), 139, &[(3, 126), (5, 133)]),
        built("case 8", of(&[0, 1, 2, 3, 4], &[]), 470, &[]),
        built("case 9", of(&[1, 2], &[]), 230, &[]),
        built("case 11, a.", of(&[1], &[(1, b"a.")]), 177, &[(1, 174)]),
        refused("case 11, a.b.", of(&[1], &[(1, b"a.b.")]), 200, 18, 1),
        refused("case 12", case_5(), 132, 21, 0),
        built("name of 223", name(223), 350, &[(2, 126)]),
        refused("name of 224", name(224), 400, 17, 2),
        built("the common record", common_record(), 414, &[(3, 336)]),
        built("the worst record", worst_record(), 3_702, &[(0, 470)]),
        built("NIC 2 alone", with_extras(&[], &[2], &[], &[]), 174, &[]),
        built(
            "Target 255 alone",
            with_extras(&[], &[], &[255], &[]),
            126,
            &[],
        ),
        // Three extra words end Control at 72, four at 74: the first structure stands at 72 or 80.
        built(
            "three targets",
            with_extras(&[], &[], &[2, 3, 4], &[]),
            238,
            &[],
        ),
        built(
            "four targets",
            with_extras(&[], &[], &[2, 3, 4, 9], &[]),
            302,
            &[],
        ),
        built(
            "extras' strings",
            with_extras(
                &[0],
                &[5],
                &[9],
                &[(0, b"iqn.a"), (13, b"a."), (14, b"n.a"), (15, b"a")],
            ),
            319,
            &[(0, 310), (13, 316), (14, 312), (15, 314)],
        ),
        built(
            "a record with 4 targets",
            record_with_targets(4),
            1_148,
            &[],
        ),
        built("strings differ in the middle", middle_record(), 3_702, &[]),
        built("twelve extras", twelve(&[]), 1_454, &[]),
        built(
            "the worst record with extras",
            worst_record_with_extras(),
            13_710,
            &[(0, 1_454)],
        ),
        refused(
            "NIC of Index 1",
            with_extras(&[], &[1], &[], &[]),
            200,
            13,
            5,
        ),
        refused(
            "Target of Index 0",
            with_extras(&[], &[7], &[0], &[]),
            400,
            13,
            6,
        ),
        refused(
            "an Index twice",
            with_extras(&[], &[7, 7], &[], &[]),
            400,
            33,
            6,
        ),
        refused(
            "an Index lower",
            with_extras(&[], &[7], &[9, 8], &[]),
            400,
            33,
            7,
        ),
        refused(
            "seven NICs",
            with_extras(&[], &[2, 3, 4, 5, 6, 7, 8], &[1], &[]),
            900,
            34,
            11,
        ),
        refused(
            "seven targets",
            with_extras(&[], &[2], &[2, 3, 4, 5, 6, 7, 0], &[]),
            900,
            34,
            12,
        ),
    ]
}

/// A record with secrets: the heap that it is to have, and where its entries stand in that. Without extras
/// and with Target 0 alone the heap starts at 126.
fn apart(
    name: &'static str,
    given: Given,
    start: u64,
    heap: &'static [u8],
    offsets: &'static [(u8, u64)],
) -> Known {
    Known {
        heap,
        ..built(name, given, start + heap.len() as u64, offsets)
    }
}

/// Secrets of Target 0, entries 4 and 6, beside its name, CHAP name and reverse CHAP name, 2, 3 and 5. Each
/// secret has bytes of its own; a string that could stand in a secret stands elsewhere.
fn secrets_of_a_target() -> Vec<Known> {
    let of = |name, texts: &[(usize, &[u8])], heap, offsets| {
        apart(name, record_with(&[2], texts), 126, heap, offsets)
    };
    vec![
        of(
            "a secret equals the name",
            &[(2, b"depot7"), (4, b"depot7")],
            b"depot7\0depot7\0",
            &[(2, 126), (4, 133)],
        ),
        of(
            "a secret ends the name",
            &[(2, b"depot7"), (4, b"7")],
            b"depot7\x007\0",
            &[(2, 126), (4, 133)],
        ),
        of(
            "the name ends a secret",
            &[(2, b"7"), (4, b"depot7")],
            b"7\0depot7\0",
            &[(2, 126), (4, 128)],
        ),
        of(
            "a reverse name equals a secret",
            &[(4, b"depot7"), (5, b"depot7")],
            b"depot7\0depot7\0",
            &[(4, 126), (5, 133)],
        ),
        of(
            "two equal secrets",
            &[(4, b"depot7"), (6, b"depot7")],
            b"depot7\0depot7\0",
            &[(4, 126), (6, 133)],
        ),
        of(
            "a secret ends a secret",
            &[(4, b"7"), (6, b"depot7")],
            b"7\0depot7\0",
            &[(4, 126), (6, 128)],
        ),
        of("an empty secret alone", &[(6, b"")], b"\0", &[(6, 126)]),
        of(
            "an empty secret beside a name",
            &[(2, b"depot7"), (4, b"")],
            b"depot7\0\0",
            &[(2, 126), (4, 133)],
        ),
        of(
            "an empty secret beside an empty name",
            &[(2, b""), (4, b"")],
            b"\0\0",
            &[(2, 126), (4, 127)],
        ),
        of(
            "two empty secrets",
            &[(4, b""), (6, b"")],
            b"\0\0",
            &[(4, 126), (6, 127)],
        ),
        of(
            "an empty secret beside a secret",
            &[(4, b"depot7"), (6, b"")],
            b"depot7\0\0",
            &[(4, 126), (6, 133)],
        ),
        of(
            "an empty name beside a secret",
            &[(2, b""), (4, b"depot7")],
            b"\0depot7\0",
            &[(2, 126), (4, 127)],
        ),
        of(
            "two empty names round a secret",
            &[(3, b""), (4, b"depot7"), (5, b"")],
            b"\0depot7\0",
            &[(3, 126), (4, 127), (5, 126)],
        ),
        of(
            "an empty name, a name and a secret",
            &[(3, b""), (4, b"depot7"), (5, b"iqn.a")],
            b"depot7\0iqn.a\0",
            &[(3, 138), (4, 126), (5, 133)],
        ),
        // The lowest string that ends with 7 is a secret; the next is the host.
        of(
            "a host behind a secret",
            &[(3, b"7"), (4, b"depot7"), (5, b"crane7")],
            b"depot7\0crane7\0",
            &[(3, 138), (4, 126), (5, 133)],
        ),
        of(
            "a host before a secret",
            &[(2, b"crane7"), (4, b"depot7"), (5, b"7")],
            b"crane7\0depot7\0",
            &[(2, 126), (4, 133), (5, 131)],
        ),
        of(
            "five equal strings",
            &[(2, b"7"), (3, b"7"), (4, b"7"), (5, b"7"), (6, b"7")],
            b"7\x007\x007\0",
            &[(2, 126), (3, 126), (4, 128), (5, 126), (6, 130)],
        ),
    ]
}

/// Two targets stand at 72 and 128 and end at 182, also where the second is an extra. Its strings are then
/// entries 13 to 17, behind an extra NIC 14 to 18; NIC 5 and Target 9 stand at 72 and 176 and end at 230.
fn secrets_of_targets() -> Vec<Known> {
    let two = |texts: &[(usize, &[u8])]| record_with(&[2, 4], texts);
    let target_9 = |texts: &[(usize, &[u8])]| record_with_extras(&[2], &[], &[9], texts);
    let nic_5 = |texts: &[(usize, &[u8])]| record_with_extras(&[], &[5], &[9], texts);
    let secrets = [4, 6, 10, 12, 21, 23, 26, 28, 31, 33, 36, 38, 41, 43, 46, 48];
    let all = record_with_extras(
        &[0, 1, 2, 3, 4],
        &SIX,
        &SIX,
        &secrets.map(|entry| (entry, &b"7"[..])),
    );
    vec![
        apart(
            "equal secrets of two targets",
            two(&[(4, b"depot7"), (10, b"depot7")]),
            182,
            b"depot7\0depot7\0",
            &[(4, 182), (10, 189)],
        ),
        apart(
            "a secret equals the other's name",
            two(&[(6, b"depot7"), (8, b"depot7"), (9, b"7"), (12, b"7")]),
            182,
            b"depot7\0depot7\x007\0",
            &[(6, 182), (8, 189), (9, 194), (12, 196)],
        ),
        apart(
            "secrets of Target 9",
            target_9(&[
                (2, b"depot7"),
                (4, b"depot7"),
                (13, b"7"),
                (15, b"depot7"),
                (17, b""),
            ]),
            182,
            b"depot7\0depot7\0depot7\0\0",
            &[(2, 182), (4, 189), (13, 187), (15, 196), (17, 203)],
        ),
        apart(
            "secrets of Target 9 behind NIC 5",
            nic_5(&[(13, b"a"), (14, b"a"), (16, b"a"), (17, b""), (18, b"a")]),
            230,
            b"a\0a\0a\0",
            &[(13, 230), (14, 230), (16, 232), (17, 231), (18, 234)],
        ),
        apart(
            "a name of Target 9 that ends its secret",
            nic_5(&[(14, b"7"), (18, b"depot7")]),
            230,
            b"7\0depot7\0",
            &[(14, 230), (18, 232)],
        ),
        apart(
            "sixteen equal secrets",
            all,
            1_454,
            b"7\x007\x007\x007\x007\x007\x007\x007\x007\x007\x007\x007\x007\x007\x007\x007\0",
            &[
                (4, 1_454),
                (6, 1_456),
                (12, 1_460),
                (21, 1_462),
                (48, 1_484),
            ],
        ),
        refused(
            "a secret equals the name, one byte too few",
            record_with(&[2], &[(2, b"depot7"), (4, b"depot7")]),
            139,
            21,
            0,
        ),
        refused(
            "an empty secret, one byte too few",
            record_with(&[2], &[(2, b"depot7"), (4, b"")]),
            133,
            21,
            0,
        ),
    ]
}

/// The records above that are built, by name.
pub fn records_with_secrets() -> Vec<(&'static str, Given)> {
    let all = secrets_of_a_target()
        .into_iter()
        .chain(secrets_of_targets());
    let built = all.filter(|known| known.answer.is_ok());
    built.map(|known| (known.name, known.given)).collect()
}

fn builds_as_known(known: &Known) -> bool {
    let Known {
        name,
        given,
        room_size,
        answer,
        offsets,
        heap,
    } = known;
    let mut lent = LentBuild::new(&mut Seeded::new(0), given, *room_size);
    let expected = match answer {
        Ok(length) => packed(0, 0, *length),
        Err((number, place)) => packed(*number, *place, 0),
    };
    let by_document = packed_table(&build(lent.record(), lent.strings(), *room_size));
    let by_library = lent.built_by(library::ibft_build);
    if [by_document, by_library] != [expected; 2] {
        println!("build: {}: {}", name, in_words(expected));
        println!("  library  {}", in_words(by_library));
        println!("  document {}", in_words(by_document));
        return false;
    }
    let room = lent.room();
    if !room.ends_with(heap) {
        println!("build: {}: the heap is another: {:02x?}", name, room);
        return false;
    }
    offsets.iter().all(|(entry, offset)| {
        let view = unsafe { library::test_entry_place(room.as_ptr(), room.len(), *entry) };
        let found = view & 0xFFFF;
        if found != *offset {
            println!("build: {}: entry {} stands at {}", name, entry, found);
        }
        found == *offset
    })
}

/// The table that `show` is tried on, byte for byte.
fn case_5_is_the_sample() -> bool {
    let sample = SAMPLES
        .iter()
        .find(|sample| sample.name == "case-5")
        .unwrap();
    let mut lent = LentBuild::new(&mut Seeded::new(5), &case_5(), sample.table.len());
    lent.built_by(library::ibft_build);
    if lent.room() != sample.table {
        println!("build: case 5 is not samples/case-5.ibft");
    }
    lent.room() == sample.table
}

/// Does every known record have the answer that it should, from the library and from the reading?
pub fn known_records_agree() -> bool {
    known_records().iter().all(builds_as_known)
        && secrets_of_a_target().iter().all(builds_as_known)
        && secrets_of_targets().iter().all(builds_as_known)
        && case_5_is_the_sample()
}
