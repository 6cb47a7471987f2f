//! Rebuilds of tables that are known by name: worked cases, tables that firmware wrote, one that gets longer by
//! the order of its structures, those that do as their secrets share bytes, strings with a zero byte and sums
//! that are wrong, with the answers worked by hand.

use crate::call::library;
use crate::known::samples::SAMPLES;
use crate::lent::room::LentRoom;
use crate::make::seeded::Seeded;
use crate::make::table::*;
use crate::model::answer::{in_words, packed, packed_table};
use crate::model::check::Refusal;
use crate::model::layout::*;
use crate::model::rebuild::rebuilt;
use crate::tally::build_sights::LARGEST_LENGTH;

/// A table, the room that it is rebuilt into, and the Length or the refusal that it is answered.
struct Known {
    name: &'static str,
    table: Vec<u8>,
    room_size: usize,
    answer: Result<u64, Refusal>,
}

/// Rebuilt in as many bytes as it takes; and refused for want of one of them.
fn rebuilt_as(name: &'static str, table: &[u8], before: usize, after: u64) -> [Known; 2] {
    assert_eq!(length(table), before as u64, "{}", name);
    let known = |room_size: u64, answer| Known {
        name,
        table: table.to_vec(),
        room_size: room_size as usize,
        answer,
    };
    [
        known(after, Ok(after)),
        known(after - 1, Err(Refusal::new(21, 0))),
    ]
}

fn refused(name: &'static str, table: Table, number: u64, place: u64) -> [Known; 2] {
    refused_by(name, table, Refusal::new(number, place))
}

fn refused_by(name: &'static str, table: Table, refusal: Refusal) -> [Known; 2] {
    let known = |room_size: usize| Known {
        name,
        table: table.bytes.clone(),
        room_size,
        answer: Err(refusal),
    };
    [known(LARGEST_LENGTH), known(0)]
}

/// NIC 0 at 72 and the initiator behind it, at 176: they end at 250. The other way round NIC 0 starts at 152
/// and ends at 254.
fn initiator_last() -> Table {
    let mut table = Table::new(250);
    table.put_structure(1, 72);
    table.put_structure(0, 176);
    table.mended()
}

/// NIC 5 and Target 9 in words of the other order, and a CHAP name of Target 9 with a zero byte: with one
/// extra NIC its number is 13 + 1 + 1.
fn zero_in_extra() -> Table {
    let mut table = Table::with_words(230, 2);
    table.put_extra(6, &NIC, 5, 72);
    table.put_extra(5, &TARGET, 9, 176);
    table.append_text(15, b"a\0b");
    table.append_text(13, b"host");
    table.mended()
}

/// Target 0 alone, its strings from 126 on: one of them laid, and another that shares its bytes.
fn sharing(entry: usize, text: &[u8], other: usize, offset: usize, length: usize) -> Vec<u8> {
    let mut table = with_texts(&[2], &[(entry, text)]);
    table.point(other, offset, length);
    table.mended().bytes
}

/// Target 0 at 72 and the initiator behind it, at 128, so that they end at 202; the secret is the name. The
/// other way round Target 0 starts at 152 and ends at 206.
fn initiator_last_and_sharing() -> Table {
    let mut table = Table::new(202);
    table.put_structure(2, 72);
    table.put_structure(0, 128);
    table.append_text(2, b"depot7");
    table.point(4, 202, 6);
    table.mended()
}

/// Target 0 and an extra target, up to 182, and the name of the one; its secrets and those of the other,
/// entries 15 and 17, end with it.
fn secrets_of_extras_sharing() -> Table {
    let mut table = structures_and_extras(&[2], 0, 1);
    table.append_text(2, b"depot7");
    for (entry, length) in [(4, 6), (6, 0), (15, 1), (17, 6)] {
        table.point(entry, 188 - length, length);
    }
    table.mended()
}

/// Tables in which secrets share bytes, which the check accepts, and one in which they do not: by how much
/// they grow is what secrets shared.
fn tables_with_secrets() -> Vec<(&'static str, Vec<u8>, usize, u64)> {
    let apart = with_texts(&[2], &[(2, b"depot7"), (4, b"depot7")]).mended();
    let turned = with_texts(&[2], &[(4, b"depot7"), (2, b"depot7")]).mended();
    let mut in_secret = with_texts(&[2], &[(4, b"depot7"), (5, b"crane7")]);
    in_secret.point(3, 131, 1);
    vec![
        (
            "the secret is the name",
            sharing(2, b"depot7", 4, 126, 6),
            133,
            140,
        ),
        (
            "the secret ends the name",
            sharing(2, b"depot7", 4, 131, 1),
            133,
            135,
        ),
        (
            "the name ends the secret",
            sharing(4, b"depot7", 2, 131, 1),
            133,
            135,
        ),
        (
            "one place for two secrets",
            sharing(4, b"depot7", 6, 126, 6),
            133,
            140,
        ),
        (
            "a secret ends the other",
            sharing(6, b"depot7", 4, 131, 1),
            133,
            135,
        ),
        (
            "a secret at a zero byte",
            sharing(3, b"depot7", 4, 132, 0),
            133,
            134,
        ),
        (
            "a name at a secret's zero",
            sharing(4, b"depot7", 2, 132, 0),
            133,
            134,
        ),
        ("two empty secrets", sharing(4, b"", 6, 126, 0), 127, 128),
        (
            "a name that ends a secret and a name",
            in_secret.mended().bytes,
            140,
            140,
        ),
        ("a secret apart", apart.bytes, 140, 140),
        ("a secret apart, before the name", turned.bytes, 140, 140),
        (
            "the initiator last, the secret is the name",
            initiator_last_and_sharing().bytes,
            209,
            220,
        ),
        (
            "secrets of an extra",
            secrets_of_extras_sharing().bytes,
            189,
            206,
        ),
    ]
}

fn known_tables() -> Vec<Known> {
    let sample = |name: &str| SAMPLES.iter().find(|s| s.name == name).unwrap().table;
    let depot = |reverse: &[u8]| with_texts(&[2], &[(3, b"depot7"), (5, reverse)]).mended();
    let twelve = structures_and_extras(&[0, 1, 2, 3, 4], 6, 6).mended();
    let of = |table: Table| table.bytes;
    let mut known = Vec::new();
    for (name, table, before, after) in [
        ("case 1", of(structures(&[]).mended()), 66, 66),
        (
            "case 3",
            of(with_texts(&[0], &[(0, b"")]).mended()),
            147,
            147,
        ),
        ("case 5", sample("case-5").to_vec(), 133, 133),
        ("depot7, and 7 apart", of(depot(b"7")), 135, 133),
        ("depot7 twice", of(depot(b"depot7")), 140, 133),
        ("depot7 and depot", of(depot(b"depot")), 139, 139),
        (
            "two words, both unused",
            of(Table::with_words(70, 2).mended()),
            70,
            66,
        ),
        ("twelve extras", of(twelve), 1_454, 1_454),
        ("a common table", of(common_table()), 427, 414),
        ("the largest table", of(largest_table()), 3_702, 3_702),
        (
            "the largest with extras",
            of(largest_table_with_extras()),
            13_710,
            13_710,
        ),
        ("the initiator last", of(initiator_last()), 250, 254),
        (
            "ipxe-one-target",
            sample("ipxe-one-target").to_vec(),
            597,
            395,
        ),
        (
            "ipxe-mutual-chap",
            sample("ipxe-mutual-chap").to_vec(),
            611,
            402,
        ),
        (
            "ipxe-two-targets",
            sample("ipxe-two-targets").to_vec(),
            607,
            551,
        ),
        (
            "ovmf-one-target",
            sample("ovmf-one-target").to_vec(),
            2_048,
            364,
        ),
    ] {
        known.extend(rebuilt_as(name, &table, before, after));
    }
    for (name, table, before, after) in tables_with_secrets() {
        known.extend(rebuilt_as(name, &table, before, after));
    }
    let with_zero = |entry: usize, text: &[u8]| with_texts(&[0, 2], &[(entry, text)]).mended();
    known.extend(refused("a zero byte alone", with_zero(0, b"\0"), 20, 0));
    known.extend(refused("a zero byte last", with_zero(4, b"ab\0"), 20, 4));
    known.extend(refused("a zero byte of Target 9", zero_in_extra(), 20, 15));
    known.extend(refused(
        "a host name",
        with_texts(&[1], &[(1, b"a.b.")]).mended(),
        18,
        170,
    ));
    // The signature sums to 325, Length is 66, Revision 1, Control's first bytes are 1, 1 and 18: 412 in
    // all, and 512 with 100.
    known.extend(refused_by(
        "a checksum byte of 0",
        structures(&[]),
        Refusal::of_sum(100),
    ));
    // 200 in a reserved byte makes it 612, and 768 with 156; 100 there 512.
    let with_reserved = |byte: u8, checksum: u8| {
        let mut table = structures(&[]);
        table.write(CHECKSUM as usize, &[checksum]);
        table.write(47, &[byte]);
        table
    };
    known.extend(refused_by(
        "a reserved byte changed",
        with_reserved(200, 100),
        Refusal::of_sum(156),
    ));
    known.extend(refused_by(
        "a right byte of 0",
        with_reserved(100, 255),
        Refusal::of_sum(0),
    ));
    known
}

fn is_as_known(known: &Known) -> bool {
    let expected = match known.answer {
        Ok(length) => packed(0, 0, length),
        Err(Refusal {
            number,
            place,
            checksum,
        }) => packed(number, place, u64::from(checksum)),
    };
    let by_document = rebuilt(&known.table);
    let by_document = match &by_document {
        Ok(rebuilt) => rebuilt.into_room(known.room_size),
        Err(refusal) => Err(*refusal),
    };
    let mut room = LentRoom::new(&mut Seeded::new(0), known.room_size);
    let (at, size) = room.lend();
    let (table, table_size) = (known.table.as_ptr(), known.table.len());
    let answer = unsafe { library::ibft_rebuild(table, table_size, at, size) };
    let agrees = [answer, packed_table(&by_document)] == [expected; 2]
        && room.holds_only(by_document.unwrap_or_default());
    if !agrees {
        println!("rebuild: {}: {}", known.name, in_words(expected));
        println!("  library  {}", in_words(answer));
        println!("  document {}", in_words(packed_table(&by_document)));
    }
    agrees
}

/// Does every known table have the answer that it should, from the library and from the reading?
pub fn known_tables_agree() -> bool {
    known_tables().iter().all(is_as_known)
}
