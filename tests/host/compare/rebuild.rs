//! `ibft_rebuild` held to the reading in model/rebuild.rs, on tables of many shapes: the answer, every byte
//! of the room and round it, and the table itself. What is rebuilt is checked, read back and rebuilt again,
//! and `ibft_build` of the old table's record range has to give the same.

use crate::call::library;
use crate::check::report;
use crate::known::rebuilds::known_tables_agree;
use crate::lent::room::LentRoom;
use crate::make::seeded::Seeded;
use crate::model::answer::{in_words, packed, packed_table};
use crate::model::check::Refusal;
use crate::model::layout::*;
use crate::model::rebuild::{rebuilt, Rebuilt};
use crate::model::record::{record_checked, record_read};
use crate::model::record_range::range_of;
use crate::shapes::rebuild::{FIRST_SHAPE, REBUILD_SHAPES};
use crate::shapes::table::{inputs_agree, some_agree, Input};
use crate::tally::answers::Tally;
use crate::tally::build_sights::LARGEST_LENGTH;
use crate::tally::rebuild_sights::RebuildSights;
use crate::tally::refusals::Refusals;

const LEAST_REBUILT: usize = 100_000;

/// One in so many of the inputs on which the check is compared. Some shapes go by the remainder of the
/// input's number by 3, 47, 256 and the like: 7 divides none of these, so each remainder is met.
const STEP: usize = 7;

/// Columns of the counts.
const ANSWERS: &[&str] = &["rebuilt", "zero byte", "refused"];
const REBUILT: usize = 0;
const ZERO_BYTE: usize = 1;
const REFUSED: usize = 2;

struct Counts {
    tally: Tally,
    refusals: Refusals,
    sights: RebuildSights,
    rebuilt: usize,
}

/// One call: true if the answer is the expected one, the room holds the expected table or is as it was, and
/// no other byte has changed, of the table neither.
fn call_agrees(input: &mut Input, expected: Result<&[u8], Refusal>, room: &mut LentRoom) -> bool {
    let (table, table_size) = input.table.lend();
    let (at, size) = room.lend();
    let answer = unsafe { library::ibft_rebuild(table, table_size, at, size) };
    let wrong_byte = room.first_wrong_byte(expected.unwrap_or_default());
    let as_expected = packed_table(&expected);
    if answer == as_expected && wrong_byte.is_none() && input.table.is_unchanged() {
        return true;
    }
    let room = format!("room of {} bytes", size);
    let given = format!(
        "{}, {}, wrong byte {:?}",
        in_words(answer),
        room,
        wrong_byte
    );
    report("rebuild", input, &given, &in_words(as_expected));
    false
}

fn differs(input: &Input, what: &str) -> bool {
    report("rebuild", input, what, "the table of the same record");
    false
}

/// A room that is large enough, and one that is not.
fn room_sizes(seeded: &mut Seeded, length: usize) -> (usize, usize) {
    let more = length + seeded.between(1, 80);
    let enough = seeded.one_of(&[length, length, length + 1, more, LARGEST_LENGTH, 16_384]);
    let fewer = seeded.between(0, length - 1);
    let too_few = seeded.one_of(&[length - 1, length - 1, length - 1, 0, fewer]);
    (enough, too_few)
}

/// A table that can be rebuilt.
fn rebuilds(input: &mut Input, expected: &Rebuilt, counts: &mut Counts) -> bool {
    let length = expected.table.len();
    let (enough, too_few) = room_sizes(&mut input.seeded, length);
    let mut room = LentRoom::new(&mut input.seeded, enough);
    let mut small_room = LentRoom::new(&mut input.seeded, too_few);
    if !call_agrees(input, expected.into_room(enough), &mut room)
        || !call_agrees(input, expected.into_room(too_few), &mut small_room)
    {
        return false;
    }
    counts.rebuilt += 1;
    counts.tally.count(input.shape, REBUILT);
    let sights = &mut counts.sights;
    sights.see_rebuilt(
        input.table.bytes(),
        &expected.record,
        &expected.table,
        enough,
    );
    sights.see("a room one byte too small", too_few == length - 1);
    sights.see("a room of no bytes", too_few == 0);
    serves(input, expected, &mut room) && is_built_from_range(input, expected)
}

/// The table in the room passes the check and reads as the record; rebuilt in a room of just its Length it
/// is the same bytes. It is lent alone or with the rest of the room.
fn serves(input: &mut Input, expected: &Rebuilt, room: &mut LentRoom) -> bool {
    let length = expected.table.len();
    let lent = input.seeded.one_of(&[length, room.size()]);
    let mut again = LentRoom::new(&mut input.seeded, length);
    let (table, _) = room.lend();
    let (at, size) = again.lend();
    let verdict = unsafe { library::ibft_check(table, lent) };
    let answer = unsafe { library::ibft_rebuild(table, lent, at, size) };
    if verdict != 0 {
        return differs(input, &format!("check of it: {}", in_words(verdict)));
    }
    if record_read(&room.bytes()[..lent]).as_ref() != Some(&expected.record) {
        return differs(input, "it reads as another record");
    }
    let is_same = answer == packed(0, 0, length as u64) && again.holds_only(&expected.table);
    if !is_same || !room.holds_only(&expected.table) {
        return differs(input, &format!("rebuilt again: {}", in_words(answer)));
    }
    true
}

/// What is read of the table, given to a build as a record, is the same table.
fn is_built_from_range(input: &mut Input, expected: &Rebuilt) -> bool {
    let mut room = LentRoom::new(&mut input.seeded, expected.table.len());
    let range = range_of(input.table.bytes());
    let (table, table_size) = input.table.lend();
    let (at, size) = room.lend();
    let answer =
        unsafe { library::ibft_build(range.as_ptr(), range.len(), table, table_size, at, size) };
    if answer != packed(0, 0, expected.table.len() as u64) || !room.holds_only(&expected.table) {
        return differs(input, &format!("built: {}", in_words(answer)));
    }
    true
}

/// A table that cannot be rebuilt, whatever the room.
fn refuses(input: &mut Input, refusal: Refusal, counts: &mut Counts) -> bool {
    let any = input.seeded.between(0, 700);
    let room_size = input.seeded.one_of(&[0, 65, 66, any, any, LARGEST_LENGTH]);
    let mut room = LentRoom::new(&mut input.seeded, room_size);
    if !call_agrees(input, Err(refusal), &mut room) {
        return false;
    }
    let table = input.table.bytes();
    if refusal.number == 20 {
        let record = record_checked(table).unwrap();
        counts.tally.count(input.shape, ZERO_BYTE);
        counts.sights.see_zero(&record, refusal.place, room_size);
    } else {
        counts.tally.count(input.shape, REFUSED);
        counts.refusals.count(table, &refusal);
        let hides = (15..=18).contains(&refusal.number) && has_zero_below(table, refusal.place);
        let sight = "a refusal of the check where 20 would apply";
        counts.sights.see(sight, hides);
    }
    true
}

/// Has a string of a lower number than the one that the check refuses a zero byte in it? The check has
/// passed the lower ones.
fn has_zero_below(table: &[u8], place: u64) -> bool {
    let slots = slots(table);
    for entry in entries(&slots) {
        let field = match slots[entry.slot].start {
            Some(start) => start + entry.at,
            None => continue,
        };
        if field == place {
            return false;
        }
        let (size, offset) = (word(table, field), word(table, field + 2));
        if table[offset as usize..(offset + size) as usize].contains(&0) {
            return true;
        }
    }
    false
}

fn compare_one(input: &mut Input, counts: &mut Counts) -> bool {
    match rebuilt(input.table.bytes()) {
        Ok(expected) => rebuilds(input, &expected, counts),
        Err(refusal) => refuses(input, refusal, counts),
    }
}

pub fn compare() -> bool {
    let mut counts = Counts {
        tally: Tally::new("rebuild", ANSWERS),
        refusals: Refusals::default(),
        sights: RebuildSights::default(),
        rebuilt: 0,
    };
    let shapes = (FIRST_SHAPE..).zip(REBUILD_SHAPES.iter().copied());
    let agree = known_tables_agree()
        && inputs_agree(shapes, 1, |mut input| compare_one(&mut input, &mut counts))
        && some_agree(STEP, |mut input| compare_one(&mut input, &mut counts));
    if !agree {
        return false;
    }
    counts.tally.print();
    counts.refusals.print("refused");
    counts.refusals.print_causes();
    println!(
        "  tables rebuilt, read back and rebuilt again: {}",
        counts.rebuilt
    );
    let all_met = counts.refusals.are_all_met("rebuild");
    if counts.rebuilt < LEAST_REBUILT {
        println!("rebuild: fewer tables than {}", LEAST_REBUILT);
        return false;
    }
    counts.sights.are_enough() && all_met && counts.tally.is_enough(LEAST_REBUILT)
}
