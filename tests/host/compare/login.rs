//! The login order as compiled (`test_login_order`), held to model/login.rs.

use crate::call::library;
use crate::check::report;
use crate::model::answer::{number_and_place, packed_verdict};
use crate::model::login::{login_order, places};
use crate::readings::checksum_of;
use crate::shapes::table::{all_agree, Input};
use crate::tally::answers::Tally;

const LEAST_INPUTS: usize = 200_000;

/// Counts by how many targets there are to log in to, and whether the order is by Index.
const ANSWERS: &[&str] = &[
    "refused", "none", "1", "2", "2 turned", "3", "3 turned", "4 to 7", "turned", "8", "8 turned",
];

/// The column of the counts for an order.
fn column(order: &[u64]) -> usize {
    let turned = order.windows(2).any(|pair| pair[0] > pair[1]);
    let column = match order.len() {
        0 => 1,
        1 => 2,
        2 => 3,
        3 => 5,
        8 => 9,
        _ => 7,
    };
    column + usize::from(turned)
}

fn compare_one(input: &mut Input, tally: &mut Tally, with_255: &mut usize) -> bool {
    let expected = login_order(input.table.bytes());
    let refusal = number_and_place(packed_verdict(&expected));
    let checksum = checksum_of(&expected);
    let order = expected.as_deref().unwrap_or_default();
    let places = places(order);
    let packed = refusal | (order.len() as u64) << 32 | places[0] << 40 | places[1] << 48;
    let all_places = places.iter().rev().fold(0, |all, place| all << 8 | place);
    let (table, size) = input.table.lend();
    let answer = unsafe { library::test_login_order(table, size) };
    let places_given = unsafe { library::test_login_places(table, size) };
    let checksum_given = unsafe { library::test_login_checksum(table, size) };
    let given = (answer, places_given, checksum_given);
    let expected_all = (packed, all_places, checksum);
    if given != expected_all || !input.table.is_unchanged() {
        let in_words = |(answer, places, checksum): (u64, u64, u8)| {
            format!("{:#x}, places {:#018x}, checksum {}", answer, places, checksum)
        };
        report("login order", input, &in_words(given), &in_words(expected_all));
        return false;
    }
    if order.contains(&255) {
        *with_255 += 1;
    }
    let answer = expected.map_or(0, |order| column(&order));
    tally.count(input.shape, answer);
    true
}

pub fn compare() -> bool {
    let mut tally = Tally::new("login order", ANSWERS);
    let mut with_255 = 0;
    if !all_agree(|mut input| compare_one(&mut input, &mut tally, &mut with_255)) {
        return false;
    }
    tally.print();
    println!("  a used place holds 255: {} times", with_255);
    with_255 > 0 && tally.is_enough(LEAST_INPUTS)
}
