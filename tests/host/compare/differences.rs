//! `test_compare`, `test_difference` and `test_difference_view` held to model/compare.rs, on pairs of many shapes: the
//! answers, what is written for each difference, for the two numbers behind the last and for greater ones, the bytes of
//! each view, all other bytes lent, and both tables. There is none where, and only where, the model reads both tables
//! as the same record; where the making of a pair tells how many there are, there are so many.

use crate::call::library;
use crate::known::differences::known_differences_agree;
use crate::lent::room::LentRoom;
use crate::lent::table::LentTable;
use crate::make::seeded::Seeded;
use crate::model::compare::*;
use crate::model::record::record_read;
use crate::shapes::pair::{Pair, FIRST_SHAPE, PAIR_SHAPES};
use crate::tally::answers::Tally;
use crate::tally::difference_sights::DifferenceSights;

const LEAST_PAIRS: usize = 100_000;
const LEAST_DIFFERENCES: usize = 300_000;
const LEAST_SHOWN: usize = 50_000;

/// Columns of the counts.
const ANSWERS: &[&str] = &["none", "one", "more", "left", "right"];
const NO_DIFFERENCE: usize = 0;
const ONE: usize = 1;
const MORE: usize = 2;
const LEFT_REFUSED: usize = 3;
const RIGHT_REFUSED: usize = 4;

struct Counts {
    tally: Tally,
    sights: DifferenceSights,
    differences: usize,
    shown: usize,
    most: usize,
}

/// A pair as it is lent, and how to make it again.
struct Lent {
    shape: &'static str,
    seed: u64,
    seeded: Seeded,
    left: LentTable,
    right: LentTable,
}

impl Lent {
    fn new(shape: &'static str, seed: u64, mut seeded: Seeded, pair: &Pair) -> Lent {
        Lent {
            shape,
            seed,
            left: LentTable::new(&mut seeded, &pair.left),
            right: LentTable::new(&mut seeded, &pair.right),
            seeded,
        }
    }

    fn report(&self, what: &str, answer: &str, expected: &str) {
        println!(
            "differences: DIFFERENCE in shape '{}', seed {:#x}: {}",
            self.shape, self.seed, what
        );
        for (side, table) in [("left", &self.left), ("right", &self.right)] {
            println!(
                "  {}, {} bytes lent: {}",
                side,
                table.bytes().len(),
                table.in_hex()
            );
        }
        println!("  library  {}", answer);
        println!("  document {}", expected);
        if !self.is_unchanged() {
            println!("  bytes of a table have changed");
        }
    }

    fn is_unchanged(&self) -> bool {
        self.left.is_unchanged() && self.right.is_unchanged()
    }
}

// ---- One call ----

fn in_words(answer: u64) -> String {
    format!(
        "{:#x} (number {}, place {}, checksum {}, side {}, differences {})",
        answer,
        answer & 0xFF,
        answer >> 8 & 0xFF_FFFF,
        answer >> 32 & 0xFF,
        answer >> 40 & 0xFF,
        answer >> 48
    )
}

/// The comparison; and once more of tables that are the same bytes, with one of them lent as both.
fn compare_agrees(lent: &mut Lent, compared: &Compared) -> bool {
    let expected = packed_comparison(compared);
    let is_one = lent.left.bytes() == lent.right.bytes();
    let ((left, left_size), (right, right_size)) = (lent.left.lend(), lent.right.lend());
    let answer = unsafe { library::test_compare(left, left_size, right, right_size) };
    let of_one = match is_one {
        true => unsafe { library::test_compare(left, left_size, left, left_size) },
        false => expected,
    };
    let agrees = answer == expected && of_one == expected;
    if !agrees {
        let given = format!("{}, of one lent twice {}", in_words(answer), in_words(of_one));
        lent.report("compare", &given, &in_words(expected));
    }
    agrees
}

/// Difference k, written into as many bytes as it has, mostly; else into more or fewer.
fn difference_agrees(lent: &mut Lent, k: u16, expected: u64, difference: Option<&Difference>) -> bool {
    let fewer = lent.seeded.between(0, LAID_SIZE - 1);
    let size = lent.seeded.one_of(&[LAID_SIZE, LAID_SIZE, 24, 60, fewer]);
    let mut room = LentRoom::new(&mut lent.seeded, size);
    let ((left, left_size), (right, right_size)) = (lent.left.lend(), lent.right.lend());
    let (out, out_size) = room.lend();
    let answer = unsafe { library::test_difference(left, left_size, right, right_size, k, out, out_size) };
    let laid = &laid(difference)[..size.min(LAID_SIZE)];
    let wrong_byte = room.first_wrong_byte(laid);
    let agrees = answer == expected && wrong_byte.is_none();
    if !agrees {
        let given = format!(
            "{}, {:02x?}, wrong byte {:?}",
            in_words(answer),
            room.bytes(),
            wrong_byte
        );
        let wanted = format!("{}, {:02x?}, {:?}", in_words(expected), laid, difference);
        lent.report(&format!("difference {}", k), &given, &wanted);
    }
    agrees
}

/// The view of difference k into so many bytes.
fn view_agrees(lent: &mut Lent, k: u16, shown: &[u8], size: usize) -> bool {
    let mut room = LentRoom::new(&mut lent.seeded, size);
    let ((left, left_size), (right, right_size)) = (lent.left.lend(), lent.right.lend());
    let (out, out_size) = room.lend();
    let answer =
        unsafe { library::test_difference_view(left, left_size, right, right_size, k, out, out_size) };
    let copied = &shown[..size.min(shown.len())];
    let wrong_byte = room.first_wrong_byte(copied);
    let agrees = answer == shown.len() && wrong_byte.is_none();
    if !agrees {
        let given = format!(
            "{} bytes, {:02x?}, wrong byte {:?}",
            answer,
            room.bytes(),
            wrong_byte
        );
        let wanted = format!("{} bytes, {:02x?}", shown.len(), copied);
        lent.report(&format!("view {} into {} bytes", k, size), &given, &wanted);
    }
    agrees
}

// ---- One pair ----

/// Difference k and its view, into bytes that are too few, just enough and more.
fn numbered_agrees(lent: &mut Lent, k: u16, expected: u64, difference: Option<&Difference>) -> bool {
    let shown = difference.map_or(Vec::new(), |d| d.shown.bytes(lent.left.bytes()).to_vec());
    let mut sizes = vec![shown.len(), shown.len() + lent.seeded.one_of(&[1, 2, 40])];
    if !shown.is_empty() {
        let any = lent.seeded.between(0, shown.len() - 1);
        sizes.push(lent.seeded.one_of(&[shown.len() - 1, shown.len() - 1, any, 0]));
    }
    difference_agrees(lent, k, expected, difference)
        && sizes.into_iter().all(|size| view_agrees(lent, k, &shown, size))
}

/// Every number below the count, the two behind it, one whose low byte is 0, and the greatest.
fn all_numbers(count: usize) -> Vec<u16> {
    let listed = (0..count + 2).map(|k| k as u16);
    listed.chain([256, u16::MAX]).collect()
}

/// There is none exactly where both read as the same record, and as many as the making of the pair tells.
fn list_holds(lent: &Lent, compared: &Compared, known: Option<usize>) -> bool {
    let holds = match compared {
        Ok(list) => {
            let is_same = record_read(lent.left.bytes()) == record_read(lent.right.bytes());
            list.is_empty() == is_same && known.map_or(true, |known| list.len() == known)
        }
        Err(_) => known.is_none(),
    };
    if !holds {
        let made = format!("made with {:?} differences", known);
        lent.report("the model's list", &made, &format!("{:?}", compared));
    }
    holds
}

fn pair_agrees(lent: &mut Lent, known: Option<usize>, counts: &mut Counts) -> bool {
    let compared = compared(lent.left.bytes(), lent.right.bytes());
    let list = compared.as_deref().unwrap_or_default();
    let refusal = packed_refusal(&compared);
    let agree = list_holds(lent, &compared, known)
        && compare_agrees(lent, &compared)
        && all_numbers(list.len())
            .into_iter()
            .all(|k| numbered_agrees(lent, k, refusal, list.get(usize::from(k))));
    if agree && !lent.is_unchanged() {
        lent.report("bytes of a table", "changed", "as they were");
        return false;
    }
    if agree {
        count(lent, &compared, counts);
    }
    agree
}

fn count(lent: &Lent, compared: &Compared, counts: &mut Counts) {
    let answer = match compared {
        Ok(list) => [NO_DIFFERENCE, ONE, MORE][list.len().min(2)],
        Err(RefusedSide { side: 0, .. }) => LEFT_REFUSED,
        Err(_) => RIGHT_REFUSED,
    };
    counts.tally.count(lent.shape, answer);
    counts
        .sights
        .see_pair(lent.left.bytes(), lent.right.bytes(), compared);
    let list = compared.as_deref().unwrap_or_default();
    counts.differences += list.len();
    counts.shown += list.iter().filter(|d| d.shown.length > 0).count();
    counts.most = counts.most.max(list.len());
}

// ---- All of them ----

fn all_pairs_agree(counts: &mut Counts) -> bool {
    for (i, (shape, pairs, make)) in (FIRST_SHAPE..).zip(PAIR_SHAPES) {
        for n in 0..*pairs {
            let seed = ((i as u64) << 32) + n as u64;
            let mut seeded = Seeded::new(seed);
            let pair = make(n, &mut seeded);
            let mut lent = Lent::new(shape, seed, seeded, &pair);
            if !pair_agrees(&mut lent, pair.differences, counts) {
                return false;
            }
        }
    }
    true
}

pub fn compare() -> bool {
    let mut counts = Counts {
        tally: Tally::new("differences", ANSWERS),
        sights: DifferenceSights::default(),
        differences: 0,
        shown: 0,
        most: 0,
    };
    if !known_differences_agree() || !all_pairs_agree(&mut counts) {
        return false;
    }
    counts.tally.print();
    counts.sights.print();
    println!(
        "  {} differences, {} of them with bytes shown; the most of a pair {}",
        counts.differences, counts.shown, counts.most
    );
    counts.sights.are_enough()
        && counts.differences >= LEAST_DIFFERENCES
        && counts.shown >= LEAST_SHOWN
        && counts.tally.is_enough(LEAST_PAIRS)
}
