//! The comparison as one would write it in Rust over the twin of the check, for the benchmark: both tables are
//! checked, the structures of each listed by kind and Index, the two lists merged, and what both have is compared. By
//! number, as the library answers; and in one walk over all differences, as one would offer it in Rust. It is called
//! through C's types, as the library is.

use super::check::{rust_check, word, Kind, ALL_SLOTS, INITIATOR, NAMED, NIC};
use std::slice::{from_raw_parts, from_raw_parts_mut};

const CONTROL: usize = 48;
const CONTROL_END: usize = 66;
const WORDS: usize = 56;
const MOST_PAIRS: usize = 29;

pub const LAID_SIZE: usize = 23;

/// Where the flags and the fields stand, and their sizes.
type Fields = &'static [(usize, usize)];
static INITIATOR_FIELDS: Fields = &[(5, 1), (6, 16), (22, 16), (38, 16), (54, 16)];
static NIC_FIELDS: Fields = &[
    (5, 1),
    (6, 16),
    (22, 1),
    (23, 1),
    (24, 16),
    (40, 16),
    (56, 16),
    (72, 16),
    (88, 2),
    (90, 6),
    (96, 2),
];
static TARGET_FIELDS: Fields = &[(5, 1), (6, 16), (22, 2), (24, 8), (32, 1), (33, 1)];

fn fields(kind: &Kind) -> Fields {
    match kind.id {
        2 => INITIATOR_FIELDS,
        3 => NIC_FIELDS,
        _ => TARGET_FIELDS,
    }
}

/// A structure of one table or of both: its turn in the list, and where it starts, 0 where it is not.
#[derive(Clone, Copy)]
struct Pair {
    turn: usize,
    kind: &'static Kind,
    index: u8,
    left: usize,
    right: usize,
}

const NO_PAIR: Pair = Pair {
    turn: 0,
    kind: &INITIATOR,
    index: 0,
    left: 0,
    right: 0,
};

/// A stretch of a table, as start and length.
type Stretch = (usize, usize);

struct Difference {
    what: u8,
    id: u8,
    index: u8,
    at: usize,
    left: Stretch,
    right: Stretch,
    shown: Stretch,
}

impl Difference {
    fn laid(&self) -> [u8; LAID_SIZE] {
        let mut laid = [0; LAID_SIZE];
        laid[..3].copy_from_slice(&[self.what, self.id, self.index]);
        laid[3..5].copy_from_slice(&(self.at as u16).to_le_bytes());
        for (i, (start, length)) in [self.left, self.right, self.shown].into_iter().enumerate() {
            let place = &mut laid[5 + 6 * i..];
            place[..4].copy_from_slice(&(start as u32).to_le_bytes());
            place[4..6].copy_from_slice(&(length as u16).to_le_bytes());
        }
        laid
    }
}

// ---- The calls ----

pub unsafe extern "C" fn rust_compare(
    left: *const u8,
    left_size: usize,
    right: *const u8,
    right_size: usize,
) -> u64 {
    let mut count = 0;
    let refusal = listed(left, left_size, right, right_size, |_| {
        count += 1;
        true
    });
    refusal | count << 48
}

pub unsafe extern "C" fn rust_difference(
    left: *const u8,
    left_size: usize,
    right: *const u8,
    right_size: usize,
    k: u16,
    out: *mut u8,
    out_size: usize,
) -> u64 {
    let mut laid = [0; LAID_SIZE];
    let refusal = numbered(left, left_size, right, right_size, k, |difference| {
        laid = difference.laid();
    });
    let size = out_size.min(LAID_SIZE);
    if size > 0 {
        from_raw_parts_mut(out, size).copy_from_slice(&laid[..size]);
    }
    refusal
}

/// All differences laid one after another in one walk: the digests of them together.
pub unsafe extern "C" fn rust_walk(
    left: *const u8,
    left_size: usize,
    right: *const u8,
    right_size: usize,
) -> u64 {
    let mut digests = 0u64;
    listed(left, left_size, right, right_size, |difference| {
        digests = digests.wrapping_mul(31).wrapping_add(digest(&difference.laid()));
        true
    });
    digests
}

/// Something of every byte.
pub fn digest(laid: &[u8; LAID_SIZE]) -> u64 {
    let halves = (&laid[..8], &laid[8..16], &laid[15..23]);
    let number = |bytes: &[u8]| u64::from_le_bytes(bytes.try_into().unwrap());
    number(halves.0) ^ number(halves.1).rotate_left(7) ^ number(halves.2).rotate_left(29)
}

/// Shows difference k where there is one.
unsafe fn numbered(
    left: *const u8,
    left_size: usize,
    right: *const u8,
    right_size: usize,
    k: u16,
    mut show: impl FnMut(&Difference),
) -> u64 {
    let mut before = 0;
    listed(left, left_size, right, right_size, |difference| {
        if before == k {
            show(difference);
            return false;
        }
        before += 1;
        true
    })
}

/// Shows each difference until `show` has enough; the refusal and its side.
unsafe fn listed(
    left: *const u8,
    left_size: usize,
    right: *const u8,
    right_size: usize,
    mut show: impl FnMut(&Difference) -> bool,
) -> u64 {
    for (table, size, side) in [(left, left_size, 0), (right, right_size, 1)] {
        let refusal = rust_check(table, size);
        if refusal != 0 {
            return refusal | side << 40;
        }
    }
    let (left, right) = (from_raw_parts(left, left_size), from_raw_parts(right, right_size));
    walk(left, right, &mut show);
    0
}

// ---- Structures ----

/// The structures of a table by turn: the named ones, the extra NICs, the extra targets, each by Index.
fn structures(table: &[u8], list: &mut [Pair; ALL_SLOTS]) -> usize {
    let mut count = 0;
    let control_end = CONTROL + word(table, CONTROL + 2);
    for (slot, at) in (WORDS..control_end).step_by(2).enumerate() {
        let start = word(table, at);
        if start == 0 {
            continue;
        }
        let (kind, index, turn) = match NAMED.get(slot) {
            Some((kind, index)) => (*kind, *index, slot),
            None if table[start] == NIC.id => (&NIC, table[start + 4], 256 + usize::from(table[start + 4])),
            None => (NAMED[2].0, table[start + 4], 512 + usize::from(table[start + 4])),
        };
        list[count] = Pair {
            turn,
            kind,
            index,
            left: start,
            right: 0,
        };
        count += 1;
    }
    let named = list[..count].partition_point(|pair| pair.turn < 256);
    if CONTROL_END < control_end {
        list[named..count].sort_unstable_by_key(|pair| pair.turn);
    }
    count
}

/// The structures of both tables, each once.
fn merged(left: &[u8], right: &[u8], pairs: &mut [Pair; MOST_PAIRS]) -> usize {
    let (mut ours, mut theirs) = ([NO_PAIR; ALL_SLOTS], [NO_PAIR; ALL_SLOTS]);
    let (our_count, their_count) = (structures(left, &mut ours), structures(right, &mut theirs));
    let (mut i, mut j, mut count) = (0, 0, 0);
    while i < our_count || j < their_count {
        let our_turn = if i < our_count { ours[i].turn } else { usize::MAX };
        let their_turn = if j < their_count {
            theirs[j].turn
        } else {
            usize::MAX
        };
        let mut pair = if our_turn <= their_turn {
            ours[i]
        } else {
            theirs[j]
        };
        pair.left = if our_turn <= their_turn { ours[i].left } else { 0 };
        pair.right = if their_turn <= our_turn { theirs[j].left } else { 0 };
        i += usize::from(our_turn <= their_turn);
        j += usize::from(their_turn <= our_turn);
        pairs[count] = pair;
        count += 1;
    }
    count
}

// ---- Differences ----

fn walk(left: &[u8], right: &[u8], show: &mut impl FnMut(&Difference) -> bool) -> Option<()> {
    for (what, start, length) in [(1, 10, 6), (2, 16, 8), (3, 53, 1)] {
        if left[start..start + length] != right[start..start + length] {
            let place = (start, length);
            shown(show, difference(what, None, 0, place, place, (0, 0)))?;
        }
    }
    let mut pairs = [NO_PAIR; MOST_PAIRS];
    let count = merged(left, right, &mut pairs);
    let pairs = &pairs[..count];
    for pair in pairs {
        walk_presence(pair, show)?;
    }
    for pair in pairs.iter().filter(|pair| pair.left != 0 && pair.right != 0) {
        walk_fields(left, right, pair, show)?;
    }
    for pair in pairs.iter().filter(|pair| pair.left != 0 && pair.right != 0) {
        walk_texts(left, right, pair, show)?;
    }
    Some(())
}

fn shown(show: &mut impl FnMut(&Difference) -> bool, difference: Difference) -> Option<()> {
    show(&difference).then_some(())
}

fn difference(
    what: u8,
    pair: Option<&Pair>,
    at: usize,
    left: Stretch,
    right: Stretch,
    shown: Stretch,
) -> Difference {
    let (id, index) = pair.map_or((0, 0), |pair| (pair.kind.id, pair.index));
    Difference {
        what,
        id,
        index,
        at,
        left,
        right,
        shown,
    }
}

fn walk_presence(pair: &Pair, show: &mut impl FnMut(&Difference) -> bool) -> Option<()> {
    let place = |start: usize| match start {
        0 => (0, 0),
        start => (start, pair.kind.length),
    };
    if pair.left == 0 || pair.right == 0 {
        let (left, right) = (place(pair.left), place(pair.right));
        shown(show, difference(4, Some(pair), 0, left, right, (0, 0)))?;
    }
    Some(())
}

fn walk_fields(
    left: &[u8],
    right: &[u8],
    pair: &Pair,
    show: &mut impl FnMut(&Difference) -> bool,
) -> Option<()> {
    let end = pair.kind.texts[0].0;
    if left[pair.left + 5..pair.left + end] == right[pair.right + 5..pair.right + end] {
        return Some(());
    }
    for (at, size) in fields(pair.kind) {
        let (l, r) = (pair.left + at, pair.right + at);
        if left[l..l + size] != right[r..r + size] {
            shown(
                show,
                difference(5, Some(pair), *at, (l, *size), (r, *size), (0, 0)),
            )?;
        }
    }
    Some(())
}

fn walk_texts(
    left: &[u8],
    right: &[u8],
    pair: &Pair,
    show: &mut impl FnMut(&Difference) -> bool,
) -> Option<()> {
    for (at, _) in pair.kind.texts {
        let (l_size, l) = (word(left, pair.left + at), word(left, pair.left + at + 2));
        let (r_size, r) = (word(right, pair.right + at), word(right, pair.right + at + 2));
        let (l_bytes, r_bytes) = (&left[l..l + l_size], &right[r..r + r_size]);
        if (l == 0) == (r == 0) && l_bytes == r_bytes {
            continue;
        }
        let equal = l_bytes.iter().zip(r_bytes).take_while(|(a, b)| a == b).count();
        let from = match (l, r) {
            (0, _) => (0, 0),
            (_, 0) => (l, l_size),
            _ => (l + equal, l_size - equal),
        };
        shown(
            show,
            difference(6, Some(pair), *at, (l, l_size), (r, r_size), from),
        )?;
    }
    Some(())
}
