//! The check as one would write it in Rust, for the benchmark. It is called through C's types, as
//! the library is.

use super::scan::sum;

const HEADER: usize = 48;
const CONTROL: usize = 48;
const CONTROL_END: usize = 66;
const WORDS: usize = 56;
pub const ALL_SLOTS: usize = 17;

/// A kind of structure; where it has its strings, and how long each may be.
pub struct Kind {
    pub id: u8,
    pub length: usize,
    pub named_flags: u8,
    pub texts: &'static [(usize, usize)],
}

pub static INITIATOR: Kind = Kind {
    id: 2,
    length: 74,
    named_flags: 0x03,
    texts: &[(70, 223)],
};
pub static NIC: Kind = Kind {
    id: 3,
    length: 102,
    named_flags: 0x07,
    texts: &[(98, 255)],
};
pub static TARGET: Kind = Kind {
    id: 4,
    length: 54,
    named_flags: 0x0F,
    texts: &[(34, 223), (38, 255), (42, 255), (46, 255), (50, 255)],
};

/// Kind and Index of the structures that have a named word.
pub static NAMED: [(&Kind, u8); 5] = [
    (&INITIATOR, 0),
    (&NIC, 0),
    (&TARGET, 0),
    (&NIC, 1),
    (&TARGET, 1),
];

/// A structure that is there, and its Control word.
#[derive(Clone, Copy)]
struct Found {
    kind: &'static Kind,
    index: u8,
    start: usize,
    word: usize,
}

/// Number and place; with 6 the checksum byte that would be right.
pub struct Refusal(u64, usize, u8);

/// Any but 6.
pub fn refused<T>(number: u64, place: usize) -> Result<T, Refusal> {
    Err(Refusal(number, place, 0))
}

impl Refusal {
    pub fn packed(self) -> u64 {
        let Refusal(number, place, checksum) = self;
        number | (place as u64) << 8 | u64::from(checksum) << 32
    }
}

pub unsafe extern "C" fn rust_check(table: *const u8, size: usize) -> u64 {
    match check(std::slice::from_raw_parts(table, size)) {
        Ok(()) => 0,
        Err(refusal) => refusal.packed(),
    }
}

fn check(lent: &[u8]) -> Result<(), Refusal> {
    if lent.len() < HEADER {
        return refused(3, 0);
    }
    if !lent.starts_with(b"iBFT") {
        return refused(4, 0);
    }
    let length = u32::from_le_bytes(lent[4..8].try_into().unwrap()) as usize;
    if length < CONTROL_END || length > lent.len() {
        return refused(5, 4);
    }
    let table = &lent[..length];
    check_header(table)?;
    let control_end = CONTROL + word(table, CONTROL + 2);
    let nothing = Found {
        kind: &INITIATOR,
        index: 0,
        start: 0,
        word: 0,
    };
    let mut all = [nothing; ALL_SLOTS];
    let mut count = 0;
    for at in (WORDS..control_end).step_by(2) {
        let start = word(table, at);
        if start != 0 {
            all[count] = check_structure(table, control_end, &all[..count], start, at)?;
            count += 1;
        }
    }
    let found = &mut all[..count];
    check_sharing(found)?;
    let named = found.partition_point(|found| found.word < CONTROL_END);
    found[named..].sort_unstable_by_key(|found| (found.kind.id, found.index));
    check_entries(table, control_end, found)
}

pub fn word(table: &[u8], at: usize) -> usize {
    usize::from(u16::from_le_bytes([table[at], table[at + 1]]))
}

pub fn has_zero_tail(field: &[u8]) -> bool {
    let mut tail = field.iter().skip_while(|byte| **byte != 0);
    tail.all(|byte| *byte == 0)
}

/// Of a table that is cut to its Length.
pub fn check_sum(table: &[u8]) -> Result<(), Refusal> {
    match sum(table) {
        0 => Ok(()),
        sum => Err(Refusal(6, 9, table[9].wrapping_sub(sum))),
    }
}

fn check_header(table: &[u8]) -> Result<(), Refusal> {
    check_sum(table)?;
    if table[8] != 1 {
        return refused(7, 8);
    }
    if !has_zero_tail(&table[10..16]) {
        return refused(8, 10);
    }
    if !has_zero_tail(&table[16..24]) {
        return refused(8, 16);
    }
    let size = word(table, CONTROL + 2);
    let is_control = table[CONTROL..CONTROL + 2] == [1, 1] && table[CONTROL + 4] == 0;
    if !is_control || !(18..=42).contains(&size) || size % 2 != 0 || CONTROL + size > table.len() {
        return refused(9, CONTROL);
    }
    if table[CONTROL + 5] & !1 != 0 {
        return refused(10, CONTROL + 5);
    }
    if word(table, CONTROL + 6) != 0 {
        return refused(11, CONTROL + 6);
    }
    Ok(())
}

fn check_structure(
    table: &[u8],
    control_end: usize,
    before: &[Found],
    start: usize,
    at: usize,
) -> Result<Found, Refusal> {
    let named = NAMED.get((at - WORDS) / 2);
    let least = named.map_or(6, |(kind, _)| kind.length);
    if start % 8 != 0 || start < control_end || start + least > table.len() {
        return refused(12, at);
    }
    let bytes = &table[start..];
    let (kind, index) = match named {
        Some(named) => *named,
        None if bytes[0] == NIC.id => (&NIC, bytes[4].max(2)),
        None => (&TARGET, bytes[4].max(2)),
    };
    let right =
        bytes[0] == kind.id && bytes[1] == 1 && word(bytes, 2) == kind.length && bytes[4] == index;
    if !right {
        return refused(13, start);
    }
    if named.is_none() {
        check_extra(table, before, kind, index, start, at)?;
    }
    if bytes[5] & !kind.named_flags != 0 {
        return refused(10, start + 5);
    }
    if kind.id == 4 && bytes[32] > 2 {
        return refused(19, start + 32);
    }
    Ok(Found {
        kind,
        index,
        start,
        word: at,
    })
}

fn check_extra(
    table: &[u8],
    before: &[Found],
    kind: &Kind,
    index: u8,
    start: usize,
    at: usize,
) -> Result<(), Refusal> {
    if start + kind.length > table.len() {
        return refused(12, at);
    }
    let alike = before
        .iter()
        .filter(|found| found.word >= CONTROL_END && found.kind.id == kind.id);
    if alike.clone().any(|found| found.index == index) {
        return refused(33, at);
    }
    if alike.count() >= 6 {
        return refused(34, at);
    }
    Ok(())
}

fn check_sharing(found: &[Found]) -> Result<(), Refusal> {
    let overlap = |one: &Found, other: &Found| {
        one.start < other.start + other.kind.length && other.start < one.start + one.kind.length
    };
    for (i, later) in found.iter().enumerate() {
        if found[..i].iter().any(|earlier| overlap(earlier, later)) {
            return refused(14, later.word);
        }
    }
    Ok(())
}

fn check_entries(table: &[u8], control_end: usize, found: &[Found]) -> Result<(), Refusal> {
    let ends = found.iter().map(|found| found.start + found.kind.length);
    let heap = ends.fold(control_end, usize::max);
    for Found { kind, start, .. } in found {
        for (at, longest) in kind.texts {
            check_entry(table, heap, start + at, *longest, kind)?;
        }
    }
    Ok(())
}

fn check_entry(
    table: &[u8],
    heap: usize,
    field: usize,
    longest: usize,
    kind: &Kind,
) -> Result<(), Refusal> {
    let (size, offset) = (word(table, field), word(table, field + 2));
    let end = offset + size;
    if end == 0 {
        return Ok(());
    }
    if offset < heap || end > table.len() {
        return refused(15, field);
    }
    if table.get(end) != Some(&0) {
        return refused(16, field);
    }
    if size > longest {
        return refused(17, field);
    }
    if kind.id == 3 && !is_host_name(&table[offset..end]) {
        return refused(18, field);
    }
    Ok(())
}

fn is_label(label: &[u8]) -> bool {
    (1..=63).contains(&label.len())
        && label[0] != b'-'
        && label[label.len() - 1] != b'-'
        && label
            .iter()
            .all(|byte| byte.is_ascii_alphanumeric() || *byte == b'-')
}

pub fn is_host_name(name: &[u8]) -> bool {
    match name.strip_suffix(b".") {
        Some(label) => is_label(label),
        None => name.split(|byte| *byte == b'.').all(is_label),
    }
}
