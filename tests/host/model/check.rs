//! RULES.md, Refusals 3 to 19, 33 and 34, read a second time: each rule once, in the order of the
//! check. The first that applies is the answer.

use crate::model::checksum::checksum;
use crate::model::host_name::is_host_name;
use crate::model::layout::*;

/// Why a call refuses, and the place; with 6 the checksum byte that would be right, else 0.
#[derive(Clone, Copy, Debug, PartialEq)]
pub struct Refusal {
    pub number: u64,
    pub place: u64,
    pub checksum: u8,
}

impl Refusal {
    /// Any but 6.
    pub const fn new(number: u64, place: u64) -> Refusal {
        assert!(number != 6);
        Refusal {
            number,
            place,
            checksum: 0,
        }
    }

    /// 6, with the byte that would be right.
    pub const fn of_sum(checksum: u8) -> Refusal {
        Refusal {
            number: 6,
            place: CHECKSUM,
            checksum,
        }
    }

    /// The line that programs print: the byte is there with 6 alone, and then also where it is 0.
    pub fn line(&self) -> String {
        match self.number {
            6 => format!("refused 6 {} {}", self.place, self.checksum),
            number => format!("refused {} {}", number, self.place),
        }
    }
}

pub type Verdict = Result<(), Refusal>;

pub fn refuse_if(applies: bool, number: u64, place: u64) -> Verdict {
    if applies {
        Err(Refusal::new(number, place))
    } else {
        Ok(())
    }
}

/// 6, of a table that has all its Length bytes: those alone are summed, whatever is lent behind them.
pub fn check_sum(table: &[u8]) -> Verdict {
    let bytes = &table[..length(table) as usize];
    match sum(bytes) % 256 {
        0 => Ok(()),
        _ => Err(Refusal::of_sum(checksum(bytes, CHECKSUM as usize))),
    }
}

/// The header and Control, each Control word before the next, bytes that structures share, each entry
/// before the next.
pub fn check(table: &[u8]) -> Verdict {
    check_header(table)?;
    check_control(table)?;
    for slot in &SLOTS {
        check_named(table, slot)?;
    }
    for word in extra_words(table) {
        check_extra(table, word)?;
    }
    check_sharing(table)?;
    let (slots, heap) = (slots(table), heap_start(table));
    for entry in entries(&slots) {
        check_entry(table, slots[entry.slot].start, heap, &entry)?;
    }
    Ok(())
}

/// 3 to 8.
fn check_header(table: &[u8]) -> Verdict {
    let lent = table.len() as u64;
    refuse_if(lent < HEADER_LENGTH, 3, 0)?;
    refuse_if(&table[..4] != SIGNATURE, 4, 0)?;
    refuse_if(
        length(table) < CONTROL_END || length(table) > lent,
        5,
        LENGTH,
    )?;
    check_sum(table)?;
    refuse_if(byte(table, REVISION) != 1, 7, REVISION)?;
    for field in [OEM_ID, OEM_TABLE_ID] {
        let place = field.start as u64;
        refuse_if(!is_zero_after_first_zero(&table[field]), 8, place)?;
    }
    Ok(())
}

/// 9, Control's 10, 11.
fn check_control(table: &[u8]) -> Verdict {
    let wrong = byte(table, CONTROL_START) != CONTROL.id
        || byte(table, CONTROL_START + VERSION_AT) != VERSION
        || byte(table, CONTROL_START + INDEX_AT) != 0
        || !is_control_length(control_length(table))
        || control_end(table) > length(table);
    refuse_if(wrong, 9, CONTROL_START)?;
    check_flags(table, CONTROL_START, &CONTROL)?;
    refuse_if(word(table, EXTENSIONS) != 0, 11, EXTENSIONS)
}

/// 12, 13, 10, 19 of a structure with a named word, where it is present.
fn check_named(table: &[u8], slot: &Slot) -> Verdict {
    let start = match start(table, slot.word) {
        Some(start) => start,
        None => return Ok(()),
    };
    let misplaced = is_start_wrong(table, start) || start + slot.kind.length > length(table);
    refuse_if(misplaced, 12, slot.word)?;
    let wrong = !is_like(table, start, &slot.kind) || byte(table, start + INDEX_AT) != slot.index;
    refuse_if(wrong, 13, start)?;
    check_flags_and_chap(table, start, &slot.kind)
}

/// An extra word that is used: 12 for where its first six bytes stand, 13 for what they say, 12 for its
/// end, 33, 34, then 10 and 19.
fn check_extra(table: &[u8], at: u64) -> Verdict {
    let start = match start(table, at) {
        Some(start) => start,
        None => return Ok(()),
    };
    let misplaced = is_start_wrong(table, start) || start + 6 > length(table);
    refuse_if(misplaced, 12, at)?;
    let kind = match extra_kind(byte(table, start)) {
        Some(kind) => kind,
        None => return refuse_if(true, 13, start),
    };
    let index = byte(table, start + INDEX_AT);
    let wrong = !is_like(table, start, &kind) || index < FIRST_EXTRA_INDEX;
    refuse_if(wrong, 13, start)?;
    refuse_if(start + kind.length > length(table), 12, at)?;
    let before = extra_words(table).into_iter().filter(|word| *word < at);
    let earlier: Vec<u64> = before
        .filter_map(|word| extra(table, word))
        .filter(|found| found.kind == kind)
        .map(|found| found.index)
        .collect();
    refuse_if(earlier.contains(&index), 33, at)?;
    refuse_if(earlier.len() >= EXTRAS_OF_A_KIND, 34, at)?;
    check_flags_and_chap(table, start, &kind)
}

/// 10, and of a target 19.
fn check_flags_and_chap(table: &[u8], start: u64, kind: &Kind) -> Verdict {
    check_flags(table, start, kind)?;
    if kind.id == TARGET.id {
        let place = start + CHAP_TYPE_AT;
        refuse_if(byte(table, place) > LAST_CHAP_TYPE, 19, place)?;
    }
    Ok(())
}

/// 10.
fn check_flags(table: &[u8], start: u64, kind: &Kind) -> Verdict {
    let place = start + FLAGS_AT;
    refuse_if(byte(table, place) & !kind.named_flags != 0, 10, place)
}

/// 14, for the earliest Control word whose structure shares a byte with one of an earlier word.
fn check_sharing(table: &[u8]) -> Verdict {
    let found = by_word(table);
    for (i, later) in found.iter().enumerate() {
        let shares = found[..i]
            .iter()
            .any(|earlier| share_a_byte(earlier, later));
        refuse_if(shares, 14, later.word)?;
    }
    Ok(())
}

/// 15 to 18 of an entry that is present.
fn check_entry(table: &[u8], start: Option<u64>, heap: u64, entry: &Entry) -> Verdict {
    let field = match start {
        Some(start) => start + entry.at,
        None => return Ok(()),
    };
    let (size, offset) = (word(table, field), word(table, field + 2));
    if size == 0 && offset == 0 {
        return Ok(());
    }
    let end = offset + size;
    let outside = offset < heap || end > length(table) || offset == 0;
    refuse_if(outside, 15, field)?;
    refuse_if(end >= length(table) || byte(table, end) != 0, 16, field)?;
    refuse_if(size > entry.longest, 17, field)?;
    let bytes = &table[offset as usize..end as usize];
    refuse_if(entry.is_host_name && !is_host_name(bytes), 18, field)
}

fn sum(bytes: &[u8]) -> u64 {
    bytes.iter().map(|byte| u64::from(*byte)).sum()
}

pub fn is_zero_after_first_zero(field: &[u8]) -> bool {
    match field.iter().position(|byte| *byte == 0) {
        Some(first) => field[first..].iter().all(|byte| *byte == 0),
        None => true,
    }
}

/// Is a start no multiple of 8, or below Control's end?
fn is_start_wrong(table: &[u8], start: u64) -> bool {
    start % ALIGNMENT != 0 || start < control_end(table)
}

/// Does a structure of this kind stand there, by its ID, version and length?
fn is_like(table: &[u8], start: u64, kind: &Kind) -> bool {
    byte(table, start) == kind.id
        && byte(table, start + VERSION_AT) == VERSION
        && word(table, start + LENGTH_AT) == kind.length
}

/// Is there a byte that belongs to both structures?
fn share_a_byte(one: &Found, other: &Found) -> bool {
    match (stretch(one), stretch(other)) {
        (Some(one), Some(other)) => one.start.max(other.start) < one.end.min(other.end),
        _ => false,
    }
}

/// The bytes that a structure takes up; none where it is absent.
fn stretch(found: &Found) -> Option<std::ops::Range<u64>> {
    found.start.map(|start| start..start + found.kind.length)
}
