//! The build as one would write it in Rust, for the benchmark: all refusals, then the table. It is
//! called through C's types, as the library is. Tails are compared by `ends_with`, or counted from
//! the back as the library does: two calls that answer the same.

use super::check::{
    has_zero_tail, is_host_name, refused, word, Kind, Refusal, ALL_SLOTS, INITIATOR, NAMED, NIC,
    TARGET,
};
use super::scan::sum;
use std::slice::{from_raw_parts, from_raw_parts_mut};

const RECORD: usize = 419;
const EXTRAS: usize = 421;
const FLAGS: usize = 14;
const SLOT_MARKS: usize = 15;
const ENTRY_MARKS: usize = 20;
const FIRST_IMAGE: usize = 33;
const CONTROL: usize = 48;
const CONTROL_END: usize = 66;
const ALL_ENTRIES: usize = 49;

/// A slot as it is given: where its image stands and the marks of its strings; where its structure is to
/// start, 0 where it is absent.
#[derive(Clone, Copy)]
struct Slot {
    kind: &'static Kind,
    index: u8,
    image: usize,
    marks: usize,
    present: bool,
    start: usize,
}

struct Plan<'a> {
    slots: [Slot; ALL_SLOTS],
    slot_count: usize,
    /// By entry: none where it is missing.
    texts: [Option<&'a [u8]>; ALL_ENTRIES],
    /// The same, and none where it is a secret: what another string may stand in.
    hosts: [Option<&'a [u8]>; ALL_ENTRIES],
    entry_count: usize,
    control_end: usize,
    heap: usize,
    length: usize,
    stored: [bool; ALL_ENTRIES],
    offsets: [usize; ALL_ENTRIES],
}

#[no_mangle]
pub unsafe extern "C" fn rust_build(
    record: *const u8,
    record_size: usize,
    strings: *const u8,
    strings_size: usize,
    room: *mut u8,
    room_size: usize,
) -> u64 {
    let record = from_raw_parts(record, record_size);
    let strings = from_raw_parts(strings, strings_size);
    let room = from_raw_parts_mut(room, room_size);
    answer(build(record, strings, room, |text, tail| {
        text.ends_with(tail)
    }))
}

#[no_mangle]
pub unsafe extern "C" fn rust_build_from_back(
    record: *const u8,
    record_size: usize,
    strings: *const u8,
    strings_size: usize,
    room: *mut u8,
    room_size: usize,
) -> u64 {
    let record = from_raw_parts(record, record_size);
    let strings = from_raw_parts(strings, strings_size);
    let room = from_raw_parts_mut(room, room_size);
    answer(build(record, strings, room, |text, tail| {
        let pairs = text.iter().rev().zip(tail.iter().rev());
        pairs.take_while(|(one, other)| one == other).count() == tail.len()
    }))
}

fn answer(built: Result<usize, Refusal>) -> u64 {
    match built {
        Ok(length) => (length as u64) << 32,
        Err(refusal) => refusal.packed(),
    }
}

fn build(
    record: &[u8],
    strings: &[u8],
    room: &mut [u8],
    ends_with: impl Fn(&[u8], &[u8]) -> bool,
) -> Result<usize, Refusal> {
    let mut plan = check_record(record)?;
    check_texts(record, strings, &mut plan)?;
    plan_structures(&mut plan);
    plan_heap(&mut plan, ends_with);
    let table = match room.get_mut(..plan.length) {
        Some(table) => table,
        None => return refused(21, 0),
    };
    write_table(record, &plan, table);
    Ok(plan.length)
}

/// How many extra NICs and targets are given, once the size is right and the marks are.
fn check_range(record: &[u8]) -> Result<(usize, usize), Refusal> {
    let wrong = refused(25, 0);
    let count = |at: usize| record.get(at).map_or(0, |count| usize::from(*count));
    let (nics, targets) = (count(RECORD), count(RECORD + 1));
    if record.len() != RECORD && record.len() != EXTRAS + 103 * nics + 59 * targets {
        return wrong;
    }
    let is_bad = |mark: &u8| *mark > 1;
    if record[SLOT_MARKS..FIRST_IMAGE].iter().any(is_bad) {
        return wrong;
    }
    let extras = record.get(EXTRAS..).unwrap_or(&[]);
    let (extra_nics, extra_targets) = extras.split_at(103 * nics);
    let has_bad_mark = extra_nics.chunks(103).any(|extra| is_bad(&extra[102]))
        || extra_targets
            .chunks(59)
            .any(|extra| extra[54..].iter().any(is_bad));
    if has_bad_mark {
        return wrong;
    }
    Ok((nics, targets))
}

/// The slots, once their numbers, Index, flags and CHAP types are right.
fn check_record<'a>(record: &[u8]) -> Result<Plan<'a>, Refusal> {
    let (nics, targets) = check_range(record)?;
    if !has_zero_tail(&record[..6]) {
        return refused(8, 10);
    }
    if !has_zero_tail(&record[6..14]) {
        return refused(8, 16);
    }
    let nothing = Slot {
        kind: &INITIATOR,
        index: 0,
        image: 0,
        marks: 0,
        present: false,
        start: 0,
    };
    let mut slots = [nothing; ALL_SLOTS];
    let (mut image, mut marks) = (FIRST_IMAGE, ENTRY_MARKS);
    for (i, (kind, index)) in NAMED.iter().enumerate() {
        slots[i] = Slot {
            kind,
            index: *index,
            image,
            marks,
            present: record[SLOT_MARKS + i] == 1,
            start: 0,
        };
        image += kind.length;
        marks += kind.texts.len();
    }
    let mut slot_count = NAMED.len();
    let mut image = EXTRAS;
    for (kind, count) in [(&NIC, nics), (&TARGET, targets)] {
        let mut least = 2;
        for i in 0..count {
            if i == 6 {
                return refused(34, slot_count);
            }
            let index = record[image + 4];
            if index < 2 {
                return refused(13, slot_count);
            }
            if usize::from(index) < least {
                return refused(33, slot_count);
            }
            least = usize::from(index) + 1;
            slots[slot_count] = Slot {
                kind,
                index,
                image,
                marks: image + kind.length,
                present: true,
                start: 0,
            };
            slot_count += 1;
            image += kind.length + kind.texts.len();
        }
    }
    if record[FLAGS] & !1 != 0 {
        return refused(10, 255);
    }
    for (i, slot) in slots[..slot_count].iter().enumerate() {
        let image = &record[slot.image..slot.image + slot.kind.length];
        if !slot.present {
            continue;
        }
        if image[5] & !slot.kind.named_flags != 0 {
            return refused(10, i);
        }
        if slot.kind.id == 4 && image[32] > 2 {
            return refused(19, i);
        }
    }
    Ok(Plan {
        slots,
        slot_count,
        texts: [None; ALL_ENTRIES],
        hosts: [None; ALL_ENTRIES],
        entry_count: 0,
        control_end: CONTROL_END + 2 * (slot_count - NAMED.len()),
        heap: 0,
        length: 0,
        stored: [false; ALL_ENTRIES],
        offsets: [0; ALL_ENTRIES],
    })
}

fn check_texts<'a>(record: &[u8], strings: &'a [u8], plan: &mut Plan<'a>) -> Result<(), Refusal> {
    let mut n = 0;
    for slot in &plan.slots[..plan.slot_count] {
        for (i, (at, longest)) in slot.kind.texts.iter().enumerate() {
            if slot.present && record[slot.marks + i] == 1 {
                let at = slot.image + at;
                let (size, start) = (word(record, at), word(record, at + 2));
                let text = match strings.get(start..start + size) {
                    Some(text) => text,
                    None => return refused(24, n),
                };
                if size > *longest {
                    return refused(17, n);
                }
                if text.contains(&0) {
                    return refused(20, n);
                }
                if slot.kind.id == 3 && !is_host_name(text) {
                    return refused(18, n);
                }
                plan.texts[n] = Some(text);
                let is_secret = slot.kind.id == 4 && (i == 2 || i == 4);
                plan.hosts[n] = if is_secret { None } else { Some(text) };
            }
            n += 1;
        }
    }
    plan.entry_count = n;
    Ok(())
}

/// The initiator, then the NICs and the targets by Index, which is the order of their slots.
fn plan_structures(plan: &mut Plan) {
    plan.heap = plan.control_end;
    for kind in [&INITIATOR, &NIC, &TARGET] {
        for slot in &mut plan.slots[..plan.slot_count] {
            if slot.present && slot.kind.id == kind.id {
                slot.start = (plan.heap + 7) / 8 * 8;
                plan.heap = slot.start + kind.length;
            }
        }
    }
}

/// Secrets have bytes of their own. The other strings may share theirs with each other.
fn plan_heap(plan: &mut Plan, ends_with: impl Fn(&[u8], &[u8]) -> bool) {
    let texts = &plan.texts[..plan.entry_count];
    let hosts = &plan.hosts[..plan.entry_count];
    plan.length = plan.heap;
    for (i, text) in texts.iter().enumerate() {
        let text = match text {
            Some(text) => text,
            None => continue,
        };
        let stands_for_it = |(j, other): (usize, &Option<&[u8]>)| match other {
            Some(other) if other.len() > text.len() || other.len() == text.len() && j < i => {
                ends_with(other, text)
            }
            _ => false,
        };
        let is_secret = hosts[i].is_none();
        plan.stored[i] = is_secret || !hosts.iter().enumerate().any(stands_for_it);
        if plan.stored[i] {
            plan.offsets[i] = plan.length;
            plan.length += text.len() + 1;
        }
    }
    for (i, text) in texts.iter().enumerate() {
        match text {
            Some(text) if !plan.stored[i] => {
                let stands_for_it = |j: &usize| match hosts[*j] {
                    Some(host) => plan.stored[*j] && ends_with(host, text),
                    None => false,
                };
                let owner = (0..hosts.len()).find(stands_for_it).unwrap();
                plan.offsets[i] = plan.offsets[owner] + texts[owner].unwrap().len() - text.len();
            }
            _ => {}
        }
    }
}

fn write_word(bytes: &mut [u8], at: usize, number: usize) {
    bytes[at..at + 2].copy_from_slice(&(number as u16).to_le_bytes());
}

fn write_table(record: &[u8], plan: &Plan, table: &mut [u8]) {
    table[..plan.heap].fill(0);
    table[..4].copy_from_slice(b"iBFT");
    table[4..8].copy_from_slice(&(plan.length as u32).to_le_bytes());
    table[8] = 1;
    table[10..24].copy_from_slice(&record[..14]);
    let size = (plan.control_end - CONTROL) as u8;
    table[CONTROL..CONTROL + 6].copy_from_slice(&[1, 1, size, 0, 0, record[FLAGS]]);
    let mut n = 0;
    for (i, slot) in plan.slots[..plan.slot_count].iter().enumerate() {
        let (kind, start) = (slot.kind, slot.start);
        write_word(table, CONTROL + 8 + 2 * i, start);
        if slot.present {
            let structure = &mut table[start..start + kind.length];
            structure.copy_from_slice(&record[slot.image..slot.image + kind.length]);
            structure[..5].copy_from_slice(&[kind.id, 1, kind.length as u8, 0, slot.index]);
            for (j, (at, _)) in kind.texts.iter().enumerate() {
                write_text(table, plan, n + j, start + at);
            }
        }
        n += kind.texts.len();
    }
    table[9] = sum(table).wrapping_neg();
}

/// The words of entry n, and its bytes where it is stored.
fn write_text(table: &mut [u8], plan: &Plan, n: usize, at: usize) {
    let (text, offset) = (plan.texts[n].unwrap_or(&[]), plan.offsets[n]);
    write_word(table, at, text.len());
    write_word(table, at + 2, offset);
    if plan.stored[n] {
        table[offset..offset + text.len()].copy_from_slice(text);
        table[offset + text.len()] = 0;
    }
}
