//! Tables that the check accepts, as various as RULES.md lets them be: structures in any order
//! with gaps between, strings anywhere in the heap, with bytes of their own or shared.

use crate::make::host_names::good_name;
use crate::make::seeded::Seeded;
use crate::make::table::{dots_between, Table, FIRST_EXTRA};
use crate::model::check::check;
use crate::model::layout::*;

/// Where offsets end: a string starts below it, though it may end past it.
const OFFSET_END: usize = 0x10000;

/// The greatest start that a Control word can hold.
const LAST_START: usize = 0xFFF8;

/// A structure to be laid: the number of its Control word, its kind and its Index.
#[derive(Clone, Copy)]
struct Wanted {
    word: usize,
    kind: Kind,
    index: u8,
}

/// A good table whose Control has no extra words.
pub fn good_table(seeded: &mut Seeded) -> Table {
    let wanted = any_named(seeded);
    good_table_of(seeded, wanted, 0)
}

/// A good table whose Control has extra words, used or not, in any order.
pub fn good_table_with_extras(seeded: &mut Seeded) -> Table {
    let mut wanted = any_named(seeded);
    let extra_words = any_extra_words(seeded);
    wanted.extend(any_extras(seeded, extra_words, EXTRAS_OF_A_KIND));
    good_table_of(seeded, wanted, extra_words)
}

/// A table that is good but for a seventh extra of a kind, or one more yet.
pub fn table_with_too_many(seeded: &mut Seeded) -> Table {
    loop {
        let mut wanted = any_named(seeded);
        let extra_words = seeded.between(7, EXTRA_WORDS as usize);
        let extras = any_extras(seeded, extra_words, EXTRA_WORDS as usize);
        let count = |kind| of_kind(&extras, kind).len();
        if count(NIC).max(count(TARGET)) > EXTRAS_OF_A_KIND {
            wanted.extend(extras);
            return good_table_of(seeded, wanted, extra_words);
        }
    }
}

fn good_table_of(seeded: &mut Seeded, mut wanted: Vec<Wanted>, extra_words: usize) -> Table {
    shuffle(seeded, &mut wanted);
    let apart = seeded.one_of(&[0, 0, 1, 2, 10]);
    let starts = spread(seeded, &wanted, extra_words, 0, apart);
    let mut table = table_with(seeded, &wanted, &starts, extra_words, 0);
    add_texts(seeded, &mut table);
    table.mended()
}

/// A good table with nothing to spare: structures stand one behind the other as close as they may, in any
/// order, every extra word is used, and each string stands right behind the one before.
pub fn packed_table(seeded: &mut Seeded) -> Table {
    packed_table_where(seeded, |_| true)
}

/// The same, where only entries that `may_have` says have a string.
pub fn packed_table_where(seeded: &mut Seeded, may_have: fn(&Entry) -> bool) -> Table {
    let mut wanted = any_named(seeded);
    let any = any_extra_words(seeded);
    let extra_words = seeded.one_of(&[0, 0, any]);
    let extras = any_extras(seeded, extra_words, EXTRAS_OF_A_KIND);
    let extra_words = extras.len();
    let renumbered = extras.into_iter().enumerate();
    wanted.extend(renumbered.map(|(i, extra)| Wanted {
        word: FIRST_EXTRA + i,
        ..extra
    }));
    shuffle(seeded, &mut wanted);
    let starts = spread(seeded, &wanted, extra_words, 0, 0);
    let mut table = table_with(seeded, &wanted, &starts, extra_words, 0);
    let entries = table.entries();
    let odds = seeded.one_of(&[1, 2, 8]);
    for number in table.owned_entries() {
        if may_have(&entries[number]) && seeded.once_in(odds) {
            let text = any_text(seeded, &entries[number], 40);
            table.append_text(number, &text);
        }
    }
    table.mended()
}

/// A good table with at least one extra structure, some of them with bytes lent behind Length.
pub fn table_with_extras(seeded: &mut Seeded) -> Table {
    loop {
        let table = lent_with_more(seeded, good_table_with_extras);
        if slots(&table.bytes).len() > SLOTS.len() {
            return table;
        }
    }
}

/// A good table, some of them with bytes lent behind Length.
pub fn lent_table(seeded: &mut Seeded) -> Table {
    lent_with_more(seeded, good_table)
}

fn lent_with_more(seeded: &mut Seeded, make: fn(&mut Seeded) -> Table) -> Table {
    let mut table = make(seeded);
    if seeded.once_in(3) {
        let more = any_bytes(seeded, 80);
        table.lend_more(&more);
    }
    table
}

/// A good table with at least one structure.
pub fn table_with_structures(seeded: &mut Seeded) -> Table {
    loop {
        let table = lent_table(seeded);
        if !table.used_words().is_empty() {
            return table;
        }
    }
}

/// A table of more than 64 KiB without extra words, structures anywhere in it. Strings start below 64 KiB
/// and some end past it.
pub fn large_table(seeded: &mut Seeded) -> Table {
    let wanted = any_named(seeded);
    large_table_of(seeded, wanted, 0)
}

/// The same with extra words.
pub fn large_table_with_extras(seeded: &mut Seeded) -> Table {
    let mut wanted = any_named(seeded);
    let extra_words = any_extra_words(seeded);
    wanted.extend(any_extras(seeded, extra_words, EXTRAS_OF_A_KIND));
    large_table_of(seeded, wanted, extra_words)
}

fn large_table_of(seeded: &mut Seeded, mut wanted: Vec<Wanted>, extra_words: usize) -> Table {
    shuffle(seeded, &mut wanted);
    // So far apart that the last may start just below 64 KiB, and no further.
    let apart = 52_000 / ALIGNMENT as usize / wanted.len().max(5);
    let first = seeded.one_of(&[0, 0, 900]);
    let mut starts = spread(seeded, &wanted, extra_words, first, apart);
    if seeded.once_in(3) {
        if let Some(last) = starts.last_mut() {
            *last = LAST_START - 8 * seeded.one_of(&[0, 0, 1, 6, 7, 13]);
        }
    }
    let length = OFFSET_END + seeded.one_of(&[0, 1, 10, 46, 94, 102, 200, 255, 256, 700, 40_000]);
    let mut table = table_with(seeded, &wanted, &starts, extra_words, length);
    let entries = table.entries();
    for number in table.owned_entries() {
        let entry = &entries[number];
        let text = any_text(seeded, entry, entry.longest as usize);
        let heap = heap_start(&table.bytes) as usize;
        let last = (OFFSET_END - 1).min(table.length() - text.len() - 1);
        if heap <= last && seeded.once_in(2) {
            let low = last - last.saturating_sub(heap).min(300);
            let offset = seeded.between(low, last);
            lay_text(&mut table, number, offset, &text);
        }
    }
    repair_entries(&mut table);
    table.mended()
}

fn lay_text(table: &mut Table, entry: usize, offset: usize, text: &[u8]) {
    table.write(offset, text);
    table.write(offset + text.len(), &[0]);
    table.point(entry, offset, text.len());
}

/// Strings that were laid over each other may have lost their form: those become missing.
fn repair_entries(table: &mut Table) {
    while let Err(refusal) = check(table.clone().mended().lent_bytes()) {
        let broken = table
            .owned_entries()
            .into_iter()
            .find(|e| table.entry_field(*e) == Some(refusal.place as usize));
        match broken {
            Some(entry) => table.point(entry, 0, 0),
            None => return,
        }
    }
}

// ---- Structures ----

fn any_named(seeded: &mut Seeded) -> Vec<Wanted> {
    let odds = seeded.one_of(&[1, 1, 2, 2, 3]);
    let mut wanted = Vec::new();
    for (word, slot) in SLOTS.iter().enumerate() {
        if seeded.once_in(odds) {
            wanted.push(Wanted {
                word,
                kind: slot.kind,
                index: slot.index as u8,
            });
        }
    }
    wanted
}

/// How many extra words Control has: any number up to twelve, often few or all.
fn any_extra_words(seeded: &mut Seeded) -> usize {
    let any = seeded.between(0, EXTRA_WORDS as usize);
    seeded.one_of(&[any, any, any, 1, 2, 3, 12])
}

/// Extras for some of the words, at most `most` of a kind, no Index twice in a kind.
fn any_extras(seeded: &mut Seeded, extra_words: usize, most: usize) -> Vec<Wanted> {
    let odds = seeded.one_of(&[1, 1, 2, 3]);
    let nics_among = seeded.one_of(&[1, 2, 2, 2, 4, 20]);
    let mut wanted: Vec<Wanted> = Vec::new();
    for word in FIRST_EXTRA..FIRST_EXTRA + extra_words {
        if !seeded.once_in(odds) {
            continue;
        }
        let mut kind = if seeded.once_in(nics_among) {
            NIC
        } else {
            TARGET
        };
        if of_kind(&wanted, kind).len() == most {
            kind = if kind == NIC { TARGET } else { NIC };
        }
        let taken = of_kind(&wanted, kind);
        let index = loop {
            let index = any_extra_index(seeded);
            if !taken.contains(&index) {
                break index;
            }
        };
        wanted.push(Wanted { word, kind, index });
    }
    wanted
}

/// The Index values of a kind's extras.
fn of_kind(wanted: &[Wanted], kind: Kind) -> Vec<u8> {
    let same = wanted.iter().filter(|wanted| wanted.kind == kind);
    same.map(|wanted| wanted.index).collect()
}

/// An Index that an extra may have: near the limits, small, or any.
pub fn any_extra_index(seeded: &mut Seeded) -> u8 {
    let small = seeded.between(2, 12) as u8;
    let any = seeded.between(2, 255) as u8;
    seeded.one_of(&[2, 3, 254, 255, small, small, any, any])
}

/// Each structure's start, one behind the other in the order given: `first` steps of eight bytes before
/// the lowest and up to `apart` before each.
fn spread(
    seeded: &mut Seeded,
    wanted: &[Wanted],
    extra_words: usize,
    first: usize,
    apart: usize,
) -> Vec<usize> {
    let mut starts = Vec::new();
    let control_end = CONTROL_END as usize + 2 * extra_words;
    let mut next = (control_end + 7) / 8 * 8 + 8 * first;
    for Wanted { kind, .. } in wanted {
        let start = next + 8 * seeded.between(0, apart);
        let end = start + kind.length as usize;
        starts.push(start);
        next = (end + 7) / 8 * 8;
    }
    starts
}

/// The header, Control and the structures, with any fields; Length is at least `length` and holds
/// the structures. What lies between is anything.
fn table_with(
    seeded: &mut Seeded,
    wanted: &[Wanted],
    starts: &[usize],
    extra_words: usize,
    length: usize,
) -> Table {
    let placed = || wanted.iter().zip(starts);
    let control_end = CONTROL_END as usize + 2 * extra_words;
    let ends = placed().map(|(wanted, start)| start + wanted.kind.length as usize);
    let end = ends.fold(control_end, usize::max).max(length);
    let mut table = Table::with_words(end, extra_words);
    let gaps = any_bytes(seeded, end);
    table.write(control_end, &gaps[..end - control_end]);
    let reserved = any_bytes(seeded, 24);
    table.write(24, &reserved);
    for field in [OEM_ID, OEM_TABLE_ID] {
        let text = oem_text(seeded, field.len());
        table.write(field.start, &text);
    }
    let mode = seeded.between(0, 1) as u8;
    table.set_control_flags(mode);
    for (wanted, start) in placed() {
        put_filled_of(seeded, &mut table, wanted, *start);
    }
    table
}

/// A named structure with any flags and fields that the check lets pass, and no strings.
pub fn put_filled(seeded: &mut Seeded, table: &mut Table, slot: usize, start: usize) {
    let Slot { kind, index, .. } = SLOTS[slot];
    put_filled_as(seeded, table, slot, kind, index as u8, start);
}

/// The same of an extra structure.
pub fn put_filled_as(
    seeded: &mut Seeded,
    table: &mut Table,
    word: usize,
    kind: Kind,
    index: u8,
    start: usize,
) {
    put_filled_of(seeded, table, &Wanted { word, kind, index }, start);
}

fn put_filled_of(seeded: &mut Seeded, table: &mut Table, wanted: &Wanted, start: usize) {
    let Wanted { word, kind, index } = *wanted;
    let mut image = any_bytes(seeded, kind.length as usize);
    image[FLAGS_AT as usize] = seeded.byte() & kind.named_flags as u8;
    if kind == TARGET {
        image[CHAP_TYPE_AT as usize] = seeded.between(0, 2) as u8;
    }
    for text in kind.texts {
        image[text.at as usize..text.at as usize + 4].fill(0);
    }
    table.write(start, &image);
    table.put_extra(word, &kind, index, start);
}

/// Bytes that are not zero, then zeros.
pub fn oem_text(seeded: &mut Seeded, size: usize) -> Vec<u8> {
    let kept = seeded.between(0, size);
    let mut text: Vec<u8> = (0..kept).map(|_| seeded.between(1, 255) as u8).collect();
    text.resize(size, 0);
    text
}

/// All zero, all the same, or random.
pub fn any_bytes(seeded: &mut Seeded, size: usize) -> Vec<u8> {
    match seeded.between(0, 3) {
        0 | 1 => vec![0; size],
        2 => vec![seeded.byte(); size],
        _ => seeded.bytes(size),
    }
}

pub fn shuffle<T>(seeded: &mut Seeded, list: &mut [T]) {
    for i in 1..list.len() {
        let j = seeded.between(0, i);
        list.swap(i, j);
    }
}

// ---- Strings ----

/// Lays strings behind the structures, in any order of the entries.
fn add_texts(seeded: &mut Seeded, table: &mut Table) {
    let heap = table.length();
    let entries = table.entries();
    let mut numbers = table.owned_entries();
    shuffle(seeded, &mut numbers);
    let longest = seeded.one_of(&[6, 12, 40, 255]);
    let mut texts: Vec<Vec<u8>> = Vec::new();
    for number in numbers {
        let entry = &entries[number];
        match seeded.between(0, 7) {
            0 | 1 => {}
            2 | 3 => share(seeded, table, number, entry, heap),
            _ => {
                let text = text_like(seeded, entry, longest, &texts);
                add_text(seeded, table, number, &text, heap);
                texts.push(text);
            }
        }
    }
    if seeded.once_in(4) {
        let more = any_bytes(seeded, 30);
        table.append_bytes(&more);
    }
}

/// Points to the string where it stands in the heap with a zero byte behind, or lays it at the end.
fn add_text(seeded: &mut Seeded, table: &mut Table, entry: usize, text: &[u8], heap: usize) {
    let mut closed = text.to_vec();
    closed.push(0);
    let found = table.bytes[heap..]
        .windows(closed.len())
        .position(|stretch| stretch == closed);
    match found {
        Some(at) if seeded.once_in(2) => table.point(entry, heap + at, text.len()),
        _ => {
            if seeded.once_in(4) {
                let gap = any_bytes(seeded, 9);
                table.append_bytes(&gap);
            }
            table.append_text(entry, text);
        }
    }
}

/// Points an entry that is no host name at bytes that are there, up to any zero byte in the heap.
/// It may hold zero bytes and start or end inside the strings of others.
fn share(seeded: &mut Seeded, table: &mut Table, number: usize, entry: &Entry, heap: usize) {
    let zeros: Vec<usize> = (heap..table.length())
        .filter(|at| table.bytes[*at] == 0)
        .collect();
    if zeros.is_empty() || entry.is_host_name {
        return;
    }
    let zero = seeded.one_of(&zeros);
    let lowest = heap.max(zero.saturating_sub(entry.longest as usize));
    let offset = seeded.between(lowest, zero);
    table.point(number, offset, zero - offset);
}

/// A string for the entry: new, or one that is there already, or the tail of one.
fn text_like(seeded: &mut Seeded, entry: &Entry, longest: usize, texts: &[Vec<u8>]) -> Vec<u8> {
    if !texts.is_empty() && !entry.is_host_name && seeded.once_in(3) {
        let pick = seeded.between(0, texts.len() - 1);
        let from = seeded.between(0, texts[pick].len());
        let tail = &texts[pick][from..];
        if tail.len() <= entry.longest as usize {
            return tail.to_vec();
        }
    }
    any_text(seeded, entry, longest)
}

/// A string of at most `longest` bytes that the entry may have; a host name may be longer.
pub fn any_text(seeded: &mut Seeded, entry: &Entry, longest: usize) -> Vec<u8> {
    if entry.is_host_name {
        return any_host_name(seeded);
    }
    let most = longest.min(entry.longest as usize);
    let size = seeded.between(0, most);
    let size = seeded.one_of(&[0, most, size, size, size, size]);
    match seeded.between(0, 3) {
        0 => seeded.bytes(size),
        1 => vec![b'x'; size],
        _ => (0..size).map(|_| seeded.one_of(b"iqn.-:07")).collect(),
    }
}

pub fn any_host_name(seeded: &mut Seeded) -> Vec<u8> {
    match seeded.between(0, 9) {
        0 => b"a.".to_vec(),
        1 => dots_between(128, b'a'),
        2 => vec![b'z'; 63],
        _ => good_name(seeded),
    }
}
