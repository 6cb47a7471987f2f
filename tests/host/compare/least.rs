//! Looks for a table shorter than the built one, by trying: places of the structures, named ones and
//! extras, under Controls with enough words and too many; places of short strings over two letters, and
//! whole tables with every heap. Each search also has to find the built Length itself, so that one that
//! finds nothing because it looks wrongly is noticed.
//!
//! What counts are tables in which no secret shares a byte, or its zero byte, with another string (RULES.md,
//! Least Length). Without this there are shorter ones: that too is searched for, and has to be found.

use crate::call::library;
use crate::make::good_tables::shuffle;
use crate::make::record::{record_with_extras, Given, SIX};
use crate::make::seeded::Seeded;
use crate::make::table::{Table, FIRST_EXTRA};
use crate::model::build::built_order;
use crate::model::layout::*;
use crate::model::record::{record_given, record_read};
use crate::model::string_stretches::secrets_are_apart;

/// The table that the library builds.
fn built(given: &Given) -> Table {
    let (record, strings) = (&given.record, given.strings());
    let mut room = vec![0; 16_384];
    let answer = unsafe {
        library::ibft_build(
            record.as_ptr(),
            record.len(),
            strings.as_ptr(),
            strings.len(),
            room.as_mut_ptr(),
            room.len(),
        )
    };
    assert_eq!(answer % (1 << 32), 0, "a build was refused");
    room.truncate((answer >> 32) as usize);
    assert!(secrets_are_apart(&room), "a built secret shares bytes");
    Table {
        lent: room.len(),
        bytes: room,
    }
}

fn is_accepted(table: &Table) -> bool {
    unsafe { library::ibft_check(table.bytes.as_ptr(), table.lent) == 0 }
}

// ---- Places of structures ----

/// The structures of a record in the built order, each with its Control word, kind and Index, and how many
/// extra words Control has.
struct Laid {
    structures: Vec<(usize, Kind, u8)>,
    extra_words: usize,
}

/// Which of the five, and the Index values of the extra NICs and targets.
struct Choice<'a> {
    named: Vec<usize>,
    nics: &'a [u8],
    targets: &'a [u8],
}

impl Choice<'_> {
    fn extras(&self) -> usize {
        self.nics.len() + self.targets.len()
    }

    fn record(&self) -> Given {
        record_with_extras(&self.named, self.nics, self.targets, &[])
    }

    /// The structures, the words of the extras from the first on or from the last back.
    fn laid(&self, extra_words: usize, turned: bool) -> Laid {
        let mut kinds: Vec<Kind> = SLOTS.iter().map(|slot| slot.kind).collect();
        kinds.extend(vec![NIC; self.nics.len()]);
        kinds.extend(vec![TARGET; self.targets.len()]);
        let extras = [self.nics, self.targets].concat();
        let mut structures = Vec::new();
        for slot in built_order(&kinds) {
            match SLOTS.get(slot) {
                Some(named) if self.named.contains(&slot) => {
                    structures.push((slot, named.kind, named.index as u8));
                }
                Some(_) => {}
                None => {
                    let extra = slot - SLOTS.len();
                    let word = if turned {
                        extra_words - 1 - extra
                    } else {
                        extra
                    };
                    structures.push((FIRST_EXTRA + word, kinds[slot], extras[extra]));
                }
            }
        }
        Laid {
            structures,
            extra_words,
        }
    }
}

/// Which places are tried for a structure: every one behind the start of the one before, those from its
/// last eight bytes on, or those from its end on. The first structure is tried from 72 on, be it below
/// Control's end or not.
#[derive(Clone, Copy)]
enum Tried {
    Every,
    NearlyApart,
    Apart,
}

impl Tried {
    /// How far behind the start of a structure of `length` bytes the next is tried first.
    fn step(self, length: usize) -> usize {
        let alignment = ALIGNMENT as usize;
        match self {
            Tried::Every => alignment,
            Tried::NearlyApart => length / alignment * alignment,
            Tried::Apart => (length + alignment - 1) / alignment * alignment,
        }
    }

    /// How many bytes structures take at least that are tried so, the last as a whole.
    fn least_size(self, structures: &[(usize, Kind, u8)]) -> usize {
        let length = |structure: &(usize, Kind, u8)| structure.1.length as usize;
        match structures.split_last() {
            Some((last, others)) => {
                let before: usize = others.iter().map(|other| self.step(length(other))).sum();
                before + length(last)
            }
            None => 0,
        }
    }
}

/// Tries places of the structures that keep the built order and end by `end`, in tables that hold nothing
/// else. Counts the tables, and answers the least Length that is accepted.
fn least_end(
    laid: &Laid,
    tried: Tried,
    end: usize,
    starts: &mut Vec<usize>,
    tables: &mut usize,
) -> usize {
    let mut least = usize::MAX;
    if starts.len() == laid.structures.len() {
        *tables += 1;
        let table = placed(laid, starts).mended();
        return if is_accepted(&table) {
            table.length()
        } else {
            least
        };
    }
    let mut start = FIRST_START as usize;
    if let Some(last) = starts.last() {
        start = last + tried.step(laid.structures[starts.len() - 1].1.length as usize);
    }
    let size = tried.least_size(&laid.structures[starts.len()..]);
    while start + size <= end {
        starts.push(start);
        least = least.min(least_end(laid, tried, end, starts, tables));
        starts.pop();
        start += ALIGNMENT as usize;
    }
    least
}

/// A table that ends with the last of the structures, or with Control.
fn placed(laid: &Laid, starts: &[usize]) -> Table {
    let places = || laid.structures.iter().zip(starts);
    let ends = places().map(|((_, kind, _), start)| start + kind.length as usize);
    let control_end = CONTROL_END as usize + 2 * laid.extra_words;
    let mut table = Table::with_words(ends.fold(control_end, usize::max), laid.extra_words);
    for ((word, kind, index), start) in places() {
        table.put_extra(*word, kind, *index, *start);
    }
    table
}

/// Every choice of the five with every number of extras: none of them can end earlier, however many words
/// Control has and whatever their order.
fn structures_end_first() -> bool {
    let (mut choices, mut tables) = (0, 0);
    for named in 0..1 << SLOTS.len() {
        for extras in 0..49 {
            let slots = (0..SLOTS.len()).filter(|slot| named >> slot & 1 == 1);
            let choice = Choice {
                named: slots.collect(),
                nics: &SIX[..extras % 7],
                targets: &SIX[..extras / 7],
            };
            choices += 1;
            if !is_least(&choice, &mut tables) {
                return false;
            }
        }
    }
    println!(
        "  structures: {} choices, {} tables tried, none shorter",
        choices, tables
    );
    true
}

/// Are all tables of a choice at least as long as the built one, and one of them just as long?
fn is_least(choice: &Choice, tables: &mut usize) -> bool {
    let length = built(&choice.record()).length();
    let mut least = usize::MAX;
    for more in [0, 1, 4] {
        let extra_words = choice.extras() + more;
        if extra_words > EXTRA_WORDS as usize {
            continue;
        }
        for turned in [false, true] {
            let laid = choice.laid(extra_words, turned);
            let tried = match laid.structures.len() {
                0..=2 => Tried::Every,
                _ if extra_words == 0 && !turned => Tried::Every,
                3..=7 => Tried::NearlyApart,
                _ => Tried::Apart,
            };
            least = least.min(least_end(&laid, tried, length, &mut Vec::new(), tables));
        }
    }
    if least != length {
        println!(
            "least: structures {:?}, NICs {:?}, targets {:?}: built {}, least {}",
            choice.named, choice.nics, choice.targets, length, least
        );
    }
    least == length
}

// ---- Places of strings ----

/// The strings over two letters of at most three bytes, shortest first.
fn short_texts() -> Vec<Vec<u8>> {
    let mut texts = vec![Vec::new()];
    for size in 1..=3 {
        for bits in 0..1 << size {
            texts.push((0..size).map(|i| b"ab"[bits >> i & 1]).collect());
        }
    }
    texts
}

/// A string that is to be placed.
#[derive(Clone)]
struct Wanted {
    text: Vec<u8>,
    is_secret: bool,
}

/// The strings of a record, by number.
fn wanted_strings(given: &Given) -> Vec<Wanted> {
    let record = record_given(&given.record, given.strings());
    let secrets = record.secrets();
    let all = record.entries.into_iter().zip(secrets);
    all.filter_map(|(text, is_secret)| {
        let text = text?;
        Some(Wanted { text, is_secret })
    })
    .collect()
}

/// A byte of a heap that is being filled.
#[derive(Clone, Copy, PartialEq)]
enum Cell {
    /// Nobody has asked for it yet.
    Free,
    /// It is this byte, for every string that asks for the same.
    Open(u8),
    /// A secret has it.
    Secret,
}

/// Can the strings be placed in `heap`, each with a zero byte behind it? Strings may share bytes where they
/// ask for the same; a secret takes bytes that nobody has asked for, and keeps them.
fn can_place(wanted: &[Wanted], heap: &mut [Cell], tried: &mut usize) -> bool {
    let (first, others) = match wanted.split_first() {
        Some(split) => split,
        None => return true,
    };
    let ask = |byte: &u8| match first.is_secret {
        true => Cell::Secret,
        false => Cell::Open(*byte),
    };
    let closed: Vec<Cell> = first.text.iter().chain(&[0]).map(ask).collect();
    for start in 0..(heap.len() + 1).saturating_sub(closed.len()) {
        *tried += 1;
        let stretch = start..start + closed.len();
        let before = heap[stretch.clone()].to_vec();
        let may_have = |(there, asked): (&Cell, &Cell)| {
            *there == Cell::Free || there == asked && *asked != Cell::Secret
        };
        if before.iter().zip(&closed).all(may_have) {
            heap[stretch.clone()].copy_from_slice(&closed);
            let done = can_place(others, heap, tried);
            heap[stretch].copy_from_slice(&before);
            if done {
                return true;
            }
        }
    }
    false
}

/// The same strings where none of them is a secret.
fn without_secrets(wanted: &[Wanted]) -> Vec<Wanted> {
    let open = |string: &Wanted| Wanted {
        is_secret: false,
        ..string.clone()
    };
    wanted.iter().map(open).collect()
}

/// A record with these strings under any owners, named ones and extras; an empty one is no host name.
fn with_any_owners(seeded: &mut Seeded, texts: &[&Vec<u8>]) -> Given {
    let nics = &SIX[..seeded.one_of(&[0, 0, 1, 2])];
    let targets = &SIX[..seeded.one_of(&[0, 0, 1, 2])];
    let all = record_with_extras(&[], nics, targets, &[]).entries();
    let mut entries: Vec<usize> = (0..all.len()).collect();
    shuffle(seeded, &mut entries);
    let mut given: Vec<(usize, &[u8])> = Vec::new();
    for text in texts {
        let may_own = |entry: &usize| !(text.is_empty() && all[*entry].text.is_host_name);
        let at = entries.iter().position(may_own).unwrap();
        given.push((entries.remove(at), text));
    }
    let owners = given.iter().map(|(entry, _)| all[*entry].slot);
    let slots: Vec<usize> = owners.filter(|slot| *slot < SLOTS.len()).collect();
    record_with_extras(&slots, nics, targets, &given)
}

/// What a search met beside what it looked for: records with a secret, with two or more, and those that
/// would have a shorter table if secrets could share bytes.
#[derive(Default)]
struct Secrets {
    one: usize,
    several: usize,
    dearer: usize,
}

impl Secrets {
    fn count(&mut self, wanted: &[Wanted]) {
        let secrets = wanted.iter().filter(|string| string.is_secret).count();
        self.one += usize::from(secrets > 0);
        self.several += usize::from(secrets > 1);
    }

    /// A search that never met a secret, or none that costs a byte, would say nothing of the rule.
    fn are_enough(&self) -> bool {
        println!(
            "    {} with a secret, {} with several; {} would be shorter if secrets shared bytes",
            self.one, self.several, self.dearer
        );
        assert!(self.one > 0 && self.several > 0, "least: no secret was met");
        assert!(self.dearer > 0, "least: no secret costs a byte");
        true
    }
}

/// Every choice of up to four strings, in every order: no heap is shorter than the built one.
fn strings_take_least() -> bool {
    let all = short_texts();
    let mut seeded = Seeded::new(0x1EA5);
    let (mut records, mut tried) = (0, 0);
    let mut secrets = Secrets::default();
    for count in 1..=4u32 {
        for choice in 0..all.len().pow(count) {
            let number = |i: u32| choice / all.len().pow(i) % all.len();
            let texts: Vec<&Vec<u8>> = (0..count).map(|i| &all[number(i)]).collect();
            let given = with_any_owners(&mut seeded, &texts);
            let wanted = wanted_strings(&given);
            let table = built(&given);
            let size = table.length() - heap_start(&table.bytes) as usize;
            let mut in_heap = |wanted: &[Wanted], size: usize| {
                can_place(wanted, &mut vec![Cell::Free; size], &mut tried)
            };
            let shorter = in_heap(&wanted, size - 1);
            let as_built = in_heap(&wanted, size);
            if shorter || !as_built {
                println!("least: strings {:?}: built heap of {} bytes", texts, size);
                println!("  shorter {}, as long {}", shorter, as_built);
                return false;
            }
            records += 1;
            secrets.count(&wanted);
            let if_shared = in_heap(&without_secrets(&wanted), size - 1);
            secrets.dearer += usize::from(if_shared);
        }
    }
    println!(
        "  strings: {} records, {} places tried, none shorter",
        records, tried
    );
    secrets.are_enough()
}

// ---- Whole tables ----

/// Every table with the built structures and a heap of `size` bytes over the two letters and zero,
/// the entries pointing anywhere into it.
struct EveryHeap<'a> {
    given: &'a Given,
    table: Table,
    heap: usize,
    size: usize,
    tables: usize,
    accepted: usize,
    /// Those that are accepted and read as the record: where secrets share bytes, and where they do not.
    sharing: usize,
    apart: usize,
}

impl EveryHeap<'_> {
    fn try_all(&mut self) {
        let given = self.given.clone();
        for choice in 0..3usize.pow(self.size as u32) {
            let byte = |i: usize| b"\0ab"[choice / 3usize.pow(i as u32) % 3];
            let heap: Vec<u8> = (0..self.size).map(byte).collect();
            self.table.write(self.heap, &heap);
            self.with_every_offset(&given.present_entries());
        }
    }

    fn with_every_offset(&mut self, entries: &[usize]) {
        match entries.split_first() {
            Some((entry, others)) => {
                let (length, _) = self.given.words(*entry);
                for offset in self.heap..self.heap + self.size {
                    self.table.point(*entry, offset, length);
                    self.with_every_offset(others);
                }
            }
            None => self.try_one(),
        }
    }

    fn try_one(&mut self) {
        self.tables += 1;
        self.table.mend();
        if !is_accepted(&self.table) {
            return;
        }
        self.accepted += 1;
        let record = record_given(&self.given.record, self.given.strings());
        if record_read(self.table.lent_bytes()) != Some(record) {
            return;
        }
        match secrets_are_apart(self.table.lent_bytes()) {
            true => self.apart += 1,
            false => self.sharing += 1,
        }
    }
}

/// Tables of the record whose heap has `size` bytes.
fn try_every_heap<'a>(given: &'a Given, built: &Table, size: usize) -> EveryHeap<'a> {
    let heap = heap_start(&built.bytes) as usize;
    let mut table = built.clone();
    table.bytes.resize(heap + size, 0);
    table.lent = heap + size;
    table.set_length((heap + size) as u32);
    let mut every = EveryHeap {
        given,
        table,
        heap,
        size,
        tables: 0,
        accepted: 0,
        sharing: 0,
        apart: 0,
    };
    every.try_all();
    every
}

/// Records of two strings, and of three shorter ones, whose heap has few bytes.
fn few_bytes(seeded: &mut Seeded, count: usize, most: usize) -> (Given, Table) {
    let all = short_texts();
    loop {
        let texts: Vec<&Vec<u8>> = (0..count)
            .map(|_| &all[seeded.between(0, all.len() - 1)])
            .collect();
        let given = with_any_owners(seeded, &texts);
        let table = built(&given);
        let size = table.length() - heap_start(&table.bytes) as usize;
        if (2..=most).contains(&size) {
            return (given, table);
        }
    }
}

/// No table with a shorter heap, its secrets apart, is accepted and reads as the record; some of the built
/// Length are.
fn whole_tables_are_least() -> bool {
    let mut seeded = Seeded::new(0x1EA57);
    let (mut records, mut tables, mut accepted, mut with_extras) = (0, 0, 0, 0);
    let mut secrets = Secrets::default();
    for (count, most, times) in [(1, 4, 6), (2, 6, 24), (2, 7, 6), (3, 5, 16)] {
        for _ in 0..times {
            let (given, table) = few_bytes(&mut seeded, count, most);
            let built_size = table.length() - heap_start(&table.bytes) as usize;
            records += 1;
            with_extras += usize::from(!given.extra_slots().is_empty());
            secrets.count(&wanted_strings(&given));
            let mut is_dearer = false;
            for size in 0..=built_size {
                let every = try_every_heap(&given, &table, size);
                tables += every.tables;
                accepted += every.accepted;
                is_dearer |= every.sharing > 0 && size < built_size;
                if (every.apart > 0) != (size == built_size) {
                    println!(
                        "least: heap of {} bytes, built {}: {} tables",
                        size, built_size, every.apart
                    );
                    return false;
                }
            }
            secrets.dearer += usize::from(is_dearer);
        }
    }
    println!(
        "  whole tables: {} records, {} with extras, {} tables tried, {} accepted, none shorter reads as its record",
        records, with_extras, tables, accepted
    );
    secrets.are_enough() && with_extras > 0
}

pub fn compare() -> bool {
    structures_end_first() && strings_take_least() && whole_tables_are_least()
}
