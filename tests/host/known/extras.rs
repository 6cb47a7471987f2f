//! A Control of 24 bytes worked by hand: NIC 5 at 72, Target 9 at 176 and Target 255 at 232, under three
//! extra words in two orders; what is wrong with it then, and what its readings give.

use crate::call::library;
use crate::make::table::Table;
use crate::model::answer::packed_verdict;
use crate::model::check::{check, Refusal, Verdict};
use crate::model::layout::*;
use crate::model::login::{login_order, places};
use crate::model::readings::accepted;
use crate::model::record::record_read;

/// Word, kind, Index, flags and start of each structure.
fn table_of(structures: [(usize, Kind, u8, u8, usize); 3]) -> Table {
    let mut table = Table::with_words(286, 3);
    for (word, kind, index, flags, start) in structures {
        table.put_extra(word, &kind, index, start);
        table.set_flags(word, flags);
    }
    table.mended()
}

fn three() -> Table {
    table_of([
        (5, NIC, 5, 0, 72),
        (6, TARGET, 9, 0, 176),
        (7, TARGET, 255, 1, 232),
    ])
}

/// The same under other words.
fn turned() -> Table {
    table_of([
        (6, NIC, 5, 0, 72),
        (7, TARGET, 9, 0, 176),
        (5, TARGET, 255, 1, 232),
    ])
}

/// The table in both orders, and what it is told as.
pub fn worked_tables() -> [Table; 2] {
    [three(), turned()]
}

pub const WORKED_TEXT: &str = "control multi\n\
    nic5.flags none\n\
    target9.flags none\n\
    target9.port 0\n\
    target255.flags valid\n\
    target255.port 0\n";

/// The table of `three` with bytes changed at a place.
fn changed(at: usize, bytes: &[u8]) -> Table {
    let mut table = three();
    table.write(at, bytes);
    table.mended()
}

/// The same with another structure put under a word.
fn put(word: usize, kind: Kind, index: u8, start: usize) -> Table {
    let mut table = three();
    table.put_extra(word, &kind, index, start);
    table.set_flags(word, 255);
    table.mended()
}

fn refused(number: u64, place: u64) -> Verdict {
    Err(Refusal::new(number, place))
}

fn known() -> Vec<(&'static str, Table, Verdict)> {
    vec![
        ("three extras", three(), Ok(())),
        ("in other words", turned(), Ok(())),
        ("the last word cut off", changed(50, &[22]), Ok(())),
        ("no word", changed(50, &[18]), Ok(())),
        ("an odd Length", changed(50, &[25]), refused(9, 48)),
        ("a Length of 44", changed(50, &[44]), refused(9, 48)),
        ("a Length of 16", changed(50, &[16]), refused(9, 48)),
        // With 42 bytes NIC 5 stands below Control's end.
        ("a Length of 42", changed(50, &[42]), refused(12, 66)),
        // Six bytes inside Length, and then what they say; too few.
        ("a start of 280", changed(66, &[24, 1]), refused(13, 280)),
        ("a start of 288", changed(66, &[32, 1]), refused(12, 66)),
        ("a start of 73", changed(66, &[73, 0]), refused(12, 66)),
        ("an initiator's ID", changed(72, &[2]), refused(13, 72)),
        ("a version of 2", changed(73, &[2]), refused(13, 72)),
        ("a length of 54", changed(74, &[54]), refused(13, 72)),
        ("an Index of 1", changed(76, &[1]), refused(13, 72)),
        ("an Index of 0", changed(76, &[0]), refused(13, 72)),
        ("a NIC past Length", put(5, NIC, 7, 280), refused(12, 66)),
        // An Index twice comes before the flags, and is that of the later word.
        ("an Index twice", put(7, TARGET, 9, 232), refused(33, 70)),
        ("a reserved flag", changed(237, &[255]), refused(10, 237)),
        ("CHAP type 3", changed(208, &[3]), refused(19, 208)),
        ("an unused word", changed(68, &[0, 0]), Ok(())),
    ]
}

fn verdicts_agree() -> bool {
    known().iter().all(|(name, table, verdict)| {
        let by_document = check(table.lent_bytes());
        let by_library = unsafe { library::ibft_check(table.bytes.as_ptr(), table.lent) };
        let agree = by_document == *verdict && by_library == packed_verdict(verdict);
        if !agree {
            println!("check: {}: {:?}", name, verdict);
            println!("  library {:#x}, document {:?}", by_library, by_document);
        }
        agree
    })
}

/// Slots 5 to 7 and none behind; NICs and targets by Index; one valid target, whose Index is 255.
fn readings_agree() -> bool {
    let (three, turned) = (three(), turned());
    let table = accepted(turned.lent_bytes()).ok().unwrap();
    let start = |slot: u64| table.structure(slot).map(|read| (read.start, read.index));
    let missing = |slot: u64| matches!(table.structure(slot), Err(Refusal { number: 22, .. }));
    let order = login_order(three.lent_bytes()).ok().unwrap();
    start(5) == Ok((72, 5))
        && start(6) == Ok((176, 9))
        && start(7) == Ok((232, 255))
        && [0, 1, 2, 3, 4, 8, 16].into_iter().all(missing)
        && matches!(table.structure(17), Err(Refusal { number: 23, .. }))
        && table.nic(2).ok().unwrap().index == 5
        && table.target(3).ok().unwrap().index == 255
        && order == [255]
        && places(&order) == [255; 8]
        && record_read(three.lent_bytes()) == record_read(turned.lent_bytes())
}

pub fn known_extras_agree() -> bool {
    if !readings_agree() {
        println!("readings: the reading of the worked table is another");
        return false;
    }
    verdicts_agree()
}
