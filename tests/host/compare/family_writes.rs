//! `abft_write` and `sbft_write` held to the readings of the papers in model/abft.rs and model/sbft.rs: the answer,
//! every byte of the room and beside it; and what is written is checked and read back as what was given, also
//! with more of the room lent.

use crate::call::library::{self, Check, Write};
use crate::damage::table::oem_tail;
use crate::lent::room::LentRoom;
use crate::lent::table::LentTable;
use crate::make::good_tables::{any_bytes, oem_text};
use crate::make::seeded::Seeded;
use crate::make::table::Table;
use crate::model::abft as abft;
use crate::model::answer::{in_words, packed_table};
use crate::model::check::Refusal;
use crate::model::layout::{OEM_ID, OEM_TABLE_ID};
use crate::model::sbft::{self as sbft, IB};
use crate::tally::answers::Tally;

const LEAST_OF_EACH: usize = 25_000;

/// A family's write, its check, and what the documents say of them.
struct Subject {
    name: &'static str,
    write: Write,
    check: Check,
    size: usize,
    /// Room sizes at which something changes.
    rooms: &'static [usize],
    document: fn(&[u8], usize) -> Result<Vec<u8>, Refusal>,
    reads_back: fn(&[u8], &[u8]) -> bool,
}

static SUBJECTS: [Subject; 2] = [
    Subject {
        name: "write of an aBFT",
        write: library::abft_write,
        check: library::abft_check,
        size: abft::SIZE,
        rooms: &[45, 46, 47],
        document: abft::write,
        reads_back: |table, image| abft::read(table) == Ok(abft::given(image)),
    },
    Subject {
        name: "write of an sBFT",
        write: library::sbft_write,
        check: library::sbft_check,
        size: sbft::SIZE,
        rooms: &[87, 88, 89, 135, 136, 137],
        document: sbft::write,
        reads_back: |table, image| sbft::read(table) == Ok(sbft::given(image)),
    },
];

type Shape = (&'static str, usize, fn(usize, &mut Seeded, usize) -> Table);

const SHAPES: &[Shape] = &[
    ("whole images", 8_000, |_, s, size| image(s, size)),
    ("images of each size", 6_000, |n, s, size| {
        cut_image(s, size, n % (size + 4))
    }),
    ("long images", 4_000, long_image),
    ("OEM fields that go on", 5_000, |_, s, size| oem_image(s, size)),
    ("OEM fields and short images", 2_000, short_oem_image),
    ("all zero", 500, |_, _, size| lent(vec![0; size])),
    ("any bytes", 2_000, |_, s, size| lent(s.bytes(size))),
];

fn lent(bytes: Vec<u8>) -> Table {
    let lent = bytes.len();
    Table { bytes, lent }
}

/// Any fields, with anything in the bytes that are not looked at; the IB part given or not, by either byte of
/// its word.
fn image(seeded: &mut Seeded, size: usize) -> Table {
    let mut image = lent(any_bytes(seeded, size));
    let (oem_id, oem_table_id) = (oem_text(seeded, 6), oem_text(seeded, 8));
    image.write(OEM_ID.start, &oem_id);
    image.write(OEM_TABLE_ID.start, &oem_table_id);
    if size == sbft::SIZE {
        let word = seeded.one_of(&[0, 0, 88, 1, 0x100, 0xFFFF]);
        image.write_word(IB.word, word);
    }
    image
}

/// The same of which so many bytes are lent.
fn cut_image(seeded: &mut Seeded, size: usize, lent: usize) -> Table {
    let mut image = image(seeded, size);
    image.bytes.resize(size.max(lent), 0xFF);
    image.lent = lent;
    image
}

fn long_image(_: usize, seeded: &mut Seeded, size: usize) -> Table {
    let mut image = image(seeded, size);
    let more = seeded.one_of(&[1, 2, 8, 200]);
    let bytes = seeded.bytes(more);
    image.lend_more(&bytes);
    image
}

fn oem_image(seeded: &mut Seeded, size: usize) -> Table {
    let mut image = image(seeded, size);
    for _ in 0..seeded.between(1, 2) {
        oem_tail(seeded, &mut image);
    }
    image
}

/// What is not lent of an OEM field is zero, so a field may be right for that.
fn short_oem_image(_: usize, seeded: &mut Seeded, size: usize) -> Table {
    let mut image = oem_image(seeded, size);
    image.lent = seeded.between(0, 26);
    image
}

/// Around each Length that is written, or anything else.
fn any_room(seeded: &mut Seeded, rooms: &[usize]) -> usize {
    let near = seeded.one_of(rooms);
    let any = seeded.between(0, 200);
    seeded.one_of(&[near, near, near, any, 0, 1000])
}

/// What is not as it should be.
type Compared = Result<bool, String>;

/// Whether the write was accepted.
fn compare_one(subject: &Subject, image: &mut LentTable, room: &mut LentRoom) -> Compared {
    let document = (subject.document)(image.bytes(), room.size());
    let expected = packed_table(&document);
    let (first, size) = image.lend();
    let (room_first, room_size) = room.lend();
    let answer = unsafe { (subject.write)(first, size, room_first, room_size) };
    if answer != expected {
        return Err(format!("{}, document {}", in_words(answer), in_words(expected)));
    }
    if !image.is_unchanged() {
        return Err("bytes of the image have changed".to_string());
    }
    if let Some(at) = room.first_wrong_byte(document.as_deref().unwrap_or(&[])) {
        return Err(format!("the room is wrong at byte {}", at));
    }
    match document {
        Ok(table) => reads_back(subject, room, table.len(), image.bytes()),
        Err(_) => Ok(false),
    }
}

/// The first Length bytes of the room, and every longer part of it that is tried, pass the check and read as
/// what was given.
fn reads_back(subject: &Subject, room: &LentRoom, length: usize, image: &[u8]) -> Compared {
    let size = room.size();
    for lent in [length, size.min(length + 1), (length + size) / 2, size] {
        let bytes = &room.bytes()[..lent];
        let answer = unsafe { (subject.check)(bytes.as_ptr(), bytes.len()) };
        if answer != 0 {
            return Err(format!("checked with {} bytes lent: {}", lent, in_words(answer)));
        }
        if !(subject.reads_back)(bytes, image) {
            return Err(format!("reads back as another record with {} bytes lent", lent));
        }
    }
    Ok(true)
}

/// Which of the answers of a tally it is.
const ANSWERS: &[&str] = &["accepted", "refused 8", "refused 21"];

fn answer_of(subject: &Subject, image: &LentTable, room: &LentRoom) -> usize {
    match (subject.document)(image.bytes(), room.size()) {
        Ok(_) => 0,
        Err(Refusal { number: 8, .. }) => 1,
        Err(_) => 2,
    }
}

/// The answers at a room size: accepted, and refused for room.
#[derive(Default)]
struct Rooms(std::collections::BTreeMap<usize, [usize; 3]>);

impl Rooms {
    /// Were tables written into rooms of exactly their Length, and refused in one byte less?
    fn are_met(&self, subject: &Subject) -> bool {
        let met = |size: usize, answer: usize| self.0.get(&size).is_some_and(|times| times[answer] > 0);
        let lengths: &[usize] = if subject.size == abft::SIZE {
            &[46]
        } else {
            &[88, 136]
        };
        let unmet = lengths
            .iter()
            .find(|length| !met(**length, 0) || !met(**length - 1, 2));
        if let Some(length) = unmet {
            println!(
                "{}: rooms of {} bytes and of one byte less are not met",
                subject.name, length
            );
        }
        unmet.is_none()
    }
}

fn compare_subject(number: usize, subject: &Subject) -> bool {
    let mut tally = Tally::new(subject.name, ANSWERS);
    let mut rooms = Rooms::default();
    for (i, (shape, inputs, make)) in SHAPES.iter().enumerate() {
        for n in 0..*inputs {
            let seed = ((number as u64 + 0x10) << 48) + ((i as u64) << 32) + n as u64;
            let mut seeded = Seeded::new(seed);
            let image = make(n, &mut seeded, subject.size);
            let mut image = LentTable::new(&mut seeded, &image);
            let room_size = any_room(&mut seeded, subject.rooms);
            let mut room = LentRoom::new(&mut seeded, room_size);
            let answer = answer_of(subject, &image, &room);
            if let Err(difference) = compare_one(subject, &mut image, &mut room) {
                println!(
                    "{}: DIFFERENCE in shape '{}', seed {:#x}",
                    subject.name, shape, seed
                );
                println!("  image of {} bytes: {}", image.bytes().len(), image.in_hex());
                println!("  room of {} bytes: {}", room.size(), difference);
                return false;
            }
            tally.count(shape, answer);
            rooms.0.entry(room_size).or_default()[answer] += 1;
        }
    }
    tally.print();
    rooms.are_met(subject) && tally.is_enough(LEAST_OF_EACH)
}

pub fn compare() -> bool {
    let mut numbered = SUBJECTS.iter().enumerate();
    numbered.all(|(number, subject)| compare_subject(number, subject))
}
