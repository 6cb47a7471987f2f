//! Host names, good ones and such with one thing wrong, by shape.

use crate::make::seeded::Seeded;

const MANY: usize = 7_000;

/// Its name, how many inputs, and how number `n` of them is made.
type Shape = (&'static str, usize, fn(usize, &mut Seeded) -> Vec<u8>);

pub const SHAPES: &[Shape] = &[
    ("empty", 1, |_, _| Vec::new()),
    ("one byte, each of 256", 256, |n, _| vec![n as u8]),
    ("each byte inside a label", 256, |n, _| {
        vec![b'a', n as u8, b'b']
    }),
    ("every string over a - . NUL to 7", EVERY_SHORT, every_short),
    ("names", MANY, |_, seeded| good_name(seeded)),
    ("names with a byte changed", MANY, byte_changed),
    ("random bytes", MANY, random_bytes),
    ("labels of 62 to 65", MANY, long_labels),
    ("many dots", MANY, many_dots),
    ("hyphens", MANY, hyphens),
    ("dots at the end", MANY, trailing_dots),
    ("dots in front", MANY, leading_dots),
    ("doubled dots", MANY, doubled_dots),
    ("a zero byte", MANY, zero_byte),
    ("longer than 255", MANY, longer_than_255),
    ("bytes beside letters and digits", MANY, beside_letters),
];

/// A name of any of the shapes.
pub fn any_name(seeded: &mut Seeded) -> Vec<u8> {
    let (_, inputs, make) = SHAPES[seeded.between(0, SHAPES.len() - 1)];
    make(seeded.between(0, inputs - 1), seeded)
}

const LETTERS: &[u8] = b"abcxyzABCXYZ0189";

/// 4^0 + 4^1 + .. + 4^7.
const EVERY_SHORT: usize = 21_845;

/// The strings over four bytes, shortest first, by their number.
fn every_short(number: usize, _: &mut Seeded) -> Vec<u8> {
    let mut left = number;
    let mut text = Vec::new();
    while left > 0 {
        left -= 1;
        text.push(b"a-.\0"[left % 4]);
        left /= 4;
    }
    text
}

/// Letters and digits with hyphens inside.
fn label(seeded: &mut Seeded, size: usize) -> Vec<u8> {
    let mut label: Vec<u8> = (0..size).map(|_| seeded.one_of(LETTERS)).collect();
    for i in 1..size.saturating_sub(1) {
        if seeded.once_in(6) {
            label[i] = b'-';
        }
    }
    label
}

fn name_of(seeded: &mut Seeded, labels: usize, longest: usize) -> Vec<u8> {
    let labels: Vec<Vec<u8>> = (0..labels)
        .map(|_| {
            let size = seeded.between(1, longest);
            label(seeded, size)
        })
        .collect();
    labels.join(&b'.')
}

/// A good name of one to five labels.
pub fn good_name(seeded: &mut Seeded) -> Vec<u8> {
    let labels = seeded.between(1, 5);
    name_of(seeded, labels, 20)
}

fn any_place(seeded: &mut Seeded, text: &[u8]) -> usize {
    seeded.between(0, text.len() - 1)
}

fn byte_changed(_: usize, seeded: &mut Seeded) -> Vec<u8> {
    let mut text = good_name(seeded);
    let at = any_place(seeded, &text);
    text[at] = seeded.byte();
    text
}

fn random_bytes(_: usize, seeded: &mut Seeded) -> Vec<u8> {
    let size = seeded.between(0, 300);
    seeded.bytes(size)
}

/// Labels at the limit, one of them perhaps past it.
fn long_labels(_: usize, seeded: &mut Seeded) -> Vec<u8> {
    let mut labels = Vec::new();
    for _ in 0..seeded.between(1, 4) {
        let size = seeded.one_of(&[1, 62, 63, 63, 63, 64, 65]);
        labels.push(label(seeded, size));
    }
    if seeded.once_in(4) {
        labels.push(Vec::new());
    }
    labels.join(&b'.')
}

/// Short labels, 127 dots and about it: a name of 255 bytes where all labels have one.
fn many_dots(_: usize, seeded: &mut Seeded) -> Vec<u8> {
    let labels = seeded.one_of(&[126, 127, 128, 128, 128, 129, 256]);
    let longest = seeded.one_of(&[1, 1, 2, 3]);
    let mut text = name_of(seeded, labels, longest);
    match seeded.between(0, 3) {
        0 => text.push(b'.'),
        1 => {
            let at = any_place(seeded, &text);
            text[at] = b'.';
        }
        _ => {}
    }
    text
}

fn hyphens(_: usize, seeded: &mut Seeded) -> Vec<u8> {
    let mut text = good_name(seeded);
    for _ in 0..seeded.between(1, 3) {
        let at = any_place(seeded, &text);
        match seeded.between(0, 3) {
            0 => text.insert(0, b'-'),
            1 => text.push(b'-'),
            2 => text.insert(at, b'-'),
            _ => text[at] = b'-',
        }
    }
    text
}

fn trailing_dots(_: usize, seeded: &mut Seeded) -> Vec<u8> {
    let labels = seeded.between(0, 3);
    let mut text = name_of(seeded, labels, 20);
    let dots = seeded.one_of(&[1, 1, 1, 2, 3]);
    text.extend(vec![b'.'; dots]);
    text
}

fn leading_dots(_: usize, seeded: &mut Seeded) -> Vec<u8> {
    let mut text = vec![b'.'; seeded.between(1, 2)];
    text.extend(good_name(seeded));
    text
}

fn doubled_dots(_: usize, seeded: &mut Seeded) -> Vec<u8> {
    let mut text = good_name(seeded);
    let at = any_place(seeded, &text);
    text.splice(at..at, *b"..");
    text
}

fn zero_byte(_: usize, seeded: &mut Seeded) -> Vec<u8> {
    let mut text = good_name(seeded);
    let at = any_place(seeded, &text);
    match seeded.between(0, 2) {
        0 => text.push(0),
        1 => text.insert(at, 0),
        _ => text[at] = 0,
    }
    text
}

/// The rule has no limit of its own on the whole name.
fn longer_than_255(_: usize, seeded: &mut Seeded) -> Vec<u8> {
    let labels = seeded.between(10, 40);
    let mut text = name_of(seeded, labels, 63);
    while text.len() <= 255 {
        text.push(b'.');
        text.extend(good_name(seeded));
    }
    if seeded.once_in(3) {
        let at = any_place(seeded, &text);
        text[at] = seeded.one_of(b".-_\0 a");
    }
    text
}

/// The bytes next to the ranges of letters and digits, and letters with the top bit set.
fn beside_letters(_: usize, seeded: &mut Seeded) -> Vec<u8> {
    let mut text = good_name(seeded);
    let at = any_place(seeded, &text);
    text[at] = seeded.one_of(b"/09:@AZ[`az{,_\x80\xB0\xC1\xE1\xFA\xFF");
    text
}
