//! docs/RECORD-FORMAT.md, "Values", read a second time: each notation both ways.
//!
//! A value is cut at what separates its parts and these are given to std, whose rules are the
//! document's but for these:
//! - a number of std may have a sign, so the digits are looked at first;
//! - an IPv4 address of std has no leading zeros, so its four numbers are read one by one;
//! - an IPv6 address may end in such an IPv4 address, so that end goes to std as two groups;
//! - std writes `::ffff:192.168.70.50` and, by its version, `::1.2.3.4`, so addresses are written
//!   here;
//! - what std takes for white space is more than the three blanks.

use crate::model::layout::{number, word};
use crate::model::readings::{dotted, pci_parts};
use std::net::{Ipv4Addr, Ipv6Addr};

/// How a value is written.
#[derive(Clone, Copy, Debug, PartialEq)]
pub enum Notation {
    /// Any of the words, the first for bit 0; `none` for no bit.
    Flags(&'static [&'static str]),
    /// One of the words, the first for 0.
    Choice(&'static [&'static str]),
    Address,
    /// A number of so many bytes.
    Number(usize),
    Mac,
    /// So many pairs of hexadecimal digits, with colons between.
    Pairs(usize),
    Pci,
    Text,
    /// A string of at most so many bytes, kept with zeros behind it.
    Filled(usize),
}

use Notation::*;

pub fn is_blank(byte: u8) -> bool {
    [b' ', b'\t', b'\r'].contains(&byte)
}

impl Notation {
    /// How many bytes the value has in a structure.
    pub fn size(self) -> usize {
        match self {
            Flags(_) | Choice(_) => 1,
            Address => 16,
            Number(width) => width,
            Mac => 6,
            Pairs(count) => count,
            Pci => 2,
            Filled(size) => size,
            Text => panic!("a string has no size of its own"),
        }
    }

    /// The value's bytes as a structure has them.
    pub fn read(self, value: &[u8]) -> Option<Vec<u8>> {
        if let Text | Filled(_) = self {
            return read_string(value);
        }
        let value = std::str::from_utf8(value).ok()?;
        match self {
            Flags(words) => Some(vec![read_flags(value, words)?]),
            Choice(words) => Some(vec![words.iter().position(|word| *word == value)? as u8]),
            Address => Some(read_address(value)?.octets().to_vec()),
            Number(width) => {
                let bytes = read_number(value)?.to_le_bytes();
                let fits = bytes[width..].iter().all(|byte| *byte == 0);
                fits.then(|| bytes[..width].to_vec())
            }
            Mac => read_pairs(value, 6),
            Pairs(count) => read_pairs(value, count),
            _ => Some(read_pci(value)?.to_le_bytes().to_vec()),
        }
    }

    /// What is said of a value that cannot be read.
    pub fn reason(self) -> String {
        let what = match self {
            Flags(words) => format!("made of the words: {}", words.join(" ")),
            Choice(words) => format!("one of: {}", words.join(" ")),
            Address => "an IP address".to_string(),
            Number(width) => format!("a number from 0 to {}", u64::MAX >> (64 - 8 * width)),
            Mac => "a MAC address, as 02:00:5e:10:00:07".to_string(),
            Pairs(count) => format!("{} pairs of hexadecimal digits with colons between", count),
            Pci => "a PCI address, as 00:03.1".to_string(),
            Text | Filled(_) => concat!(
                r"a string: a backslash starts \\ or \xHH, bytes below 0x20 are written \xHH, ",
                r#"an empty string """#
            )
            .to_string(),
        };
        format!("the value is not {}", what)
    }

    /// The text of a value.
    pub fn written(self, value: &[u8]) -> String {
        match self {
            Flags(words) => written_flags(value[0], words),
            Choice(words) => words[usize::from(value[0])].to_string(),
            Address => written_address(value),
            Number(width) => number(value, 0, width as u64).to_string(),
            Mac | Pairs(_) => {
                let pairs: Vec<String> = value.iter().map(|b| format!("{:02x}", b)).collect();
                pairs.join(":")
            }
            Pci => {
                let (bus, device, function) = pci_parts(word(value, 0));
                format!("{:02x}:{:02x}.{}", bus, device, function)
            }
            Text => written_string(value),
            Filled(_) => written_string(value.split(|byte| *byte == 0).next().unwrap()),
        }
    }
}

// ---- Reading ----

fn all_digits(text: &str, base: u32) -> bool {
    !text.is_empty() && text.chars().all(|digit| digit.is_digit(base))
}

fn read_number(value: &str) -> Option<u64> {
    let (digits, base) = match value.strip_prefix("0x") {
        Some(digits) => (digits, 16),
        None => (value, 10),
    };
    let number = u64::from_str_radix(digits, base).ok()?;
    all_digits(digits, base).then_some(number)
}

/// Just so many hexadecimal digits.
fn read_hex(text: &str, count: usize) -> Option<u8> {
    let digits = text.len() == count && all_digits(text, 16);
    digits.then(|| u8::from_str_radix(text, 16).unwrap())
}

fn read_ipv4(value: &str) -> Option<Ipv4Addr> {
    let mut numbers = Vec::new();
    for digits in value.split('.') {
        if digits.len() > 3 || !all_digits(digits, 10) {
            return None;
        }
        numbers.push(digits.parse::<u8>().ok()?);
    }
    let numbers: [u8; 4] = numbers.try_into().ok()?;
    Some(numbers.into())
}

fn read_address(value: &str) -> Option<Ipv6Addr> {
    match value.rsplit_once(':') {
        None => Some(read_ipv4(value)?.to_ipv6_mapped()),
        Some((groups, last)) if last.contains('.') => {
            let [a, b, c, d] = read_ipv4(last)?.octets();
            let last = format!("{:02x}{:02x}:{:02x}{:02x}", a, b, c, d);
            format!("{}:{}", groups, last).parse().ok()
        }
        Some(_) => value.parse().ok(),
    }
}

fn read_pairs(value: &str, count: usize) -> Option<Vec<u8>> {
    let pairs: Option<Vec<u8>> = value.split(':').map(|pair| read_hex(pair, 2)).collect();
    pairs.filter(|bytes| bytes.len() == count)
}

fn read_pci(value: &str) -> Option<u16> {
    let (bus, rest) = value.split_once(':')?;
    let (device, function) = rest.split_once('.')?;
    let (bus, device, function) = (
        read_hex(bus, 2)?,
        read_hex(device, 2)?,
        read_hex(function, 1)?,
    );
    let fits = device <= 0x1F && function <= 7;
    fits.then(|| u16::from(bus) * 256 + u16::from(device) * 8 + u16::from(function))
}

fn read_flags(value: &str, words: &[&str]) -> Option<u8> {
    if value == "none" {
        return Some(0);
    }
    let mut flags = 0;
    let given = value.split(|c: char| c.is_ascii() && is_blank(c as u8));
    for given in given.filter(|given| !given.is_empty()) {
        let bit = 1 << words.iter().position(|word| *word == given)?;
        if flags & bit != 0 {
            return None;
        }
        flags |= bit;
    }
    (flags != 0).then_some(flags)
}

/// The pieces between backslashes: each but the first says what its backslash starts. An empty one
/// means a second backslash, and the piece behind that is plain.
fn read_string(value: &[u8]) -> Option<Vec<u8>> {
    if value == b"\"\"" {
        return Some(Vec::new());
    }
    let is_plain = |byte: &u8| *byte >= 0x20 && *byte != 0x7F;
    if value.is_empty() || !value.iter().all(is_plain) {
        return None;
    }
    let mut pieces = value.split(|byte| *byte == b'\\');
    let mut string = pieces.next()?.to_vec();
    while let Some(piece) = pieces.next() {
        if piece.is_empty() {
            string.push(b'\\');
            string.extend(pieces.next()?);
        } else {
            let digits = piece.strip_prefix(b"x")?.get(..2)?;
            string.push(read_hex(std::str::from_utf8(digits).ok()?, 2)?);
            string.extend(&piece[3..]);
        }
    }
    Some(string)
}

// ---- Writing ----

fn written_flags(flags: u8, words: &[&str]) -> String {
    let is_set = |bit: &usize| flags >> bit & 1 == 1;
    let set: Vec<&str> = (0..words.len())
        .filter(is_set)
        .map(|bit| words[bit])
        .collect();
    match set.len() {
        0 => "none".to_string(),
        _ => set.join(" "),
    }
}

/// The longest run of zero groups is tried first, and of each length the first.
fn written_address(address: &[u8]) -> String {
    let address: [u8; 16] = address.try_into().unwrap();
    if let Some(ipv4) = dotted(&address) {
        return ipv4;
    }
    let groups = Ipv6Addr::from(address).segments();
    let runs = (2..=8)
        .rev()
        .flat_map(|size| (0..=8 - size).map(move |start| start..start + size));
    let mut zeros = runs.filter(|run| groups[run.clone()].iter().all(|group| *group == 0));
    let in_hex = |groups: &[u16]| {
        let groups: Vec<String> = groups.iter().map(|group| format!("{:x}", group)).collect();
        groups.join(":")
    };
    match zeros.next() {
        None => in_hex(&groups),
        Some(run) => format!(
            "{}::{}",
            in_hex(&groups[..run.start]),
            in_hex(&groups[run.end..])
        ),
    }
}

fn written_string(string: &[u8]) -> String {
    if string.is_empty() {
        return "\"\"".to_string();
    }
    let last = string.len() - 1;
    let written = |(at, byte): (usize, &u8)| match byte {
        b'\\' | b'"' => format!("\\x{:02x}", byte),
        b' ' if at != 0 && at != last => " ".to_string(),
        b if b.is_ascii_graphic() => char::from(*b).to_string(),
        _ => format!("\\x{:02x}", byte),
    };
    string.iter().enumerate().map(written).collect()
}
