//! The texts of aBFT and sBFT records, read a second time: docs/RECORD-FORMAT.md has lines and values. And what
//! `enter`, `tell`, `show` and `find` write for tables, texts and dumps of all three families.

use crate::model::abft::{self as abft, Abft};
use crate::model::check::Refusal;
use crate::model::enter_tell::{self as ibft, Entered, INPUT_LIMIT};
use crate::model::header::oem_faults;
use crate::model::layout::length;
use crate::model::notation::Notation::{self, *};
use crate::model::sbft::{self as sbft, Ib, Sbft, PARTS};
use crate::model::scan::{Family, ABFT, IBFT, SBFT};
use crate::model::show;
use crate::model::text::{field_and_value, lines_that_say, LONGEST_TEXT};
use std::collections::BTreeMap;

// ---- Fields ----

/// A field's name and how its value is written.
pub type Row = (&'static str, Notation);

const OEM_ROWS: &[Row] = &[("oem.id", Filled(6)), ("oem.table", Filled(8))];

const ABFT_ROWS: &[Row] = &[
    ("abft.shelf", Number(2)),
    ("abft.slot", Number(1)),
    ("abft.mac", Mac),
];

const SBFT_ROWS: &[Row] = &[
    ("sbft.lun", Pairs(8)),
    ("sbft.initiator-port", Pairs(16)),
    ("sbft.target-port", Pairs(16)),
];

pub const IB_ROWS: &[Row] = &[
    ("sbft.source-gid", Address),
    ("sbft.destination-gid", Address),
    ("sbft.service", Pairs(8)),
    ("sbft.partition-key", Number(2)),
];

/// The fields that a text of the family may give, in the order in which they are told.
pub fn rows(family: &Family) -> Vec<Row> {
    let own: &[&[Row]] = match *family {
        ABFT => &[ABFT_ROWS],
        SBFT => &[SBFT_ROWS, IB_ROWS],
        _ => panic!("the iBFT's fields are in model/text.rs"),
    };
    [OEM_ROWS, &own.concat()].concat()
}

/// The family whose field a line seems to name; none of OEM fields and of names that no family has.
fn family_of_name(name: &[u8]) -> Option<Family> {
    let begins: [(&[u8], Family); 6] = [
        (b"abft.", ABFT),
        (b"sbft.", SBFT),
        (b"control", IBFT),
        (b"initiator.", IBFT),
        (b"nic", IBFT),
        (b"target", IBFT),
    ];
    let found = begins.iter().find(|(begin, _)| name.starts_with(begin));
    found.map(|(_, family)| *family)
}

/// The lines that name a field of one family, by number.
fn lines_with_family(text: &[u8]) -> Vec<(usize, Family)> {
    let named = |(number, line)| family_of_name(field_and_value(line).0).map(|family| (number, family));
    lines_that_say(text).filter_map(named).collect()
}

pub fn family_of(text: &[u8]) -> Family {
    lines_with_family(text)
        .first()
        .map_or(IBFT, |(_, family)| *family)
}

// ---- From text to table ----

/// The lines above a line, which is counted from 1.
fn lines_before(text: &[u8], line: usize) -> Vec<u8> {
    let lines: Vec<&[u8]> = text.split(|&byte| byte == b'\n').take(line - 1).collect();
    lines.join(&b'\n')
}

type Values = BTreeMap<&'static str, Vec<u8>>;

/// The first line that cannot be read is answered: one of another family, or one before it.
pub fn enter(text: &[u8]) -> Entered {
    let family = family_of(text);
    let stray = lines_with_family(text)
        .into_iter()
        .find(|(_, other)| *other != family);
    match stray {
        Some((line, other)) if text.len() <= LONGEST_TEXT => match enter(&lines_before(text, line)) {
            Entered::Unread(reason) => Entered::Unread(reason),
            _ => Entered::Unread(format!(
                "enter: line {}: this field is of an {}, and the text of an {}",
                line, other.name, family.name
            )),
        },
        _ if family == IBFT || text.len() > LONGEST_TEXT => ibft::enter(text),
        _ => match values_of(&family, text) {
            Ok(values) => built(&family, &values),
            Err((line, reason)) => Entered::Unread(format!("enter: line {}: {}", line, reason)),
        },
    }
}

/// What the lines give, or the first that cannot be read and why.
fn values_of(family: &Family, text: &[u8]) -> Result<Values, (usize, String)> {
    let mut values = Values::new();
    for (number, line) in lines_that_say(text) {
        let (name, value) = field_and_value(line);
        let row = rows(family).into_iter().find(|row| row.0.as_bytes() == name);
        let (name, value) = read_line(row, value, &values).map_err(|reason| (number, reason))?;
        values.insert(name, value);
    }
    Ok(values)
}

/// What is said of a value that cannot be read. A GID is written as an address and is none of IP.
pub fn reason(notation: Notation) -> String {
    match notation {
        Address => "the value is not an address, as fe80::2:c903:0:1491".to_string(),
        _ => notation.reason(),
    }
}

fn read_line(row: Option<Row>, value: &[u8], before: &Values) -> Result<(&'static str, Vec<u8>), String> {
    let (name, notation) = row.ok_or("there is no such field")?;
    if before.contains_key(name) {
        return Err("this field was given before".to_string());
    }
    let value = notation.read(value).ok_or_else(|| reason(notation))?;
    match notation {
        Filled(most) if value.len() > most => Err(format!("the string has more than {} bytes", most)),
        _ => Ok((name, value)),
    }
}

/// The table, or the refusal of an OEM field.
fn built(family: &Family, values: &Values) -> Entered {
    let table = match *family {
        ABFT => abft_of(values).table(),
        _ => sbft_of(values).table(),
    };
    match oem_faults(&table).first() {
        None => Entered::Table(table),
        Some(refusal) => {
            let name = if refusal.place == 10 {
                "oem.id"
            } else {
                "oem.table"
            };
            Entered::Refused(
                *refusal,
                format!("{}: a zero byte is followed by another byte", name),
            )
        }
    }
}

/// A field's bytes; zeros where it is not given, and behind a string that is short of its field.
fn bytes_of(values: &Values, name: &str, size: usize) -> Vec<u8> {
    let mut bytes = values.get(name).cloned().unwrap_or_default();
    bytes.resize(size, 0);
    bytes
}

fn number_of(values: &Values, name: &str) -> u16 {
    let bytes = bytes_of(values, name, 2);
    u16::from(bytes[0]) + 256 * u16::from(bytes[1])
}

fn abft_of(values: &Values) -> Abft {
    Abft {
        oem_id: bytes_of(values, "oem.id", 6),
        oem_table_id: bytes_of(values, "oem.table", 8),
        shelf: number_of(values, "abft.shelf"),
        slot: number_of(values, "abft.slot") as u8,
        mac: bytes_of(values, "abft.mac", 6),
    }
}

/// The IB part is there where a line names a field of it.
fn sbft_of(values: &Values) -> Sbft {
    let has_ib = IB_ROWS.iter().any(|row| values.contains_key(row.0));
    Sbft {
        oem_id: bytes_of(values, "oem.id", 6),
        oem_table_id: bytes_of(values, "oem.table", 8),
        lun: bytes_of(values, "sbft.lun", 8),
        initiator_port: bytes_of(values, "sbft.initiator-port", 16),
        target_port: bytes_of(values, "sbft.target-port", 16),
        ib: has_ib.then(|| Ib {
            source_gid: bytes_of(values, "sbft.source-gid", 16),
            destination_gid: bytes_of(values, "sbft.destination-gid", 16),
            service: bytes_of(values, "sbft.service", 8),
            partition_key: number_of(values, "sbft.partition-key"),
        }),
    }
}

// ---- From table to text ----

/// The family that a table is told and shown as.
pub fn family_of_table(table: &[u8]) -> Family {
    let own = [ABFT, SBFT]
        .into_iter()
        .find(|family| table.starts_with(&family.signature));
    own.unwrap_or(IBFT)
}

/// Every field of a table that is accepted, with its value.
fn told_values(family: &Family, table: &[u8]) -> Result<Vec<(Row, Vec<u8>)>, Refusal> {
    let values: Vec<Vec<u8>> = match *family {
        ABFT => {
            let read = abft::read(table)?;
            let numbers = [read.shelf.to_le_bytes().to_vec(), vec![read.slot]];
            [
                vec![read.oem_id, read.oem_table_id],
                numbers.to_vec(),
                vec![read.mac],
            ]
            .concat()
        }
        _ => {
            let read = sbft::read(table)?;
            let mut values = vec![
                read.oem_id,
                read.oem_table_id,
                read.lun,
                read.initiator_port,
                read.target_port,
            ];
            if let Some(ib) = read.ib {
                let key = ib.partition_key.to_le_bytes().to_vec();
                values.extend([ib.source_gid, ib.destination_gid, ib.service, key]);
            }
            values
        }
    };
    Ok(rows(family).into_iter().zip(values).collect())
}

pub fn tell(input: &[u8]) -> String {
    let family = family_of_table(input);
    if family == IBFT {
        return ibft::tell(input);
    }
    let values = match told_values(&family, &input[..input.len().min(INPUT_LIMIT)]) {
        Ok(values) => values,
        Err(refusal) => return format!("{}\n", refusal.line()),
    };
    let mut text = String::new();
    for ((name, notation), value) in values {
        let is_zero = value.iter().all(|byte| *byte == 0);
        if !(is_zero && name.starts_with("oem.")) {
            text += &format!("{} {}\n", name, notation.written(&value));
        }
    }
    text
}

/// The same with secrets hidden, which only an iBFT has.
pub fn tell_hidden(input: &[u8]) -> String {
    match family_of_table(input) {
        IBFT => ibft::tell_hidden(input),
        _ => tell(input),
    }
}

pub fn show(input: &[u8]) -> String {
    let table = &input[..input.len().min(INPUT_LIMIT)];
    let shown = match family_of_table(input) {
        ABFT => shown_abft(table),
        SBFT => shown_sbft(table),
        _ => return show::show(input),
    };
    shown.unwrap_or_else(|refusal| format!("{}\n", refusal.line()))
}

fn shown_abft(table: &[u8]) -> Result<String, Refusal> {
    let read = abft::read(table)?;
    let mac = Mac.written(&read.mac);
    let lines = [
        format!("abft {}", length(table)),
        format!("shelf {}", read.shelf),
        format!("slot {}", read.slot),
        format!("mac {}", mac),
    ];
    Ok(lines.join("\n") + "\n")
}

fn shown_sbft(table: &[u8]) -> Result<String, Refusal> {
    sbft::check(table)?;
    let mut text = format!("sbft {}\n", length(table));
    for part in &PARTS {
        text += &match sbft::start(table, part) {
            Some(start) => format!("{} {} {}\n", part.name, start, part.size),
            None => format!("{} none\n", part.name),
        };
    }
    Ok(text)
}

// ---- From memory to table ----

/// The order in which `find` names tables.
pub const FOUND_ORDER: [Family; 3] = [IBFT, ABFT, SBFT];

/// A table of the family in a dump: its address and its bytes. A dump may go past the family's window: what
/// lies there is not looked at.
fn found<'a>(family: &Family, dump: &'a [u8], address: u64) -> Option<(u64, &'a [u8])> {
    let left = family.end().saturating_sub(u128::from(address));
    let memory = &dump[..dump.len().min(left as usize)];
    let answer = family.scan(memory, address);
    if answer % 256 != 0 {
        return None;
    }
    let place = (answer >> 8) % (1 << 24);
    let start = (place - address) as usize;
    Some((place, &dump[start..start + (answer >> 32) as usize]))
}

/// No table is above the iBFT's window.
fn is_past_all(dump: &[u8], address: u64) -> bool {
    u128::from(address) + dump.len() as u128 > IBFT.end()
}

/// What `find` prints.
pub fn find(dump: &[u8], address: u64) -> String {
    if is_past_all(dump, address) {
        return "refused 1 0\n".to_string();
    }
    let line = |family: &Family| {
        let (place, table) = found(family, dump, address)?;
        Some(format!("table {:#x} {} {}\n", place, table.len(), family.name))
    };
    let lines: String = FOUND_ORDER.iter().filter_map(line).collect();
    match lines.is_empty() {
        true => "refused 2 0\n".to_string(),
        false => lines,
    }
}

/// The bytes that `find` writes of a family's table, or its refusal's number.
pub fn find_bytes(family: &Family, dump: &[u8], address: u64) -> Result<Vec<u8>, u64> {
    match found(family, dump, address) {
        _ if is_past_all(dump, address) => Err(1),
        Some((_, table)) => Ok(table.to_vec()),
        None => Err(2),
    }
}
