//! docs/RECORD-FORMAT.md, read a second time: the record that a text gives, or the first line that
//! cannot be read; and the text of a record. The text is cut into lines and these at their blanks;
//! model/notation.rs has the values.

use crate::model::layout::*;
use crate::model::notation::{is_blank, Notation};
use crate::model::record::{fields as bytes_of_fields, Extra, Record};
use Notation::*;

pub const LONGEST_TEXT: usize = 65_536;
pub const ALL_STRINGS: usize = 16_384;

/// The port of a target that is given none.
pub const ISCSI_PORT: u16 = 3260;

/// The flags of a structure that is given none.
pub const USUAL_FLAGS: u8 = (VALID | SELECTED) as u8;

// ---- Groups ----

/// The structure whose fields have a name in common: `initiator`, or a NIC or target by its Index.
#[derive(Clone, Copy, Debug, PartialEq)]
pub struct Group {
    pub kind: Kind,
    pub index: u64,
}

pub const fn nic(index: u64) -> Group {
    Group { kind: NIC, index }
}

pub const fn target(index: u64) -> Group {
    let kind = TARGET;
    Group { kind, index }
}

impl Group {
    pub fn name(&self) -> String {
        match self.kind.id {
            2 => "initiator".to_string(),
            3 => format!("nic{}", self.index),
            _ => format!("target{}", self.index),
        }
    }

    /// The group that a name is of: an Index has the digits that it is told with, and no others.
    pub fn named(name: &str) -> Option<Group> {
        let (kind, digits) = match (name.strip_prefix("nic"), name.strip_prefix("target")) {
            (Some(digits), _) => (NIC, digits),
            (_, Some(digits)) => (TARGET, digits),
            _ => (INITIATOR, "0"),
        };
        let index = u64::from(digits.parse::<u8>().ok()?);
        let group = Group { kind, index };
        (group.name() == name).then_some(group)
    }

    pub fn is_extra(&self) -> bool {
        self.kind != INITIATOR && self.index >= FIRST_EXTRA_INDEX
    }

    /// In the order in which they are told.
    pub fn fields(&self) -> Vec<Field> {
        let rows = match self.kind.id {
            2 => INITIATOR_FIELDS,
            3 => NIC_FIELDS,
            _ => TARGET_FIELDS,
        };
        let group = *self;
        let field = |(last, at, notation): &Row| Field {
            name: format!("{}.{}", group.name(), last),
            place: match group.kind.texts.iter().find(|text| text.at == *at) {
                Some(text) => Place::Entry { group, text: *text },
                None => Place::Byte {
                    group,
                    at: *at as usize - bytes_of_fields(&group.kind).start,
                },
            },
            notation: *notation,
        };
        rows.iter().map(field).collect()
    }
}

// ---- Fields ----

/// Where a record has a field's value: from a byte of a group's structure on, in one of its strings,
/// or in one of the rest.
#[derive(Clone, Copy, Debug, PartialEq)]
pub enum Place {
    OemId,
    OemTableId,
    Control,
    Byte { group: Group, at: usize },
    Entry { group: Group, text: StringField },
}

#[derive(Clone, Debug)]
pub struct Field {
    pub name: String,
    pub place: Place,
    pub notation: Notation,
}

/// A field of a kind of structure: its name, where it stands, how it is written.
type Row = (&'static str, u64, Notation);

const INITIATOR_FIELDS: &[Row] = &[
    ("flags", FLAGS_AT, Flags(&["valid", "selected"])),
    ("isns", 6, Address),
    ("slp", 22, Address),
    ("radius1", 38, Address),
    ("radius2", 54, Address),
    ("name", 70, Text),
];

const NIC_FIELDS: &[Row] = &[
    ("flags", FLAGS_AT, Flags(&["valid", "selected", "global"])),
    ("address", 6, Address),
    ("prefix", 22, Number(1)),
    ("origin", 23, Number(1)),
    ("gateway", 24, Address),
    ("dns1", 40, Address),
    ("dns2", 56, Address),
    ("dhcp", 72, Address),
    ("vlan", 88, Number(2)),
    ("mac", 90, Mac),
    ("pci", 96, Pci),
    ("host", 98, Text),
];

const TARGET_FIELDS: &[Row] = &[
    (
        "flags",
        FLAGS_AT,
        Flags(&["valid", "selected", "radius-chap", "radius-rchap"]),
    ),
    ("address", 6, Address),
    ("port", PORT_AT, Number(2)),
    ("lun", 24, Number(8)),
    ("chap", CHAP_TYPE_AT, Choice(&["none", "one-way", "mutual"])),
    ("nic", 33, Number(1)),
    ("name", 34, Text),
    ("chap-name", 38, Text),
    ("chap-secret", 42, Text),
    ("reverse-name", 46, Text),
    ("reverse-secret", 50, Text),
];

const PORT_AT: u64 = 22;

/// The fields of no group.
fn first_fields() -> Vec<Field> {
    let field = |name: &str, place, notation| Field {
        name: name.to_string(),
        place,
        notation,
    };
    vec![
        field("oem.id", Place::OemId, Filled(6)),
        field("oem.table", Place::OemTableId, Filled(8)),
        field("control", Place::Control, Choice(&["multi", "single"])),
    ]
}

/// All fields but those of extras, in the order in which they are told.
pub fn all_fields() -> Vec<Field> {
    let mut fields = first_fields();
    for Slot { kind, index, .. } in SLOTS {
        fields.extend(Group { kind, index }.fields());
    }
    fields
}

/// The fields that a record may have a value for, in the order in which they are told: behind all
/// others those of its extras, which it has in the order of the slots.
pub fn fields_of(record: &Record) -> Vec<Field> {
    let mut fields = all_fields();
    for Extra { kind, index } in record.extras.iter().copied() {
        fields.extend(Group { kind, index }.fields());
    }
    fields
}

/// The field of that name.
pub fn field_named(name: &str) -> Option<Field> {
    let fields = match name.split_once('.').map(|(group, _)| Group::named(group)) {
        Some(Some(group)) => group.fields(),
        _ => first_fields(),
    };
    fields.into_iter().find(|field| field.name == name)
}

impl Field {
    pub fn group(&self) -> Option<Group> {
        match self.place {
            Place::Byte { group, .. } | Place::Entry { group, .. } => Some(group),
            _ => None,
        }
    }

    pub fn is_secret(&self) -> bool {
        matches!(self.place, Place::Entry { text, .. } if text.is_secret)
    }

    /// What a record holds for the field; none where its structure is absent or its string missing.
    pub fn value(&self, record: &Record) -> Option<Vec<u8>> {
        match self.place {
            Place::OemId => Some(record.oem_id.clone()),
            Place::OemTableId => Some(record.oem_table_id.clone()),
            Place::Control => Some(vec![record.control_flags as u8]),
            Place::Byte { group, at } => {
                let slot = slot_of(record, group)?;
                let structure = record.structures[slot].as_ref()?;
                Some(structure[at..at + self.notation.size()].to_vec())
            }
            Place::Entry { group, text } => {
                let slot = slot_of(record, group)?;
                record.entries[entry_of(record, slot, text)].clone()
            }
        }
    }

    pub fn set(&self, record: &mut Record, mut value: Vec<u8>) {
        if let Filled(size) = self.notation {
            value.resize(size, 0);
        }
        match self.place {
            Place::OemId => record.oem_id = value,
            Place::OemTableId => record.oem_table_id = value,
            Place::Control => record.control_flags = u64::from(value[0]),
            Place::Byte { group, at } => {
                let slot = present_slot(record, group);
                let structure = record.structures[slot].as_mut().unwrap();
                structure[at..at + value.len()].copy_from_slice(&value);
            }
            Place::Entry { group, text } => {
                let slot = present_slot(record, group);
                let entry = entry_of(record, slot, text);
                record.entries[entry] = Some(value);
            }
        }
    }

    /// Is it told though it may be zero? A string is told where it is present.
    fn is_told_always(&self) -> bool {
        let is_port = self.name.ends_with(".port");
        let is_flags = matches!(self.notation, Flags(_));
        is_flags || is_port || self.place == Place::Control || self.notation == Text
    }
}

/// The slot of a group; none of an extra that the record has not.
fn slot_of(record: &Record, group: Group) -> Option<usize> {
    let kinds = record.kinds();
    let is_it = |slot: &usize| kinds[*slot] == group.kind && record.index(*slot) == group.index;
    (0..kinds.len()).find(is_it)
}

/// The number of a slot's string.
fn entry_of(record: &Record, slot: usize, text: StringField) -> usize {
    let is_it = |entry: &Entry| (entry.slot, entry.at) == (slot, text.at);
    entries_of(&record.kinds()).iter().position(is_it).unwrap()
}

/// The name of the field that is the string of this number.
pub fn name_of_string(record: &Record, number: usize) -> String {
    let Entry { slot, at, .. } = entries_of(&record.kinds())[number];
    let (kind, index) = (record.kinds()[slot], record.index(slot));
    let is_it = |field: &Field| matches!(field.place, Place::Entry { text, .. } if text.at == at);
    let mut fields = Group { kind, index }.fields().into_iter();
    fields.find(is_it).unwrap().name
}

/// The slot of a group whose structure is present from now on: valid and selected, a target's port
/// 3260, all else zero.
fn present_slot(record: &mut Record, group: Group) -> usize {
    let slot = slot_of(record, group).unwrap_or_else(|| new_slot(record, group));
    record.structures[slot].get_or_insert_with(|| {
        let range = bytes_of_fields(&group.kind);
        let mut structure = vec![0; range.len()];
        structure[FLAGS_AT as usize - range.start] = USUAL_FLAGS;
        if group.kind == TARGET {
            let port = PORT_AT as usize - range.start;
            structure[port..port + 2].copy_from_slice(&ISCSI_PORT.to_le_bytes());
        }
        structure
    });
    slot
}

/// The slot of one more extra: NICs before targets, each by Index. All behind it have one more.
fn new_slot(record: &mut Record, group: Group) -> usize {
    let Group { kind, index } = group;
    let comes_before = |extra: &&Extra| (extra.kind.id, extra.index) < (kind.id, index);
    let before = record.extras.iter().filter(comes_before).count();
    let slot = SLOTS.len() + before;
    let entry = entries_of(&record.kinds()[..slot]).len();
    let strings = vec![None; kind.texts.len()];
    record.extras.insert(before, Extra { kind, index });
    record.structures.insert(slot, None);
    record.entries.splice(entry..entry, strings);
    slot
}

// ---- From text to record ----

/// Why a text is no record.
#[derive(Debug, PartialEq)]
pub enum Unread {
    TooLong,
    /// The first line that cannot be read, counted from 1.
    Line {
        number: usize,
        reason: String,
    },
}

pub fn record_of(text: &[u8]) -> Result<Record, Unread> {
    if text.len() > LONGEST_TEXT {
        return Err(Unread::TooLong);
    }
    let mut reader = Reader {
        given: Vec::new(),
        extras: Vec::new(),
        record: empty_record(),
    };
    for (number, line) in lines_that_say(text) {
        let unread = |reason| Unread::Line { number, reason };
        reader.read(line).map_err(unread)?;
    }
    Ok(reader.record)
}

/// The lines that say something, without the blanks at their ends, and their numbers from 1 on.
pub fn lines_that_say(text: &[u8]) -> impl Iterator<Item = (usize, &[u8])> {
    let lines = text.split(|byte| *byte == b'\n').map(trimmed);
    let says = |line: &[u8]| !line.is_empty() && line[0] != b'#';
    (1..).zip(lines).filter(move |(_, line)| says(line))
}

/// The field that a line names and what stands behind it.
pub fn field_and_value(line: &[u8]) -> (&[u8], &[u8]) {
    let end = line.iter().position(|byte| is_blank(*byte));
    let (field, rest) = line.split_at(end.unwrap_or(line.len()));
    (field, trimmed(rest))
}

/// Nothing given.
pub fn empty_record() -> Record {
    Record {
        oem_id: vec![0; OEM_ID.len()],
        oem_table_id: vec![0; OEM_TABLE_ID.len()],
        control_flags: 0,
        extras: Vec::new(),
        structures: vec![None; SLOTS.len()],
        entries: vec![None; ENTRIES.len()],
    }
}

fn trimmed(line: &[u8]) -> &[u8] {
    let is_other = |byte: &u8| !is_blank(*byte);
    match (
        line.iter().position(is_other),
        line.iter().rposition(is_other),
    ) {
        (Some(first), Some(last)) => &line[first..=last],
        _ => &[],
    }
}

struct Reader {
    given: Vec<String>,
    /// The extras that lines have named.
    extras: Vec<Group>,
    record: Record,
}

impl Reader {
    /// A line that says something: the field exists, is of no seventh extra, was not given before, its
    /// value can be read, and its string has room.
    fn read(&mut self, line: &[u8]) -> Result<(), String> {
        let (name, value) = field_and_value(line);
        let field = std::str::from_utf8(name).ok().and_then(field_named);
        let field = field.ok_or("there is no such field")?;
        if let Some(group) = field.group().filter(Group::is_extra) {
            self.meet_extra(group)?;
        }
        if self.given.contains(&field.name) {
            return Err("this field was given before".to_string());
        }
        let value = field.notation.read(value);
        let value = value.ok_or_else(|| field.notation.reason())?;
        self.find_room(field.notation, value.len())?;
        field.set(&mut self.record, value);
        self.given.push(field.name);
        Ok(())
    }

    /// Six of a kind are met at most.
    fn meet_extra(&mut self, group: Group) -> Result<(), String> {
        if self.extras.contains(&group) {
            return Ok(());
        }
        let same_kind = self.extras.iter().filter(|met| met.kind == group.kind);
        if same_kind.count() == EXTRAS_OF_A_KIND {
            let beyond = match group.kind == NIC {
                true => "six NICs beyond nic0 and nic1",
                false => "six targets beyond target0 and target1",
            };
            return Err(format!("a record has at most {}", beyond));
        }
        self.extras.push(group);
        Ok(())
    }

    fn find_room(&self, notation: Notation, size: usize) -> Result<(), String> {
        let before: usize = self.record.entries.iter().flatten().map(Vec::len).sum();
        match notation {
            Filled(most) if size > most => Err(format!("the string has more than {} bytes", most)),
            Text if before + size > ALL_STRINGS => Err(format!(
                "the strings together have more than {} bytes",
                ALL_STRINGS
            )),
            _ => Ok(()),
        }
    }
}

// ---- From record to text ----

pub fn text_of(record: &Record) -> String {
    told_lines(record, |field, value| {
        format!("{} {}\n", field.name, field.notation.written(value))
    })
}

/// The same with a comment in place of each secret.
pub fn hidden_text_of(record: &Record) -> String {
    told_lines(record, |field, value| match field.is_secret() {
        true => format!("# {} is hidden\n", field.name),
        false => format!("{} {}\n", field.name, field.notation.written(value)),
    })
}

fn told_lines(record: &Record, line: impl Fn(&Field, &[u8]) -> String) -> String {
    let mut text = String::new();
    for field in fields_of(record) {
        if let Some(value) = field.value(record) {
            let is_zero = value.iter().all(|byte| *byte == 0);
            if !is_zero || field.is_told_always() {
                text += &line(&field, &value);
            }
        }
    }
    text
}
