//! RULES.md, Layout and Strings, read a second time: what a table's readings give. Each runs
//! the check, then refuses with 23, then with 22. Of an accepted table, `Accepted`, the check is run once.

use crate::model::check::{check, Refusal};
use crate::model::layout::*;

type Address = [u8; 16];

#[derive(Default)]
pub struct Header {
    pub oem_id: [u8; 6],
    pub oem_table_id: [u8; 8],
    pub control_flags: u64,
}

#[derive(Default)]
pub struct Structure {
    pub id: u64,
    pub index: u64,
    pub start: u64,
    pub flags: u64,
}

/// The two words of a string.
#[derive(Default)]
pub struct EntryWords {
    pub length: u64,
    pub offset: u64,
}

#[derive(Default)]
pub struct Initiator {
    pub flags: u64,
    pub isns_server: Address,
    pub slp_server: Address,
    pub primary_radius_server: Address,
    pub secondary_radius_server: Address,
    pub name: EntryWords,
}

#[derive(Default)]
pub struct Nic {
    pub index: u64,
    pub flags: u64,
    pub address: Address,
    pub prefix: u64,
    pub origin: u64,
    pub gateway: Address,
    pub primary_dns: Address,
    pub secondary_dns: Address,
    pub dhcp: Address,
    pub vlan: u64,
    pub mac: [u8; 6],
    pub pci: u64,
    pub host_name: EntryWords,
}

#[derive(Default)]
pub struct Target {
    pub index: u64,
    pub flags: u64,
    pub address: Address,
    pub socket: u64,
    pub lun: u64,
    pub chap_type: u64,
    pub nic_association: u64,
    pub name: EntryWords,
    pub chap_name: EntryWords,
    pub chap_secret: EntryWords,
    pub reverse_name: EntryWords,
    pub reverse_secret: EntryWords,
}

const MISSING: Refusal = Refusal::new(22, 0);
const NO_SUCH: Refusal = Refusal::new(23, 0);

// ---- Readings ----

/// A table that the check accepts, with its slots and entries by number.
pub struct Accepted<'a> {
    table: &'a [u8],
    pub slots: Vec<Found>,
    pub entries: Vec<Entry>,
}

/// A table as the readings take it: the check comes first.
pub fn accepted(table: &[u8]) -> Result<Accepted<'_>, Refusal> {
    check(table)?;
    let slots = slots(table);
    let entries = entries(&slots);
    Ok(Accepted {
        table,
        slots,
        entries,
    })
}

pub fn header(table: &[u8]) -> Result<Header, Refusal> {
    accepted(table)?.header()
}

pub fn initiator(table: &[u8]) -> Result<Initiator, Refusal> {
    accepted(table)?.initiator()
}

pub fn nic(table: &[u8], n: u64) -> Result<Nic, Refusal> {
    accepted(table)?.nic(n)
}

pub fn target(table: &[u8], n: u64) -> Result<Target, Refusal> {
    accepted(table)?.target(n)
}

pub fn entry(table: &[u8], entry: u64) -> Result<EntryWords, Refusal> {
    accepted(table)?.entry(entry)
}

impl Accepted<'_> {
    pub fn header(&self) -> Result<Header, Refusal> {
        let table = self.table;
        Ok(Header {
            oem_id: bytes(table, OEM_ID.start as u64),
            oem_table_id: bytes(table, OEM_TABLE_ID.start as u64),
            control_flags: byte(table, CONTROL_START + FLAGS_AT),
        })
    }

    /// The start of the structure in a slot, with the slot.
    fn slot(&self, slot: u64) -> Result<(u64, &Found), Refusal> {
        if slot >= SLOT_NUMBERS {
            return Err(NO_SUCH);
        }
        present(self.slots.get(slot as usize))
    }

    pub fn structure(&self, slot: u64) -> Result<Structure, Refusal> {
        let (start, found) = self.slot(slot)?;
        Ok(Structure {
            id: byte(self.table, start),
            index: found.index,
            start,
            flags: byte(self.table, start + FLAGS_AT),
        })
    }

    /// Where a present entry stands. Length 0 with offset 0 is missing; length 0 with another offset is
    /// present and empty.
    pub fn entry(&self, entry: u64) -> Result<EntryWords, Refusal> {
        if entry >= ENTRY_NUMBERS {
            return Err(NO_SUCH);
        }
        let entry = self.entries.get(entry as usize).ok_or(MISSING)?;
        let (start, _) = self.slot(entry.slot as u64)?;
        let words = entry_words(self.table, start + entry.at);
        if words.length == 0 && words.offset == 0 {
            return Err(MISSING);
        }
        Ok(words)
    }

    /// The n-th structure of a kind by Index. The two named ones come first, present or not.
    fn of_kind(&self, kind: &Kind, n: u64) -> Result<(u64, &Found), Refusal> {
        if n >= NUMBERS_OF_A_KIND {
            return Err(NO_SUCH);
        }
        let mut all = self.slots.iter().filter(|found| found.kind == *kind);
        present(all.nth(n as usize))
    }

    pub fn initiator(&self) -> Result<Initiator, Refusal> {
        let table = self.table;
        let (start, _) = self.slot(0)?;
        Ok(Initiator {
            flags: byte(table, start + FLAGS_AT),
            isns_server: bytes(table, start + 6),
            slp_server: bytes(table, start + 22),
            primary_radius_server: bytes(table, start + 38),
            secondary_radius_server: bytes(table, start + 54),
            name: entry_words(table, start + 70),
        })
    }

    pub fn nic(&self, n: u64) -> Result<Nic, Refusal> {
        let table = self.table;
        let (start, found) = self.of_kind(&NIC, n)?;
        Ok(Nic {
            index: found.index,
            flags: byte(table, start + FLAGS_AT),
            address: bytes(table, start + 6),
            prefix: byte(table, start + 22),
            origin: byte(table, start + 23),
            gateway: bytes(table, start + 24),
            primary_dns: bytes(table, start + 40),
            secondary_dns: bytes(table, start + 56),
            dhcp: bytes(table, start + 72),
            vlan: word(table, start + 88),
            mac: bytes(table, start + 90),
            pci: word(table, start + 96),
            host_name: entry_words(table, start + 98),
        })
    }

    pub fn target(&self, n: u64) -> Result<Target, Refusal> {
        let table = self.table;
        let (start, found) = self.of_kind(&TARGET, n)?;
        Ok(Target {
            index: found.index,
            flags: byte(table, start + FLAGS_AT),
            address: bytes(table, start + 6),
            socket: word(table, start + 22),
            lun: number(table, start + 24, 8),
            chap_type: byte(table, start + CHAP_TYPE_AT),
            nic_association: byte(table, start + 33),
            name: entry_words(table, start + 34),
            chap_name: entry_words(table, start + 38),
            chap_secret: entry_words(table, start + 42),
            reverse_name: entry_words(table, start + 46),
            reverse_secret: entry_words(table, start + 50),
        })
    }
}

/// A structure that is there, with its start.
fn present(found: Option<&Found>) -> Result<(u64, &Found), Refusal> {
    let found = found.ok_or(MISSING)?;
    Ok((found.start.ok_or(MISSING)?, found))
}

fn bytes<const N: usize>(table: &[u8], at: u64) -> [u8; N] {
    let at = at as usize;
    table[at..at + N].try_into().unwrap()
}

fn entry_words(table: &[u8], at: u64) -> EntryWords {
    EntryWords {
        length: word(table, at),
        offset: word(table, at + 2),
    }
}

// ---- Addresses and the PCI word ----

#[derive(Clone, Copy, Debug, PartialEq)]
pub enum AddressKind {
    Absent,
    Ipv4Mapped,
    Other,
}

/// All zeros is absent; ten zero bytes, FF FF, then four is IPv4-mapped.
pub fn address_kind(address: &Address) -> AddressKind {
    if address.iter().all(|byte| *byte == 0) {
        AddressKind::Absent
    } else if address[..10].iter().all(|byte| *byte == 0) && address[10..12] == [0xFF, 0xFF] {
        AddressKind::Ipv4Mapped
    } else {
        AddressKind::Other
    }
}

/// The four numbers of an IPv4-mapped address, as they are written.
pub fn dotted(address: &Address) -> Option<String> {
    match address_kind(address) {
        AddressKind::Ipv4Mapped => {
            let [a, b, c, d] = bytes(address, 12);
            Some(format!("{}.{}.{}.{}", a, b, c, d))
        }
        _ => None,
    }
}

/// Bus, device and function of a PCI word: bus x 256 + device x 8 + function.
pub fn pci_parts(word: u64) -> (u64, u64, u64) {
    (word / 256, word / 8 % 32, word % 8)
}
