//! The sBFT, read a second time: source document 002 and request 1 of the papers.

use crate::model::check::{Refusal, Verdict};
use crate::model::header::*;
use crate::model::layout::{length, word, OEM_ID, OEM_TABLE_ID};
use crate::model::scan::SBFT;

/// The bytes before all parts.
pub const START: usize = 48;

/// The greatest Length that a write lays, which is the size of an image.
pub const SIZE: usize = 136;

/// A part: its name, where its offset stands, its size, whether it may be absent, and where a write lays it.
#[derive(Clone, Copy, Debug, PartialEq)]
pub struct Part {
    pub name: &'static str,
    pub word: usize,
    pub size: usize,
    pub may_be_absent: bool,
    pub laid_at: usize,
}

pub const SCSI: Part = Part {
    name: "scsi",
    word: 36,
    size: 8,
    may_be_absent: false,
    laid_at: 48,
};
pub const SRP: Part = Part {
    name: "srp",
    word: 38,
    size: 32,
    may_be_absent: false,
    laid_at: 56,
};
pub const IB: Part = Part {
    name: "ib",
    word: 40,
    size: 48,
    may_be_absent: true,
    laid_at: 88,
};
pub const PARTS: [Part; 3] = [SCSI, SRP, IB];

/// The IB part's last bytes are reserved.
pub const IB_RESERVED: std::ops::Range<usize> = 42..48;

/// The part for InfiniBand.
#[derive(Clone, Debug, PartialEq)]
pub struct Ib {
    pub source_gid: Vec<u8>,
    pub destination_gid: Vec<u8>,
    pub service: Vec<u8>,
    pub partition_key: u16,
}

/// What an sBFT says.
#[derive(Clone, Debug, PartialEq)]
pub struct Sbft {
    pub oem_id: Vec<u8>,
    pub oem_table_id: Vec<u8>,
    pub lun: Vec<u8>,
    pub initiator_port: Vec<u8>,
    pub target_port: Vec<u8>,
    pub ib: Option<Ib>,
}

/// The reserved bytes outside the IB part.
pub fn reserved() -> Vec<usize> {
    RESERVED.chain(42..=47).collect()
}

/// Where a part starts; nothing where it is absent.
pub fn start(table: &[u8], part: &Part) -> Option<usize> {
    let offset = word(table, part.word as u64) as usize;
    match offset == 0 && part.may_be_absent {
        true => None,
        false => Some(offset),
    }
}

/// The bytes of a part that is there.
pub fn stretch(table: &[u8], part: &Part) -> Option<std::ops::Range<usize>> {
    start(table, part).map(|start| start..start + part.size)
}

fn is_outside(table: &[u8], part: &Part) -> bool {
    match stretch(table, part) {
        Some(bytes) => bytes.start < START || bytes.end as u64 > length(table),
        None => false,
    }
}

/// Is there a byte that both parts have?
fn share_a_byte(table: &[u8], one: &Part, other: &Part) -> bool {
    match (stretch(table, one), stretch(table, other)) {
        (Some(mut one), Some(other)) => one.any(|byte| other.contains(&byte)),
        _ => false,
    }
}

/// All refusals that apply, in the order of the check.
pub fn faults(table: &[u8]) -> Vec<Refusal> {
    let mut faults = header_faults(&SBFT, table);
    if !is_whole(&SBFT, table) {
        return faults;
    }
    faults.extend(reserved_faults(table, reserved().into_iter()));
    let outside = PARTS.iter().filter(|part| is_outside(table, part));
    faults.extend(outside.map(|part| Refusal::new(31, part.word as u64)));
    for (i, later) in PARTS.iter().enumerate() {
        if PARTS[..i]
            .iter()
            .any(|earlier| share_a_byte(table, earlier, later))
        {
            faults.push(Refusal::new(32, later.word as u64));
        }
    }
    if let Some(bytes) = stretch(table, &IB).filter(|_| !is_outside(table, &IB)) {
        faults.extend(reserved_faults(table, IB_RESERVED.map(|at| bytes.start + at)));
    }
    faults
}

pub fn check(table: &[u8]) -> Verdict {
    faults(table).first().map_or(Ok(()), |first| Err(*first))
}

/// A part's reading: the check, then 22 where it is absent.
pub fn part_verdict(table: &[u8], part: &Part) -> Verdict {
    check(table)?;
    match start(table, part) {
        Some(_) => Ok(()),
        None => Err(Refusal::new(22, 0)),
    }
}

/// What stands in a table whose parts are these bytes.
fn fields(start: &[u8], scsi: &[u8], srp: &[u8], ib: Option<&[u8]>) -> Sbft {
    Sbft {
        oem_id: start[OEM_ID].to_vec(),
        oem_table_id: start[OEM_TABLE_ID].to_vec(),
        lun: scsi[..8].to_vec(),
        initiator_port: srp[..16].to_vec(),
        target_port: srp[16..32].to_vec(),
        ib: ib.map(|ib| Ib {
            source_gid: ib[..16].to_vec(),
            destination_gid: ib[16..32].to_vec(),
            service: ib[32..40].to_vec(),
            partition_key: u16::from(ib[40]) + 256 * u16::from(ib[41]),
        }),
    }
}

pub fn read(table: &[u8]) -> Result<Sbft, Refusal> {
    check(table)?;
    let bytes = |part: &Part| stretch(table, part).map(|bytes| &table[bytes]);
    let (scsi, srp) = (bytes(&SCSI).unwrap(), bytes(&SRP).unwrap());
    Ok(fields(table, scsi, srp, bytes(&IB)))
}

/// What an image gives: each part at the place where a write lays it, the IB part where its word is not 0.
pub fn given(image: &[u8]) -> Sbft {
    let image = filled(image, SIZE);
    let bytes = |part: &Part| &image[part.laid_at..part.laid_at + part.size];
    let ib = start(&image, &IB).map(|_| bytes(&IB));
    fields(&image, bytes(&SCSI), bytes(&SRP), ib)
}

impl Sbft {
    /// The fields' bytes of a part in a row, as the reading's export lays them: 0 for the OEM fields, then
    /// SCSI, SRP and IB.
    pub fn laid(&self, part: usize) -> Vec<u8> {
        match part {
            0 => [&self.oem_id[..], &self.oem_table_id].concat(),
            1 => self.lun.clone(),
            2 => [&self.initiator_port[..], &self.target_port].concat(),
            _ => self.ib.as_ref().map_or(Vec::new(), Ib::laid),
        }
    }

    pub fn table(&self) -> Vec<u8> {
        let (length, ib_at) = match self.ib {
            Some(_) => (SIZE, IB.laid_at),
            None => (IB.laid_at, 0),
        };
        let mut bytes = header(&SBFT, length, &self.oem_id, &self.oem_table_id);
        for offset in [SCSI.laid_at, SRP.laid_at, ib_at] {
            bytes.extend((offset as u16).to_le_bytes());
        }
        bytes.resize(START, 0);
        for part in 1..=3 {
            bytes.extend(self.laid(part));
        }
        bytes.resize(length, 0);
        sealed(bytes)
    }
}

impl Ib {
    fn laid(&self) -> Vec<u8> {
        let mut bytes = [&self.source_gid[..], &self.destination_gid, &self.service].concat();
        bytes.extend(self.partition_key.to_le_bytes());
        bytes
    }
}

/// The table that a write lays, or its refusal.
pub fn write(image: &[u8], room_size: usize) -> Result<Vec<u8>, Refusal> {
    let oem = oem_faults(&filled(image, SIZE));
    written(oem, given(image).table(), room_size)
}
