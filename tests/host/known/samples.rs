//! The tables of samples/, and what `show` and `tell` print for each: iBFTs, then those of the other families.

pub struct Sample {
    pub name: &'static str,
    pub table: &'static [u8],
    pub shown: &'static str,
    pub told: &'static str,
}

macro_rules! sample {
    ($name:literal) => {
        sample!($name, ".ibft")
    };
    ($name:literal, $family:literal) => {
        Sample {
            name: $name,
            table: include_bytes!(concat!("../../../samples/", $name, $family)),
            shown: include_str!(concat!("../../../samples/", $name, ".txt")),
            told: include_str!(concat!("../../../samples/", $name, ".record")),
        }
    };
}

pub const SAMPLES: [Sample; 6] = [
    sample!("case-5"),
    sample!("ipxe-one-target"),
    sample!("ipxe-mutual-chap"),
    sample!("ipxe-two-targets"),
    sample!("ovmf-one-target"),
    sample!("depot-controller"),
];

pub const ABFT_SAMPLE: Sample = sample!("ipxe-aoe", ".abft");
pub const SBFT_SAMPLE: Sample = sample!("srp-one-target", ".sbft");
