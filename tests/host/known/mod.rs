//! Inputs with the answers that they have, worked out by hand or stored in samples/.

pub mod builds;
pub mod differences;
pub mod extras;
pub mod rebuilds;
pub mod samples;
pub mod sums;
pub mod texts;
pub mod values;
