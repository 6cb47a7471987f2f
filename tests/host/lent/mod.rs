//! Memory as it is lent to a call, at any alignment, with bytes on both sides that are not lent.

pub mod build;
pub mod memory;
pub mod room;
pub mod table;
