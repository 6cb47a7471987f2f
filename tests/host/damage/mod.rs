//! Faults: each changes one thing of a table, a record or a text that the library or a program looks at.

pub mod family;
pub mod record;
pub mod table;
pub mod text;
