//! The inputs on which the calls and programs are compared, by shape, with the number of each. An input is the same on
//! every machine.

pub mod pair;
pub mod rebuild;
pub mod record;
pub mod record_extras;
pub mod table;
pub mod table_extras;
pub mod text;
pub mod text_extras;
