//! The models: the documents read a second time, each part once, by itself and with no thought of speed. They are written
//! from the documents alone and share nothing with the library.

pub mod abft;
pub mod answer;
pub mod build;
pub mod check;
pub mod checksum;
pub mod compare;
pub mod compare_text;
pub mod enter_tell;
pub mod family_text;
pub mod header;
pub mod host_name;
pub mod layout;
pub mod login;
pub mod notation;
pub mod readings;
pub mod rebuild;
pub mod record;
pub mod record_range;
pub mod sbft;
pub mod scan;
pub mod show;
pub mod string_stretches;
pub mod tail;
pub mod text;
