//! Makers of inputs: the seeded generator, and with it tables, records and texts, good ones and any.

pub mod draft_edits;
pub mod drafts;
pub mod family;
pub mod family_texts;
pub mod field;
pub mod good_records;
pub mod good_tables;
pub mod host_names;
pub mod record;
pub mod seeded;
pub mod table;
pub mod text;
