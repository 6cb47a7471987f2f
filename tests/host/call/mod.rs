//! How the tests call what they test: the static libraries, and the programs.

pub mod library;
pub mod programs;
