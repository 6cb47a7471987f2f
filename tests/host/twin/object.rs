//! The Rust twins of build and rebuild as an object of their own, of which the benchmark has copies at several places.
#![allow(dead_code)] // what the check alone uses

mod build;
mod check;
mod rebuild;
mod scan;
