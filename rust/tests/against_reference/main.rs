//! Pseudo-random requests, valid and broken, against the second reading of document 01 in
//! `reference/`.

#[path = "../common/mod.rs"]
mod common;
mod image;
mod interrupts;
mod listings;
mod memory;
mod met;
mod outcome;
mod registers;
mod translations;

/// Cases of each kind.
const CASES: usize = 100_000;
