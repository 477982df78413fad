//! Documents 01 and 02 a second time, in plain Rust and from the documents alone: nothing here is shared with the proved
//! solver, and nothing is made fast where that would hide the sentence it renders. `main.rs` holds every call of the library
//! against it.
//!
//! Where the documents leave a way open, the tests here go three ways that have nothing in common: Section 5's recursion,
//! free fragments, and the matching of Section 7; [`brute`] tries all placings of a tiny sheet.
//!
//! [`term`] builds terms. Whether a term satisfies its sheet is told without it: [`tree`] reads the text, [`assignment`] looks for
//! an assignment, and [`meaning`] tests each literal under it.
pub mod assignment;
pub mod brute;
pub mod cycle;
pub mod drawing;
pub mod fragments;
pub mod graph;
pub mod hypernormal;
pub mod labelled;
pub mod labelling;
pub mod listing;
pub mod matching;
pub mod meaning;
pub mod placing;
pub mod random;
pub mod rule1;
pub mod sheet;
pub mod sheets;
pub mod term;
pub mod tree;

#[cfg(test)]
mod cases;

/// A refusal's number, 1 to 4, 6 or 8 to 16.
pub type Refused = u8;

/// The last number that a reading is asked for by, and the largest exact count.
pub const LAST: u64 = 65_535;

/// The bytes that a drawing is lent.
pub const DRAWING: usize = 1024;

/// The bytes that a term is lent.
pub const TERM: usize = 2048;
