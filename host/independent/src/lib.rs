//! A validator and reader of mzTab 1.0 files over lent bytes, written from the
//! paper's words alone, rule by rule. Simple before fast.
//!
//! The words in quotation marks in the comments are the paper's.

#![forbid(unsafe_code)]

pub mod cases;
pub mod demands;
pub mod edits;
pub mod fee;
pub mod judging;
pub mod kinds;
pub mod lines;
pub mod mending;
pub mod names;
pub mod printing;
pub mod reading;
pub mod tally;
pub mod weights;

pub use edits::{edited, judge_line};
pub use fee::{add, split};
pub use judging::{judge, Break};
pub use mending::{mend, mended};
pub use reading::{cell, cell_or, read, reading, Reading};
pub use tally::Tally;
pub use weights::{rows, weights};

/// "A file is at most 16,777,216 bytes."
pub const LIMIT: usize = 16_777_216;
