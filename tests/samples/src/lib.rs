//! Files for tests and measurements, the same on every run.

#![forbid(unsafe_code)]

mod draws;
mod exports;
mod hostile;
mod ordinary;

pub use draws::Draws;
pub use exports::{Export, EXPORTS};
pub use hostile::{hostile, long_indices, Hostile};
pub use ordinary::ordinary;
