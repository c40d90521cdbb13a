//! What is printed: pages and words, cells made safe to show, the forms of an answer, and the order of many.

pub mod columns;
pub mod in_order;
pub mod names;
pub mod pages;
pub mod show;
pub mod terminal;
pub mod told;
pub mod write;
