//! The Rust original as judge: its eight files compiled unchanged, behind document 01's numbers.
//! `Judge` is what others use; the rest stands between the original's types and those numbers.

mod ast;
mod console;
mod encoding;
mod machine;
mod places;
mod row;

include!(concat!(env!("OUT_DIR"), "/original.rs"));

pub use encoding::{cost, is_sound, shown, through_the_original};
pub use machine::{Judge, Raised, Ran, Step};
