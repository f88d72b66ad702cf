//! Machines compared with the judge after every step: generators, coverage, invariants, and the recorded list.

pub mod coverage;
pub mod directed;
pub mod driver;
pub mod exercise;
pub mod fence;
pub mod harness;
pub mod invariants;
pub mod modes;
pub mod pairs;
pub mod programs;
pub mod record;
pub mod runner;
pub mod single;
pub mod tags;
pub mod taken;
pub mod timer;
pub mod words;

pub use draws::{edges, forms, rng};
