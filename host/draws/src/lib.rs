//! Random draws: the generator, numbers at which something changes, the 124 forms, and the exercise load. None of it needs
//! the original.

pub mod edges;
pub mod every;
pub mod exercise;
pub mod forms;
pub mod rng;
