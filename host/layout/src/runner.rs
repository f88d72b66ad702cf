//! The runner's sizes and budget.

pub const CELLS: usize = 2_048;
pub const QUEUE: usize = 256;
pub const OUTPUT: usize = 4_096;
pub const BUDGET: u64 = 100_000;
/// The longest file.
pub const BYTES: usize = 32_768;
