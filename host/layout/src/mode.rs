//! Modes of operands.

pub const NO: i64 = 0;
pub const IMM: i64 = 1;
pub const REG: i64 = 2;
/// This one and those behind it are in memory.
pub const DIR: i64 = 3;
pub const IND: i64 = 4;
pub const IDX: i64 = 5;

pub const MODES: i64 = 6;
