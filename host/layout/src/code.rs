//! Codes of exceptions.

pub const HARDWARE_INTERRUPT: u64 = 0;
pub const DIV_BY_ZERO: u64 = 1;
pub const INVALID_INSTRUCTION: u64 = 2;
pub const PRIVILEGED_INSTRUCTION: u64 = 3;
pub const TRAP: u64 = 4;
pub const INVALID_MEMORY_ACCESS: u64 = 5;

pub const CODES: u64 = 6;
