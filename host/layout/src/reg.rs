//! Registers.

pub const A: i64 = 0;
pub const B: i64 = 1;
pub const PC: i64 = 2;
pub const SP: i64 = 3;
pub const SR: i64 = 4;

pub const REGISTERS: i64 = 5;
