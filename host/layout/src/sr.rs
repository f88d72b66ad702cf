//! Bits of sr.

/// Z: the last result was 0, or two words were equal.
pub const ZERO: i64 = 1 << 1;
/// N: the last result was below 0, or an operand below its register.
pub const NEGATIVE: i64 = 1 << 2;
/// V: the last result was wrapped at 64 bits.
pub const OVERFLOW: i64 = 1 << 3;
/// I: interrupts are taken.
pub const INTERRUPT_ENABLE: i64 = 1 << 8;
/// S: supervisor mode.
pub const SUPERVISOR: i64 = 1 << 9;
