//! Lengths and numbers that are taken.

pub const CELLS_LEAST: usize = 256;
pub const CELLS_MOST: usize = 10_000;
pub const QUEUE_LEAST: usize = 1;
pub const QUEUE_MOST: usize = 4_096;
pub const OUTPUT_MOST: usize = 65_536;
pub const SEATS_LEAST: u64 = 1;
pub const SEATS_MOST: u64 = 16;
/// The steps of a bench's turn.
pub const TURN_MOST: u64 = 100;
pub const RECORDS_LEAST: usize = 1;
pub const RECORDS_MOST: usize = 4_096;
/// An address is a word 0 to this.
pub const ADDRESS_LAST: i64 = 4_294_967_295;
pub const CYCLES_MOST: i64 = i64::MAX;
/// A shift is by 0 to this.
pub const SHIFT_MOST: i64 = 63;
