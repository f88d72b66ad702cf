//! "Turned back, in checking order".

/// Done.
pub const NONE: u64 = 0;
pub const CELLS: u64 = 1;
pub const QUEUE: u64 = 2;
pub const OUTPUT: u64 = 3;
/// Place: the row's, from 1, or 0 for its length.
pub const ROW: u64 = 4;
/// Place: the cell's address.
pub const DAMAGED_CELL: u64 = 5;
pub const DELIVERY: u64 = 6;
pub const DRAIN: u64 = 7;
pub const ADDRESS: u64 = 8;
pub const IMAGE: u64 = 9;
pub const REGISTER: u64 = 10;
pub const CODE: u64 = 11;
pub const TEXT: u64 = 13;
pub const LABEL: u64 = 14;
pub const VALUE: u64 = 15;
pub const EMPTY_CELL: u64 = 16;
pub const TEXT_ROOM: u64 = 17;
/// The bench's, before 1.
pub const SEATS: u64 = 19;
/// No journal, or its newest record is none that can be gone back to.
pub const JOURNAL: u64 = 20;
pub const NOTHING_KEPT: u64 = 21;
/// The runner's, and of old files the listings tool's. Place: the line.
pub const LINE: u64 = 12;
/// The runner's. Place: the line.
pub const NUMERIC_LINE: u64 = 18;
