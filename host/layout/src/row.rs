//! The row. A number more goes into `at`, `ROW` and, where it has a range, `RANGED`; nothing else counts the row's numbers.

use crate::cell::{self, Cell};

/// Numbers in a row.
pub const ROW: usize = 20;

pub type Row = [i64; ROW];

/// Places from 0; a and b are cells, from their tag on.
pub mod at {
    pub const A: usize = 0;
    pub const B: usize = 3;
    pub const PC: usize = 6;
    pub const SP: usize = 7;
    pub const SR: usize = 8;
    pub const CYCLES: usize = 9;
    pub const ENABLE: usize = 10;
    pub const FLAG: usize = 11;
    pub const PENDING: usize = 12;
    pub const QUEUE_START: usize = 13;
    pub const QUEUE_COUNT: usize = 14;
    pub const OUTPUT_COUNT: usize = 15;
    pub const FENCE: usize = 16;
    pub const TIMER_INTERVAL: usize = 17;
    pub const TIMER_REMAINING: usize = 18;
    pub const TIMER_MARK: usize = 19;
}

/// The console's marks.
pub const MARKS: [usize; 3] = [at::ENABLE, at::FLAG, at::PENDING];

/// The console's numbers, the pending mark aside: two machines in user mode may differ here.
pub const CONSOLE: [usize; 5] = [at::ENABLE, at::FLAG, at::QUEUE_START, at::QUEUE_COUNT, at::OUTPUT_COUNT];

/// The timer's numbers.
pub const TIMER: [usize; 3] = [at::TIMER_INTERVAL, at::TIMER_REMAINING, at::TIMER_MARK];

/// What can be out of range, in checking order; sr is any word.
pub const RANGED: [usize; 15] = [
    at::A,
    at::B,
    at::PC,
    at::SP,
    at::CYCLES,
    at::ENABLE,
    at::FLAG,
    at::PENDING,
    at::QUEUE_START,
    at::QUEUE_COUNT,
    at::OUTPUT_COUNT,
    at::FENCE,
    at::TIMER_INTERVAL,
    at::TIMER_REMAINING,
    at::TIMER_MARK,
];

/// The place as a refusal and the recorded list have it, from 1.
pub const fn from_1(place: usize) -> u64 {
    place as u64 + 1
}

/// What register a or b holds, by its place.
#[inline]
pub fn cell(row: &[i64], place: usize) -> Cell {
    cell::three(row, place)
}

#[inline]
pub fn put_cell(row: &mut [i64], place: usize, cell: Cell) {
    cell::put_three(row, place, cell);
}
