//! A journal: "start (the oldest record, from 0), count, then a ring of records, each the row, the number of cells and four times address and
//! cell in order of writing" (document 02, Card 11).

use crate::cell;
use crate::row::ROW;

pub const START: usize = 0;
pub const COUNT: usize = 1;
/// Where the ring begins.
pub const RING: usize = 2;

/// The most cells that a step writes.
pub const WRITES_MOST: usize = 4;
/// An address and a cell.
pub const WRITE: usize = 1 + cell::LENGTH;

/// In a record: the number of cells, behind the row, and the first of them.
pub const CELLS: usize = ROW;
pub const FIRST: usize = CELLS + 1;
pub const RECORD: usize = FIRST + WRITES_MOST * WRITE;

/// The numbers of a journal with so many records.
pub const fn length(records: usize) -> usize {
    RING + RECORD * records
}

const _: () = assert!(RECORD == 37 && length(1) == 39);
