//! Cells: tag, first, second.

/// Numbers in a cell.
pub const LENGTH: usize = 3;

pub type Cell = [i64; LENGTH];

pub const TAG_EMPTY: i64 = 0;
pub const TAG_WORD: i64 = 1;
/// From this one on a tag is an instruction's.
pub const TAG_LEAST_INSTRUCTION: i64 = 2;

pub const EMPTY: Cell = [TAG_EMPTY, 0, 0];

#[inline]
pub const fn word(word: i64) -> Cell {
    [TAG_WORD, word, 0]
}

#[inline]
pub const fn is_instruction(cell: Cell) -> bool {
    cell[0] >= TAG_LEAST_INSTRUCTION
}

/// Empty reads as word 0; an instruction is no word.
#[inline]
pub fn word_in(cell: Cell) -> Option<i64> {
    (!is_instruction(cell)).then_some(cell[1])
}

/// The cell at an address that is inside.
#[inline]
pub fn get(cells: &[i64], address: usize) -> Cell {
    three(cells, LENGTH * address)
}

#[inline]
pub fn put(cells: &mut [i64], address: usize, cell: Cell) {
    put_three(cells, LENGTH * address, cell);
}

#[inline]
pub(crate) fn three(numbers: &[i64], from: usize) -> Cell {
    [numbers[from], numbers[from + 1], numbers[from + 2]]
}

#[inline]
pub(crate) fn put_three(numbers: &mut [i64], from: usize, cell: Cell) {
    numbers[from..from + LENGTH].copy_from_slice(&cell);
}
