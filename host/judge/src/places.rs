//! Which cells a step may have written, so that the lent cells are brought up to date without looking at all of them.

use layout::cell::word_in;
use layout::form::{Form, split};
use layout::mode::{DIR, IDX, IND};
use layout::{Cell, Row, at, reg, row};

use crate::constants::{
    INTERRUPT_EXCEPTION, INTERRUPT_HANDLER, INTERRUPT_PC_SAVE, INTERRUPT_SR_SAVE, MEMORY_SIZE,
};

pub const CELLS: usize = MEMORY_SIZE as usize;

/// Addresses that a step may have written.
pub type Places = [Option<usize>; 8];

/// Cells 100 to 102 after an entry, the cell that a push wrote, and the operands' addresses by the registers before.
/// Swap resolves its address from registers it has set: those after the step or, where an exception was entered
/// afterwards, those at the moment of entry.
pub fn may_have_written(row: &Row, next: &Row, entry: &Row, fetched: Option<Cell>) -> Places {
    let mut places = [None; 8];
    if next[at::PC] == i64::from(INTERRUPT_HANDLER) {
        places[..3].copy_from_slice(&SAVES);
    }
    let Some([tag, first, second]) = fetched else { return places };
    let mut moved = *row;
    moved[at::PC] += 1;
    let (Form { m1, m2, .. }, (r1, r2)) = split(tag);
    places[3] = in_cells(next[at::SP]);
    places[4] = resolve(m2, r2, second, &moved);
    places[5] = resolve(m1, r1, first, &moved);
    places[6] = resolve(m1, r1, first, next);
    places[7] = resolve(m1, r1, first, entry);
    places
}

pub const SAVES: [Option<usize>; 3] =
    [Some(INTERRUPT_PC_SAVE as usize), Some(INTERRUPT_SR_SAVE as usize), Some(INTERRUPT_EXCEPTION as usize)];

/// The address of a memory operand, where it lies in the cells.
fn resolve(mode: i64, reg: i64, number: i64, row: &Row) -> Option<usize> {
    match mode {
        DIR => in_cells(number),
        IND => in_cells(register_word(reg, row)?),
        IDX => in_cells(register_word(reg, row)?.wrapping_add(number)),
        _ => None,
    }
}

fn register_word(reg: i64, row: &Row) -> Option<i64> {
    match reg {
        reg::A => word_in(row::cell(row, at::A)),
        reg::B => word_in(row::cell(row, at::B)),
        reg::PC => Some(row[at::PC]),
        reg::SP => Some(row[at::SP]),
        _ => Some(row[at::SR]),
    }
}

fn in_cells(word: i64) -> Option<usize> {
    usize::try_from(word).ok().filter(|address| *address < CELLS)
}
