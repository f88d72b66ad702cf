//! Cells that are damaged, each for a reason of its own.

use layout::Cell;
use layout::cell::{TAG_EMPTY, TAG_LEAST_INSTRUCTION, TAG_WORD};
use layout::form::TAGS_END;
use plain::sound;

/// In turn: tags below 0 and past the last; numbers in an empty cell and behind a word; `add` without operands; a mode
/// that the second operand cannot have; a register or a number where the mode has none; a direct number that is no address.
pub const DAMAGED: [Cell; 19] = [
    [-1, 0, 0],
    [i64::MIN, 0, 0],
    [TAGS_END, 0, 0],
    [i64::MAX, 0, 0],
    [TAG_EMPTY, 1, 0],
    [TAG_EMPTY, 0, 1],
    [TAG_EMPTY, i64::MIN, 0],
    [TAG_WORD, 0, 1],
    [TAG_WORD, 5, -1],
    [TAG_LEAST_INSTRUCTION, 0, 0],
    [TAGS_END - 1, 0, 0],
    [15_303, 0, 0],
    [15_307, 0, 0],
    [207, 5, 0],
    [15_302, 1, 0],
    [15_302, 0, 1],
    [202, 5, 1],
    [13_102, -1, 0],
    [13_102, 4_294_967_296, 0],
];

pub fn verify() -> Result<(), String> {
    match DAMAGED.iter().find(|cell| sound(**cell)) {
        Some(cell) => Err(format!("{cell:?} is not damaged")),
        None => Ok(()),
    }
}
