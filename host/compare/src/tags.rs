//! Every tag with edge numbers: a cell is sound by document 01's rule where it is a cell of the original's types,
//! and an instruction's cost is the original's own.

use layout::Cell;
use plain::{cost, sound};

use crate::edges::WORDS;
use crate::forms::Form;

/// Numbers that make the difference for an operand: none, a word, an address, no address.
const NUMBERS: [i64; 7] = [0, 1, -1, 4_294_967_295, 4_294_967_296, i64::MIN, i64::MAX];

const TAGS: std::ops::RangeInclusive<i64> = -50..=30_100;

/// The count of cells looked at.
pub fn check() -> Result<u64, String> {
    let mut looked = 0;
    for tag in TAGS.chain([i64::MIN, i64::MAX, i64::MAX - 1]) {
        for first in NUMBERS {
            for second in NUMBERS {
                same([tag, first, second])?;
                looked += 1;
            }
        }
    }
    for tag in [0, 1, 202, 3_802, 20_702] {
        for first in WORDS {
            same([tag, first, 0])?;
            looked += 1;
        }
    }
    Ok(looked)
}

fn same(cell: Cell) -> Result<(), String> {
    if judge::is_sound(cell) != sound(cell) {
        return Err(format!("cell {cell:?}: document 01 and the original's types differ"));
    }
    let again = judge::through_the_original(cell);
    if again.is_some_and(|again| again != cell) {
        return Err(format!("cell {cell:?} comes back as {again:?}"));
    }
    if let Some(due) = judge::cost(cell) {
        let Form { op, m1, m2 } = Form::of_tag(cell[0]);
        if cost(op, m1, m2) != due as u64 {
            return Err(format!("cell {cell:?}: the original's cost is {due}"));
        }
    }
    Ok(())
}
