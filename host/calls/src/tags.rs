//! Every tag with edge numbers, as the cell that is read, as an image of one cell and as register a.

use layout::cell::{self, EMPTY};
use layout::limit::CELLS_LEAST;
use layout::refusal::{self, NONE};
use layout::reg::B;
use layout::{Cell, ROW, at, row};
use plain::sound;

const TAGS: std::ops::RangeInclusive<i64> = -50..=30_100;
const NUMBERS: [i64; 7] = [0, 1, -1, 4_294_967_295, 4_294_967_296, i64::MIN, i64::MAX];
/// The address of the cell that is read.
const READ: u64 = 7;
const FAR_TAGS: [i64; 4] = [i64::MIN, i64::MAX, 4_294_967_296, 4_294_967_498];

/// The count of cells looked at.
pub fn check() -> Result<u64, String> {
    let mut cells = vec![0; cell::LENGTH * CELLS_LEAST];
    let mut looked = 0;
    for tag in TAGS.chain(FAR_TAGS) {
        for first in NUMBERS {
            for second in NUMBERS {
                same(&mut cells, [tag, first, second])?;
                looked += 1;
            }
        }
    }
    Ok(looked)
}

fn same(cells: &mut [i64], cell: Cell) -> Result<(), String> {
    let damaged = [(refusal::DAMAGED_CELL, READ), (refusal::IMAGE, 0), (refusal::ROW, row::from_1(at::A))];
    let due = if sound(cell) { [(NONE, 0); 3] } else { damaged };
    let mut row = [0; ROW];
    row::put_cell(&mut row, at::A, cell);
    cell::put(cells, READ as usize, cell);
    let read = z33::read_cell(&cells[..], READ);
    let loaded = z33::load(&mut cells[..], &cell[..], 9);
    let set = z33::set_register(&mut row[..], B as u64, 3);
    let is = [(read.refusal, read.place), (loaded.refusal, loaded.place), (set.refusal, set.place)];
    let held = if sound(cell) { cell } else { EMPTY };
    if is != due || [read.tag, read.first, read.second] != held {
        return Err(format!(
            "cell {cell:?}: read, loaded and in a answered {is:?}, due {due:?}; read {read:?}"
        ));
    }
    Ok(())
}
