//! Numbers of a row handed to the judge.

use layout::Row;

pub const DAMAGED: &str = "a machine handed to the judge has sound cells and a row in range";

/// A number of the row that counts or indexes.
pub fn place(row: &Row, index: usize) -> usize {
    usize::try_from(row[index]).expect(DAMAGED)
}
