//! Every form with every register, and at every edge number.

use layout::Cell;

use crate::edges::{PLACES, WORDS};
use crate::forms::{DIR, IDX, IMM, IND, REG, REGISTERS, all};

/// Register and number of each operand of a mode.
fn operands(mode: i64) -> Vec<(i64, i64)> {
    let registers = 0..REGISTERS;
    match mode {
        IMM => WORDS.iter().map(|&n| (0, n)).collect(),
        REG | IND => registers.map(|r| (r, 0)).collect(),
        DIR => PLACES.iter().copied().chain([10_001, 4_294_967_294, 4_294_967_295]).map(|n| (0, n)).collect(),
        IDX => registers.flat_map(|r| WORDS.iter().map(move |&n| (r, n))).collect(),
        _ => vec![(0, 0)],
    }
}

/// The sound instructions that these make.
pub fn instructions() -> Vec<Cell> {
    let mut cells = Vec::new();
    for form in all() {
        for &(r1, n1) in &operands(form.m1) {
            for &(r2, n2) in &operands(form.m2) {
                cells.push([form.tag(r1, r2), n1, n2]);
            }
        }
    }
    cells
}
