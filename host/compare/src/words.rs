//! All pairs of edge words through every operation on two words, into a, sp and sr; and each word through neg and not.

use layout::cell::word as cell_of;
use layout::limit::ADDRESS_LAST;
use layout::sr::SUPERVISOR;
use layout::{Cell, at, row};
use list::{Call, Case};

use crate::edges::WORDS;
use crate::forms::*;

/// Calls `each` with every case; the first error ends it.
pub fn each(mut each: impl FnMut(&Case) -> Result<(), String>) -> Result<(), String> {
    for operand in WORDS {
        for register in WORDS {
            for op in TWO_WORDS {
                for target in [A, SP, SR] {
                    let cell = instruction(op, imm(operand), reg(target));
                    if let Some(case) = with_register(cell, target, register) {
                        each(&case)?;
                    }
                }
            }
        }
    }
    for word in WORDS {
        for op in [NEG, NOT] {
            for target in [A, SP, SR] {
                let cell = instruction(op, reg(target), NONE);
                if let Some(case) = with_register(cell, target, word) {
                    each(&case)?;
                }
            }
        }
    }
    Ok(())
}

/// One step in supervisor mode with the word in that register; none where sp cannot hold it.
fn with_register(cell: Cell, target: i64, word: i64) -> Option<Case> {
    let mut case = Case { queue: vec![0], calls: vec![Call::Run(1)], ..Case::default() };
    case.row[at::SR] = SUPERVISOR;
    case.put(1_000, cell);
    case.row[at::PC] = 1_000;
    match target {
        A => row::put_cell(&mut case.row, at::A, cell_of(word)),
        SP if !(0..=ADDRESS_LAST).contains(&word) => return None,
        SP => case.row[at::SP] = word,
        _ => case.row[at::SR] = word | SUPERVISOR,
    }
    Some(case)
}
