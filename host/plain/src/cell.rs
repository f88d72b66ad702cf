//! Which cells there are: operands by operation, cost, and what is not damaged.

use layout::cell::{EMPTY, TAG_EMPTY, TAG_LEAST_INSTRUCTION, TAG_WORD};
use layout::form::{Form, split};
use layout::limit::ADDRESS_LAST;
use layout::op::OPERATIONS;
use layout::{Cell, mode};

/// Operand kinds by operation: for each of the two operands the modes it takes, as bits 1 << mode.
const NONE: u8 = 1 << mode::NO;
const REG: u8 = 1 << mode::REG;
const IMM_REG: u8 = 1 << mode::IMM | REG;
const MEMORY: u8 = 1 << mode::DIR | 1 << mode::IND | 1 << mode::IDX;
const ANY: u8 = IMM_REG | MEMORY;

/// In the order of `Instruction`.
const KINDS: [(u8, u8); OPERATIONS as usize] = [
    (ANY, REG),          // add
    (ANY, REG),          // and
    (ANY, NONE),         // call
    (ANY, REG),          // cmp
    (ANY, REG),          // div
    (MEMORY, REG),       // fas
    (MEMORY, REG),       // in
    (ANY, NONE),         // jmp
    (ANY, NONE),         // jeq
    (ANY, NONE),         // jne
    (ANY, NONE),         // jle
    (ANY, NONE),         // jlt
    (ANY, NONE),         // jge
    (ANY, NONE),         // jgt
    (ANY, REG),          // ld
    (ANY, REG),          // mul
    (REG, NONE),         // neg
    (NONE, NONE),        // nop
    (REG, NONE),         // not
    (ANY, REG),          // or
    (IMM_REG, MEMORY),   // out
    (REG, NONE),         // pop
    (IMM_REG, NONE),     // push
    (NONE, NONE),        // reset
    (NONE, NONE),        // rti
    (NONE, NONE),        // rtn
    (ANY, REG),          // shl
    (ANY, REG),          // shr
    (REG, MEMORY),       // st
    (ANY, REG),          // sub
    (REG | MEMORY, REG), // swap
    (NONE, NONE),        // trap
    (ANY, REG),          // xor
];

pub fn address_in(word: i64) -> Option<u32> {
    u32::try_from(word).ok()
}

/// An operation with its two operands.
pub struct Decoded {
    pub op: i64,
    pub x: Operand,
    pub y: Operand,
}

#[derive(Clone, Copy)]
pub struct Operand {
    pub mode: i64,
    pub reg: i64,
    pub number: i64,
}

pub fn decode([tag, first, second]: Cell) -> Decoded {
    let (Form { op, m1, m2 }, (r1, r2)) = split(tag);
    Decoded {
        op,
        x: Operand { mode: m1, reg: r1, number: first },
        y: Operand { mode: m2, reg: r2, number: second },
    }
}

/// The cost of an operation in its modes, 0 where that is no instruction.
pub fn cost(op: i64, m1: i64, m2: i64) -> u64 {
    let legal = usize::try_from(op)
        .ok()
        .and_then(|op| KINDS.get(op))
        .is_some_and(|(x, y)| x >> m1 & 1 == 1 && y >> m2 & 1 == 1);
    if legal { 1 + u64::from(m1 >= mode::DIR) + u64::from(m2 >= mode::DIR) } else { 0 }
}

/// What is not damaged.
pub fn sound(cell: Cell) -> bool {
    match cell[0] {
        TAG_EMPTY => cell == EMPTY,
        TAG_WORD => cell[2] == 0,
        TAG_LEAST_INSTRUCTION.. => {
            let Decoded { op, x, y } = decode(cell);
            cost(op, x.mode, y.mode) > 0 && fits(x) && fits(y)
        }
        _ => false,
    }
}

/// Register and number are 0 where the mode has none, and a direct number is an address.
fn fits(operand: Operand) -> bool {
    let has_reg = matches!(operand.mode, mode::REG | mode::IND | mode::IDX);
    let number_fits = match operand.mode {
        mode::IMM | mode::IDX => true,
        mode::DIR => (0..=ADDRESS_LAST).contains(&operand.number),
        _ => operand.number == 0,
    };
    (has_reg || operand.reg == 0) && number_fits
}
