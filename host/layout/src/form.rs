//! Tags of instructions: 2 + ((op × 36 + m1 × 6 + m2) × 25 + r1 × 5 + r2), and instructions by their operands.

use crate::cell::{Cell, TAG_LEAST_INSTRUCTION};
use crate::mode::{DIR, IDX, IMM, IND, MODES, NO, REG};
use crate::op::{NAMES, OPERATIONS};
use crate::reg::REGISTERS;

const REGISTER_PAIRS: i64 = REGISTERS * REGISTERS;

/// How many an operation and two modes make, instructions or not.
pub const FORMS: usize = (OPERATIONS * MODES * MODES) as usize;

/// So many of them are instructions.
pub const LEGAL: usize = 124;

/// The least tag that no form has.
pub const TAGS_END: i64 = TAG_LEAST_INSTRUCTION + FORMS as i64 * REGISTER_PAIRS;

/// An instruction without its registers and numbers.
#[derive(Clone, Copy, Debug, PartialEq, Eq)]
pub struct Form {
    pub op: i64,
    pub m1: i64,
    pub m2: i64,
}

impl Form {
    /// Its place in a table over op, m1 and m2.
    pub const fn entry(self) -> usize {
        ((self.op * MODES + self.m1) * MODES + self.m2) as usize
    }

    /// The tag with these registers.
    pub const fn tag(self, r1: i64, r2: i64) -> i64 {
        TAG_LEAST_INSTRUCTION + self.entry() as i64 * REGISTER_PAIRS + r1 * REGISTERS + r2
    }

    pub const fn of_tag(tag: i64) -> Self {
        split(tag).0
    }

    pub fn name(self) -> String {
        format!("{} {} {}", NAMES[self.op as usize], self.m1, self.m2)
    }
}

/// The form of a tag, and its registers r1 and r2.
#[inline]
pub const fn split(tag: i64) -> (Form, (i64, i64)) {
    let number = tag - TAG_LEAST_INSTRUCTION;
    let (form, registers) = (number / REGISTER_PAIRS, number % REGISTER_PAIRS);
    let form = Form { op: form / (MODES * MODES), m1: form / MODES % MODES, m2: form % MODES };
    (form, (registers / REGISTERS, registers % REGISTERS))
}

/// An operand: mode, register, number.
pub type Operand = (i64, i64, i64);

pub const NONE: Operand = (NO, 0, 0);

pub const fn imm(number: i64) -> Operand {
    (IMM, 0, number)
}

pub const fn reg(reg: i64) -> Operand {
    (REG, reg, 0)
}

pub const fn dir(address: i64) -> Operand {
    (DIR, 0, address)
}

pub const fn ind(reg: i64) -> Operand {
    (IND, reg, 0)
}

pub const fn idx(reg: i64, number: i64) -> Operand {
    (IDX, reg, number)
}

/// An instruction cell.
pub const fn instruction(op: i64, (m1, r1, n1): Operand, (m2, r2, n2): Operand) -> Cell {
    [Form { op, m1, m2 }.tag(r1, r2), n1, n2]
}

/// Document 01's own numbers: add 5,%a and reset of its worked run, and div 0,%a; "one table of 1,188 entries".
const _: () = {
    use crate::{op, reg};
    assert!(instruction(op::ADD, imm(5), reg(reg::A))[0] == 202);
    assert!(instruction(op::RESET, NONE, NONE)[0] == 20_702);
    assert!(instruction(op::DIV, imm(0), reg(reg::A))[0] == 3_802);
    assert!(FORMS == 1_188 && TAGS_END == 29_702);
};
