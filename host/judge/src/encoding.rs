//! Document 01's cell of three numbers <-> the original's `Cell`.
//! Which forms are instructions is decided by the original's own operand types and conversions.

use layout::cell::{EMPTY, TAG_EMPTY, TAG_LEAST_INSTRUCTION, TAG_WORD, word};
use layout::form::{self, Form, NONE, Operand, split};
use layout::mode::{DIR, IDX, IMM, IND, NO, REG};
use layout::{Cell as Flat, op, reg as number_of};

use crate::runtime::arguments::{Dir, DirIndIdx, Idx, Imm, ImmReg, ImmRegDirIndIdx, Ind, RegDirIndIdx};
use crate::runtime::{Cell, Instruction, Reg};

/// Whether the three numbers are a cell, by the original's types.
pub fn is_sound(flat: Flat) -> bool {
    decode(flat).is_some()
}

/// The three numbers made a cell of the original and back again.
pub fn through_the_original(flat: Flat) -> Option<Flat> {
    decode(flat).map(|cell| encode(&cell))
}

/// The original's own cost of an instruction, and nothing for another cell.
pub fn cost(flat: Flat) -> Option<usize> {
    match decode(flat)? {
        Cell::Instruction(instruction) => Some(instruction.cost()),
        _ => None,
    }
}

/// The original's own display of a cell.
pub fn shown(flat: Flat) -> Option<String> {
    decode(flat).map(|cell| cell.to_string())
}

pub(crate) fn decode([tag, first, second]: Flat) -> Option<Cell> {
    match tag {
        TAG_EMPTY if first == 0 && second == 0 => Some(Cell::Empty),
        TAG_WORD if second == 0 => Some(Cell::Word(first)),
        TAG_LEAST_INSTRUCTION.. => {
            let (Form { op, m1, m2 }, (r1, r2)) = split(tag);
            let x = operand(m1, r1, first)?;
            let y = operand(m2, r2, second)?;
            Some(instruction(op, x, y)?.into())
        }
        _ => None,
    }
}

pub(crate) fn encode(cell: &Cell) -> Flat {
    match cell {
        Cell::Empty => EMPTY,
        Cell::Word(held) => word(*held),
        Cell::Instruction(instruction) => {
            let (op, x, y) = parts(instruction);
            form::instruction(op, x, y)
        }
    }
}

pub(crate) fn reg(number: i64) -> Option<Reg> {
    Reg::ALL.get(usize::try_from(number).ok()?).copied()
}

pub(crate) fn reg_number(reg: Reg) -> i64 {
    match reg {
        Reg::A => number_of::A,
        Reg::B => number_of::B,
        Reg::PC => number_of::PC,
        Reg::SP => number_of::SP,
        Reg::SR => number_of::SR,
    }
}

/// The operand of one mode: none where it is damaged, none inside where the mode is 0.
fn operand(mode: i64, r: i64, number: i64) -> Option<Option<ImmRegDirIndIdx>> {
    let operand = match mode {
        NO if r == 0 && number == 0 => return Some(None),
        IMM if r == 0 => ImmRegDirIndIdx::Imm(Imm(number)),
        REG if number == 0 => ImmRegDirIndIdx::Reg(reg(r)?),
        DIR if r == 0 => ImmRegDirIndIdx::Dir(Dir(number.try_into().ok()?)),
        IND if number == 0 => ImmRegDirIndIdx::Ind(Ind(reg(r)?)),
        IDX => ImmRegDirIndIdx::Idx(Idx(reg(r)?, number)),
        _ => return None,
    };
    Some(Some(operand))
}

/// The operations in the order of `Instruction`; a narrower operand goes through the original's conversion.
fn instruction(op: i64, x: Option<ImmRegDirIndIdx>, y: Option<ImmRegDirIndIdx>) -> Option<Instruction> {
    use Instruction as I;
    Some(match (op, x, y) {
        (op::ADD, Some(x), Some(y)) => I::Add(x, y.try_into().ok()?),
        (op::AND, Some(x), Some(y)) => I::And(x, y.try_into().ok()?),
        (op::CALL, Some(x), None) => I::Call(x),
        (op::CMP, Some(x), Some(y)) => I::Cmp(x, y.try_into().ok()?),
        (op::DIV, Some(x), Some(y)) => I::Div(x, y.try_into().ok()?),
        (op::FAS, Some(x), Some(y)) => I::Fas(x.try_into().ok()?, y.try_into().ok()?),
        (op::IN, Some(x), Some(y)) => I::In(x.try_into().ok()?, y.try_into().ok()?),
        (op::JMP, Some(x), None) => I::Jmp(x),
        (op::JEQ, Some(x), None) => I::Jeq(x),
        (op::JNE, Some(x), None) => I::Jne(x),
        (op::JLE, Some(x), None) => I::Jle(x),
        (op::JLT, Some(x), None) => I::Jlt(x),
        (op::JGE, Some(x), None) => I::Jge(x),
        (op::JGT, Some(x), None) => I::Jgt(x),
        (op::LD, Some(x), Some(y)) => I::Ld(x, y.try_into().ok()?),
        (op::MUL, Some(x), Some(y)) => I::Mul(x, y.try_into().ok()?),
        (op::NEG, Some(x), None) => I::Neg(x.try_into().ok()?),
        (op::NOP, None, None) => I::Nop,
        (op::NOT, Some(x), None) => I::Not(x.try_into().ok()?),
        (op::OR, Some(x), Some(y)) => I::Or(x, y.try_into().ok()?),
        (op::OUT, Some(x), Some(y)) => I::Out(x.try_into().ok()?, y.try_into().ok()?),
        (op::POP, Some(x), None) => I::Pop(x.try_into().ok()?),
        (op::PUSH, Some(x), None) => I::Push(x.try_into().ok()?),
        (op::RESET, None, None) => I::Reset,
        (op::RTI, None, None) => I::Rti,
        (op::RTN, None, None) => I::Rtn,
        (op::SHL, Some(x), Some(y)) => I::Shl(x, y.try_into().ok()?),
        (op::SHR, Some(x), Some(y)) => I::Shr(x, y.try_into().ok()?),
        (op::ST, Some(x), Some(y)) => I::St(x.try_into().ok()?, y.try_into().ok()?),
        (op::SUB, Some(x), Some(y)) => I::Sub(x, y.try_into().ok()?),
        (op::SWAP, Some(x), Some(y)) => I::Swap(x.try_into().ok()?, y.try_into().ok()?),
        (op::TRAP, None, None) => I::Trap,
        (op::XOR, Some(x), Some(y)) => I::Xor(x, y.try_into().ok()?),
        _ => return None,
    })
}

fn parts(instruction: &Instruction) -> (i64, Operand, Operand) {
    use Instruction as I;
    match instruction {
        I::Add(x, y) => (op::ADD, x.part(), y.part()),
        I::And(x, y) => (op::AND, x.part(), y.part()),
        I::Call(x) => (op::CALL, x.part(), NONE),
        I::Cmp(x, y) => (op::CMP, x.part(), y.part()),
        I::Div(x, y) => (op::DIV, x.part(), y.part()),
        I::Fas(x, y) => (op::FAS, x.part(), y.part()),
        I::In(x, y) => (op::IN, x.part(), y.part()),
        I::Jmp(x) => (op::JMP, x.part(), NONE),
        I::Jeq(x) => (op::JEQ, x.part(), NONE),
        I::Jne(x) => (op::JNE, x.part(), NONE),
        I::Jle(x) => (op::JLE, x.part(), NONE),
        I::Jlt(x) => (op::JLT, x.part(), NONE),
        I::Jge(x) => (op::JGE, x.part(), NONE),
        I::Jgt(x) => (op::JGT, x.part(), NONE),
        I::Ld(x, y) => (op::LD, x.part(), y.part()),
        I::Mul(x, y) => (op::MUL, x.part(), y.part()),
        I::Neg(x) => (op::NEG, x.part(), NONE),
        I::Nop => (op::NOP, NONE, NONE),
        I::Not(x) => (op::NOT, x.part(), NONE),
        I::Or(x, y) => (op::OR, x.part(), y.part()),
        I::Out(x, y) => (op::OUT, x.part(), y.part()),
        I::Pop(x) => (op::POP, x.part(), NONE),
        I::Push(x) => (op::PUSH, x.part(), NONE),
        I::Reset => (op::RESET, NONE, NONE),
        I::Rti => (op::RTI, NONE, NONE),
        I::Rtn => (op::RTN, NONE, NONE),
        I::Shl(x, y) => (op::SHL, x.part(), y.part()),
        I::Shr(x, y) => (op::SHR, x.part(), y.part()),
        I::St(x, y) => (op::ST, x.part(), y.part()),
        I::Sub(x, y) => (op::SUB, x.part(), y.part()),
        I::Swap(x, y) => (op::SWAP, x.part(), y.part()),
        I::Trap => (op::TRAP, NONE, NONE),
        I::Xor(x, y) => (op::XOR, x.part(), y.part()),
    }
}

/// An operand as mode, register and number.
trait HasPart {
    fn part(&self) -> Operand;
}

impl HasPart for Imm {
    fn part(&self) -> Operand {
        form::imm(self.0)
    }
}

impl HasPart for Reg {
    fn part(&self) -> Operand {
        form::reg(reg_number(*self))
    }
}

impl HasPart for Dir {
    fn part(&self) -> Operand {
        form::dir(self.0.into())
    }
}

impl HasPart for Ind {
    fn part(&self) -> Operand {
        form::ind(reg_number(self.0))
    }
}

impl HasPart for Idx {
    fn part(&self) -> Operand {
        form::idx(reg_number(self.0), self.1)
    }
}

impl HasPart for ImmRegDirIndIdx {
    fn part(&self) -> Operand {
        match self {
            Self::Imm(x) => x.part(),
            Self::Reg(x) => x.part(),
            Self::Dir(x) => x.part(),
            Self::Ind(x) => x.part(),
            Self::Idx(x) => x.part(),
        }
    }
}

impl HasPart for RegDirIndIdx {
    fn part(&self) -> Operand {
        match self {
            Self::Reg(x) => x.part(),
            Self::Dir(x) => x.part(),
            Self::Ind(x) => x.part(),
            Self::Idx(x) => x.part(),
        }
    }
}

impl HasPart for DirIndIdx {
    fn part(&self) -> Operand {
        match self {
            Self::Dir(x) => x.part(),
            Self::Ind(x) => x.part(),
            Self::Idx(x) => x.part(),
        }
    }
}

impl HasPart for ImmReg {
    fn part(&self) -> Operand {
        match self {
            Self::Imm(x) => x.part(),
            Self::Reg(x) => x.part(),
        }
    }
}
