//! Which events a form can meet, and which outcomes it can have after a word from an empty cell.

use layout::{code, stop};

use super::Event::{self, Left, Taken};
use super::Reason::{self, Carried, Ended, JumpNotTaken, UserMode};
use super::Way::{
    self, Base, BaseAgain, Into, IntoFirst, IntoMemory, Memory, Register, Return, SavedPc, SavedSr,
};
use crate::coverage::Outcome::{self, Done, Entered, Interrupt, Stopped, Unhandled};
use crate::forms::*;

/// Every event that a completed step of this form can have.
pub fn possible(Form { op, m1, m2 }: Form) -> Vec<Event> {
    let based = |mode: i64| matches!(mode, IND | IDX);
    let base = |mode: i64| based(mode).then_some(Base);
    let value = match m1 {
        REG => Some(Way::Operand),
        DIR.. => Some(Memory),
        _ => None,
    };
    let operand: Vec<Way> = base(m1).into_iter().chain(value).collect();
    let mut events: Vec<Event> = Vec::new();
    let mut taken = |ways: &[Way]| events.extend(ways.iter().copied().map(Taken));
    match op {
        CALL | JMP..=JGT | NEG | NOT => taken(&operand),
        ST | OUT => {
            taken(&operand);
            taken(&Vec::from_iter(base(m2)));
        }
        IN | FAS | LD | SWAP => taken(&Vec::from_iter(base(m1))),
        RTI => taken(&[SavedPc, SavedSr]),
        RTN => taken(&[Return]),
        op if TWO_WORDS.contains(&op) => {
            taken(&operand);
            taken(&[Register]);
        }
        _ => {}
    }
    let left = |reason: Reason, ways: &[Way]| ways.iter().map(|way| Left(reason, *way)).collect::<Vec<_>>();
    if matches!(op, FAS | POP | SWAP) || op == LD && m1 != IMM {
        events.extend([PC, SP, SR].map(|reg| Taken(Into(reg))));
        events.extend(left(UserMode, &[Into(SR)]));
        events.extend(left(Carried, &[Into(A), Into(B)]));
    }
    if op == SWAP && m1 == REG {
        events.extend([PC, SP, SR].map(|reg| Taken(IntoFirst(reg))));
        events.extend(left(UserMode, &[IntoFirst(SR)]));
        events.extend(left(Carried, &[IntoFirst(A), IntoFirst(B)]));
    }
    if op == SWAP && based(m1) {
        events.push(Taken(BaseAgain));
        events.extend(left(Ended, &[BaseAgain]));
    }
    if op == SWAP && m1 >= DIR || op == PUSH && m1 == REG {
        events.extend(left(Carried, &[IntoMemory]));
    }
    match op {
        JEQ..=JGT => events.extend(left(JumpNotTaken, &operand)),
        // its push was outside
        CALL => events.extend(left(Ended, &operand)),
        // in user mode
        IN => events.extend(left(Ended, &Vec::from_iter(base(m1)))),
        OUT => {
            events.extend(left(Ended, &operand));
            events.extend(left(Ended, &Vec::from_iter(base(m2))));
        }
        RTI => events.extend(left(Ended, &[SavedPc, SavedSr])),
        // the operand was outside
        op if TWO_WORDS.contains(&op) && m1 >= DIR => events.extend(left(Ended, &[Register])),
        _ => {}
    }
    events
}

/// Whether a step of this form can come out so and have taken a word from an empty cell. That word is 0: as an operand it makes no
/// result that pc or sp would refuse, and as an address it is inside; an index added to it may be anything.
pub fn comes_with(form: Form, outcome: Outcome) -> bool {
    let Form { op, m1, m2 } = form;
    let based = |mode: i64| matches!(mode, IND | IDX);
    let two_words = TWO_WORDS.contains(&op);
    let jumps = matches!(op, CALL | JMP..=JGT);
    let carries = matches!(op, FAS | LD | SWAP) && based(m1);
    match outcome {
        Done | Interrupt | Unhandled(code::HARDWARE_INTERRUPT) | Stopped(stop::CYCLES_FULL, _) => {
            possible(form).iter().any(|event| matches!(event, Taken(_)))
        }
        Entered(code::DIV_BY_ZERO) | Unhandled(code::DIV_BY_ZERO) => op == DIV,
        Entered(code::INVALID_INSTRUCTION) | Unhandled(code::INVALID_INSTRUCTION) => matches!(op, SHL | SHR),
        // sr, which is the register, is never empty; division by the word would be code 1
        Entered(code::PRIVILEGED_INSTRUCTION) | Unhandled(code::PRIVILEGED_INSTRUCTION) => {
            two_words && op != CMP && m1 != IMM && (op != DIV || based(m1)) || carries
        }
        // swap [%a],%a may read at 0 and write outside; 0 may lie below the fence, and so may what swap has put into pc or sp
        Entered(code::INVALID_MEMORY_ACCESS) | Unhandled(code::INVALID_MEMORY_ACCESS) => {
            op == ST || m1 == IDX && op != IN || op == FAS && m1 == IND || op == SWAP && m1 >= DIR
        }
        Stopped(stop::CELL_ERROR, _) => match op {
            ST => based(m2),
            OUT => m2 == IDX || m1 == REG && m2 == IND,
            FAS | IN => m1 == IDX,
            SWAP => based(m1),
            _ => op == RTI,
        },
        Stopped(stop::EXTRACT, _) => {
            two_words && m1 != IMM || jumps && based(m1) || matches!(op, LD | SWAP) && m1 == IDX
        }
        Stopped(stop::INVALID_REGISTER, register) => {
            let result = two_words && !matches!(op, AND | CMP | SHR) && based(m1);
            // the timer's ports
            let read = op == IN && m1 == IDX;
            carries || (result || read) && register != SR as u64
        }
        Stopped(stop::OUTPUT_FULL, _) => op == OUT && (m1 == REG || m2 == IDX),
        _ => false,
    }
}
