use std::fmt;

use layout::stop;

use crate::{Exception, Register};

/// Why a run ended.
#[derive(Clone, Copy, Debug, PartialEq, Eq, Hash)]
pub enum Stop {
    /// 0: as many steps were completed as the budget has.
    BudgetSpent,
    /// 1: the instruction reset.
    Reset,
    /// 2: an exception, and cell 200 is no instruction.
    NoHandler(Exception),
    /// 3: a word or address that rti or rtn cannot take, or the address of a store, fas, swap, in or out.
    CellError,
    /// 4: any other operand, register or jump target that cannot be taken.
    Extract,
    /// 5: pc, sp or sr cannot take the value.
    InvalidRegister(Register),
    /// 6: the step would write a byte past the output record; it was not taken.
    OutputFull,
    /// 7: the step would pass 2^63 - 1 cycles; it was not taken.
    CyclesFull,
}

impl Stop {
    /// Its number, 0 to 7.
    pub fn number(self) -> u64 {
        match self {
            Stop::BudgetSpent => stop::BUDGET_SPENT,
            Stop::Reset => stop::RESET,
            Stop::NoHandler(_) => stop::NO_HANDLER,
            Stop::CellError => stop::CELL_ERROR,
            Stop::Extract => stop::EXTRACT,
            Stop::InvalidRegister(_) => stop::INVALID_REGISTER,
            Stop::OutputFull => stop::OUTPUT_FULL,
            Stop::CyclesFull => stop::CYCLES_FULL,
        }
    }

    /// The exception's code, the register's number, or 0.
    pub fn detail(self) -> u64 {
        match self {
            Stop::NoHandler(exception) => exception.code(),
            Stop::InvalidRegister(register) => register.number(),
            _ => 0,
        }
    }

    pub(crate) fn of(number: u64, detail: u64) -> Self {
        match number {
            stop::BUDGET_SPENT => Stop::BudgetSpent,
            stop::RESET => Stop::Reset,
            stop::NO_HANDLER => Stop::NoHandler(Exception::of(detail)),
            stop::CELL_ERROR => Stop::CellError,
            stop::EXTRACT => Stop::Extract,
            stop::INVALID_REGISTER => Stop::InvalidRegister(Register::of(detail)),
            stop::OUTPUT_FULL => Stop::OutputFull,
            stop::CYCLES_FULL => Stop::CyclesFull,
            _ => unreachable!("the library is proved to stop with 0 to 7, and stopped with {number}"),
        }
    }
}

impl fmt::Display for Stop {
    fn fmt(&self, f: &mut fmt::Formatter) -> fmt::Result {
        match self {
            Stop::BudgetSpent => write!(f, "budget spent"),
            Stop::Reset => write!(f, "reset"),
            Stop::NoHandler(exception) => write!(f, "{exception} without a handler"),
            Stop::CellError => write!(f, "a word or address that the instruction cannot take"),
            Stop::Extract => write!(f, "an operand, register or jump target that cannot be taken"),
            Stop::InvalidRegister(register) => write!(f, "a value that {register} cannot take"),
            Stop::OutputFull => write!(f, "output record full"),
            Stop::CyclesFull => write!(f, "cycle count full"),
        }
    }
}

/// What a run did.
#[derive(Clone, Copy, Debug, PartialEq, Eq, Hash)]
pub struct Ran {
    /// Why it ended.
    pub stop: Stop,
    /// How many steps were completed.
    pub steps: u64,
    /// How many words these steps took from empty cells, which read as word 0.
    pub empty: u64,
}

impl fmt::Display for Ran {
    fn fmt(&self, f: &mut fmt::Formatter) -> fmt::Result {
        let Ran { stop, steps, .. } = self;
        write!(f, "{stop} after {steps} step{}", if *steps == 1 { "" } else { "s" })
    }
}
