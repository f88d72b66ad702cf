//! A case: a machine, and calls made on it in turn.

use layout::{Cell, Row, refusal, stop};

use crate::lent::{CELLS, Lent, Machine};

#[derive(Clone, Debug, Default)]
pub struct Case {
    /// The cells that are not empty before, each address once.
    pub cells: Vec<(usize, Cell)>,
    pub queue: Vec<u8>,
    pub output: Vec<u8>,
    pub row: Row,
    pub calls: Vec<Call>,
    /// Whether the runner gives the same run: its sizes, its start row, no cell touched from 2,048 on.
    pub for_runner: bool,
}

#[derive(Clone, Debug, PartialEq, Eq)]
pub enum Call {
    Run(u64),
    Deliver(Vec<u8>),
    Drain(usize),
    Raise(u64),
    SetRegister(u64, i64),
}

/// A call's answer. Fields that a call does not give are 0; `count` is steps or drained bytes, `empty` the words that a run took from
/// empty cells.
#[derive(Clone, Copy, Debug, PartialEq, Eq)]
pub struct Answer {
    pub refusal: u64,
    pub stop: u64,
    pub detail: u64,
    pub count: u64,
    pub empty: u64,
}

impl Answer {
    pub const DONE: Self =
        Self { refusal: refusal::NONE, stop: stop::BUDGET_SPENT, detail: 0, count: 0, empty: 0 };

    pub fn refused(refusal: u64) -> Self {
        Self { refusal, ..Self::DONE }
    }

    /// As the original has it, which counts no empty cells.
    pub fn without_empty(self) -> Self {
        Self { empty: 0, ..self }
    }
}

/// A call with its answer and what it left.
pub struct Recorded {
    pub call: Call,
    pub answer: Answer,
    pub before: Lent,
    pub after: Lent,
    /// The drain buffer afterwards, 0 in every place before.
    pub buffer: Vec<u8>,
}

impl Case {
    pub fn lent(&self) -> Lent {
        let mut lent = Lent::zero(CELLS, 0, 0);
        for (address, cell) in &self.cells {
            lent.put_cell(*address, *cell);
        }
        lent.queue = self.queue.clone();
        lent.output = self.output.clone();
        lent.row = self.row;
        lent
    }

    /// Sets a cell, over an earlier one.
    pub fn put(&mut self, address: usize, cell: Cell) {
        self.cells.retain(|(at, _)| *at != address);
        self.cells.push((address, cell));
    }
}

impl Call {
    /// Makes the call; the drain buffer comes back with the answer.
    pub fn make(&self, machine: &mut dyn Machine, lent: &mut Lent) -> (Answer, Vec<u8>) {
        let mut buffer = Vec::new();
        let answer = match self {
            Call::Run(budget) => machine.run(lent, *budget),
            Call::Deliver(bytes) => machine.deliver(lent, bytes),
            Call::Drain(length) => {
                buffer = vec![0; *length];
                machine.drain(lent, &mut buffer)
            }
            Call::Raise(code) => machine.raise(lent, *code),
            Call::SetRegister(reg, word) => machine.set_register(lent, *reg, *word),
        };
        (answer, buffer)
    }
}
