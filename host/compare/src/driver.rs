//! The judge with one case after another put on it; only the cells that were used are emptied between them.

use judge::{Judge, Step};
use layout::cell::{self, EMPTY, is_instruction};
use layout::{Cell, at, refusal};
use list::{Answer, CELLS, Call, Case};

use crate::{taken, timer};

pub struct Driver {
    pub judge: Judge,
    /// Addresses that may hold something: the case's cells and those written since.
    used: Vec<usize>,
    /// Steps of this case that are no answers of the original: they read an operand outside the cells, or the timer had a part in them.
    pub not_its_own: u64,
}

impl Default for Driver {
    fn default() -> Self {
        Self { judge: Judge::empty(), used: Vec::new(), not_its_own: 0 }
    }
}

impl Driver {
    /// Empties what the last case used and puts this one in its place; the addresses emptied.
    pub fn start(&mut self, case: &Case) -> Vec<usize> {
        let emptied = std::mem::take(&mut self.used);
        for address in &emptied {
            self.judge.put_cell(*address, EMPTY);
        }
        for (address, cell) in &case.cells {
            self.judge.put_cell(*address, *cell);
            self.used.push(*address);
        }
        self.judge.put_rest(&case.queue, &case.output, &case.row);
        self.not_its_own = 0;
        emptied
    }

    pub fn step(&mut self) -> Step {
        let step = timer::step(&mut self.judge);
        self.used.extend_from_slice(self.judge.changed());
        self.not_its_own += u64::from(step.read_outside || step.timed);
        step
    }

    /// The judge's answer to a call, and its drain buffer.
    pub fn call(&mut self, call: &Call) -> (Answer, Vec<u8>) {
        let answered = match call {
            Call::Run(budget) => (self.run(*budget), Vec::new()),
            call => other(&mut self.judge, call),
        };
        self.used.extend_from_slice(self.judge.changed());
        answered
    }

    fn run(&mut self, budget: u64) -> Answer {
        let mut answer = Answer::DONE;
        while answer.count < budget {
            let step = self.step();
            if !step.completed {
                return Answer { stop: step.stop, detail: step.detail, ..answer };
            }
            answer.count += 1;
        }
        answer
    }
}

/// The judge's step, the timer apart; where its write would fall below the fence, it ends there. What is told apart from any machine is that place alone.
pub fn step(judge: &mut Judge) -> Step {
    let there = fetched(judge).and_then(|cell| taken::at_fence(judge.row(), judge.cells(), cell));
    match there {
        Some(there) => judge.step_to_fence(&there),
        None => judge.step(),
    }
}

/// The instruction at pc, if there is one.
pub fn fetched(judge: &Judge) -> Option<Cell> {
    let pc = usize::try_from(judge.row()[at::PC]).ok().filter(|pc| *pc < CELLS)?;
    Some(cell::get(judge.cells(), pc)).filter(|cell| is_instruction(*cell))
}

/// A call that takes no step.
fn other(judge: &mut Judge, call: &Call) -> (Answer, Vec<u8>) {
    let mut buffer = Vec::new();
    let answer = match call {
        Call::Run(_) => unreachable!("run takes steps"),
        Call::Deliver(bytes) => Answer::refused(judge.deliver(bytes)),
        Call::Drain(length) => {
            buffer = vec![0; *length];
            drained(judge, &mut buffer)
        }
        Call::Raise(code) => match judge.raise(*code) {
            Some(raised) => Answer { stop: raised.stop, detail: raised.detail, ..Answer::DONE },
            None => Answer::refused(refusal::CODE),
        },
        Call::SetRegister(reg, word) => {
            let taken = judge.set_register(*reg, *word);
            Answer::refused(if taken { refusal::NONE } else { refusal::REGISTER })
        }
    };
    (answer, buffer)
}

/// A buffer that is too short is refused before anything is drained.
fn drained(judge: &mut Judge, buffer: &mut [u8]) -> Answer {
    if (buffer.len() as i64) < judge.row()[at::OUTPUT_COUNT] {
        return Answer::refused(refusal::DRAIN);
    }
    let bytes = judge.drain();
    buffer[..bytes.len()].copy_from_slice(&bytes);
    Answer { count: bytes.len() as u64, ..Answer::DONE }
}
