//! Cases with the expected numbers written out by hand from documents 01 and 02: everything not named stays as it was.

mod audit;
mod calls;
mod console;
mod course;
mod empty;
mod fence;
mod outside;
mod rules;
mod timer;

use layout::memory::{INTERRUPT_EXCEPTION, INTERRUPT_HANDLER, INTERRUPT_PC_SAVE, INTERRUPT_SR_SAVE};
use layout::{Cell, code, refusal, row, stop};
use list::{Answer, Call, Case, Lent};

use crate::harness::Harness;

pub use layout::at;
pub use layout::cell::word;
pub use layout::limit::CYCLES_MOST as MOST;
pub use layout::sr::{INTERRUPT_ENABLE as I, NEGATIVE as N, OVERFLOW as V, SUPERVISOR as S, ZERO as Z};

/// A case with what is due after it.
#[derive(Clone)]
pub struct Directed {
    pub name: String,
    pub case: Case,
    answers: Vec<Answer>,
    after: Lent,
}

/// All of machines without fence and timer, in a fixed order: the recorded list has them.
pub fn cases() -> Vec<Directed> {
    let mut cases = course::cases();
    cases.extend(rules::cases());
    cases.extend(console::cases());
    cases.extend(audit::cases());
    cases.extend(calls::cases());
    cases.extend(outside::cases());
    cases.extend(empty::cases());
    cases
}

/// The count of cases checked on the judge and on the other machine.
pub fn check(harness: &mut Harness) -> Result<usize, String> {
    check_each(harness, &cases())
}

/// The same of those with a fence.
pub fn check_fenced(harness: &mut Harness) -> Result<usize, String> {
    check_each(harness, &fence::cases())
}

/// The same of those with the timer.
pub fn check_timed(harness: &mut Harness) -> Result<usize, String> {
    check_each(harness, &timer::cases())
}

fn check_each(harness: &mut Harness, cases: &[Directed]) -> Result<usize, String> {
    for directed in cases {
        let name = &directed.name;
        let answers = harness.check(&directed.case).map_err(|why| format!("{name}: {why}"))?;
        if answers != directed.answers {
            return Err(format!("{name}: {answers:?} where {:?} is due", directed.answers));
        }
        if let Some(what) = difference(harness.lent(), &directed.after) {
            return Err(format!("{name}: {what}"));
        }
    }
    Ok(cases.len())
}

fn difference(left: &Lent, due: &Lent) -> Option<String> {
    if left.row != due.row {
        return Some(format!("row {:?} where {:?} is due", left.row, due.row));
    }
    let cell = (0..list::CELLS).find(|address| left.cell(*address) != due.cell(*address));
    if let Some(address) = cell {
        let (is, due) = (left.cell(address), due.cell(address));
        return Some(format!("cell {address} is {is:?} where {due:?} is due"));
    }
    (left.queue != due.queue || left.output != due.output).then(|| "bytes of queue or output".into())
}

/// A machine at pc 10 with the instruction there, sp 1,000, sr 0, a queue of 4 and an output record of 2.
pub fn at_10(name: &str, instruction: Cell) -> Directed {
    machine(name).cell(10, instruction).row(at::PC, 10).row(at::SP, 1_000)
}

/// An empty machine with a queue of 4 and an output record of 2.
pub fn machine(name: &str) -> Directed {
    let case = Case { queue: vec![0; 4], output: vec![0; 2], ..Case::default() };
    let after = case.lent();
    Directed { name: name.into(), case, answers: Vec::new(), after }
}

impl Directed {
    /// Before: a cell.
    pub fn cell(mut self, address: usize, cell: Cell) -> Self {
        self.case.put(address, cell);
        self.after.put_cell(address, cell);
        self
    }

    /// Before: one number of the row.
    pub fn row(mut self, place: usize, number: i64) -> Self {
        self.case.row[place] = number;
        self.after.row[place] = number;
        self
    }

    /// Before: register a or b.
    pub fn register(mut self, place: usize, cell: Cell) -> Self {
        row::put_cell(&mut self.case.row, place, cell);
        self.then_register(place, cell)
    }

    /// Before: the queue's bytes, its start and count.
    pub fn queue(mut self, bytes: &[u8], start: i64, count: i64) -> Self {
        self.case.queue = bytes.to_vec();
        self.after.queue = bytes.to_vec();
        self.row(at::QUEUE_START, start).row(at::QUEUE_COUNT, count)
    }

    /// Before: the output record's bytes and count.
    pub fn output(mut self, bytes: &[u8], count: i64) -> Self {
        self.case.output = bytes.to_vec();
        self.after.output = bytes.to_vec();
        self.row(at::OUTPUT_COUNT, count)
    }

    /// One step that is completed.
    pub fn done(self) -> Self {
        self.run(1, stop::BUDGET_SPENT, 0, 1)
    }

    /// One step that is not.
    pub fn stops(self, stop: u64, detail: u64) -> Self {
        self.run(1, stop, detail, 0)
    }

    pub fn run(self, budget: u64, stop: u64, detail: u64, count: u64) -> Self {
        self.call(Call::Run(budget), Answer { refusal: refusal::NONE, stop, detail, count, empty: 0 })
    }

    /// The last run took so many words from empty cells.
    pub fn empty(mut self, empty: u64) -> Self {
        self.answers.last_mut().expect("a run").empty = empty;
        self
    }

    pub fn call(mut self, call: Call, answer: Answer) -> Self {
        self.case.calls.push(call);
        self.answers.push(answer);
        self
    }

    /// After: one number of the row.
    pub fn then(mut self, place: usize, number: i64) -> Self {
        self.after.row[place] = number;
        self
    }

    /// After: register a or b.
    pub fn then_register(mut self, place: usize, cell: Cell) -> Self {
        row::put_cell(&mut self.after.row, place, cell);
        self
    }

    /// After: a cell.
    pub fn then_cell(mut self, address: usize, cell: Cell) -> Self {
        self.after.put_cell(address, cell);
        self
    }

    pub fn then_queue(mut self, place: usize, byte: u8) -> Self {
        self.after.queue[place] = byte;
        self
    }

    pub fn then_output(mut self, place: usize, byte: u8) -> Self {
        self.after.output[place] = byte;
        self
    }

    /// After: pc and cycles.
    pub fn then_at(self, pc: i64, cycles: i64) -> Self {
        self.then(at::PC, pc).then(at::CYCLES, cycles)
    }

    /// After: an exception was entered from this pc and sr.
    pub fn then_entered(self, pc: i64, sr: i64, code: i64) -> Self {
        let entered = if code == code::HARDWARE_INTERRUPT as i64 { (sr | S) & !I } else { sr | S };
        self.then_cell(INTERRUPT_PC_SAVE as usize, word(pc))
            .then_cell(INTERRUPT_SR_SAVE as usize, word(sr))
            .then_cell(INTERRUPT_EXCEPTION as usize, word(code))
            .then(at::PC, INTERRUPT_HANDLER.into())
            .then(at::SR, entered)
    }
}
