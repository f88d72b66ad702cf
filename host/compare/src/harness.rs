//! The judge and another machine, side by side: each call is made on both and everything lent is compared.
//!
//! Steps that read an operand outside the cells, and no others, are left out of the comparison with the original, which stops there:
//! they are counted apart, and held to the original's stop with its own entry of code 5 after it (`Judge`). So are steps that a fence
//! stops, and the timer's part in a step (`timer`): where their write is due is told from the machine before (`taken`), and there the original's own entry of code 5 is made.
//!
//! A run is taken step by step, the other machine on a budget of 1, and then once more by the other machine on
//! the whole budget. The judge's cells are compared as the numbers that it keeps; nothing is converted. The original does not count the
//! words taken from empty cells: their due count is told from the machine before the step (`taken`).

use judge::{Judge, Step};
use layout::at;
use layout::cell::{self, EMPTY};
use layout::memory::SAVES;
use list::{Answer, CELLS, Call, Case, Lent, Machine};

use crate::coverage::Coverage;
use crate::driver::{Driver, fetched};
use crate::fence;
use crate::invariants::{self, Before};
use crate::taken;
use crate::timer;

/// The judge's numbers are compared with the original in full after so many steps, and after each longer case.
const VERIFY_EVERY: u64 = 256;

pub struct Harness<'m> {
    driver: Driver,
    other: &'m mut dyn Machine,
    lent: Lent,
    pub coverage: Coverage,
    pub taken: taken::Coverage,
    pub fence: fence::Coverage,
    pub timer: timer::Coverage,
    pub steps: u64,
    /// Of these, steps that read an operand outside the cells.
    pub read_outside: u64,
    pub calls: u64,
}

impl<'m> Harness<'m> {
    pub fn new(other: &'m mut dyn Machine) -> Self {
        Self {
            driver: Driver::default(),
            other,
            lent: Lent::zero(CELLS, 1, 0),
            coverage: Coverage::default(),
            taken: taken::Coverage::default(),
            fence: fence::Coverage::default(),
            timer: timer::Coverage::default(),
            steps: 0,
            read_outside: 0,
            calls: 0,
        }
    }

    /// The same machine with counts of its own.
    pub fn apart(&mut self) -> Harness<'_> {
        Harness::new(self.other)
    }

    /// Makes the case's calls; the answers, or what differed first.
    pub fn check(&mut self, case: &Case) -> Result<Vec<Answer>, String> {
        self.start(case);
        self.driver.judge.verify_row()?;
        let answers: Result<Vec<_>, _> = case.calls.iter().map(|call| self.call(call)).collect();
        if case.calls != [Call::Run(1)] {
            self.driver.judge.verify()?;
        }
        answers
    }

    pub fn lent(&self) -> &Lent {
        &self.lent
    }

    fn start(&mut self, case: &Case) {
        for address in self.driver.start(case) {
            self.lent.put_cell(address, EMPTY);
        }
        for (address, cell) in &case.cells {
            self.lent.put_cell(*address, *cell);
        }
        self.lent.queue.clone_from(&case.queue);
        self.lent.output.clone_from(&case.output);
        self.lent.row = case.row;
    }

    fn call(&mut self, call: &Call) -> Result<Answer, String> {
        self.calls += 1;
        if let Call::Run(budget) = call {
            return self.run(*budget);
        }
        let (answer, buffer) = call.make(self.other, &mut self.lent);
        let (due, due_buffer) = self.driver.call(call);
        if answer != due || buffer != due_buffer {
            return Err(format!("{call:?}: answered {answer:?}, the judge {due:?}"));
        }
        self.compare()?;
        Ok(due)
    }

    fn run(&mut self, budget: u64) -> Result<Answer, String> {
        let mut whole = (budget != 1).then(|| self.lent.clone());
        let mut answer = Answer::DONE;
        while answer.count < budget {
            let step = self.step()?;
            if step.count == 0 {
                (answer.stop, answer.detail) = (step.stop, step.detail);
                break;
            }
            answer.count += 1;
            answer.empty += step.empty;
        }
        if let Some(whole) = &mut whole {
            let at_once = self.other.run(whole, budget);
            if at_once != answer || *whole != self.lent {
                return Err(format!("on the whole budget {budget}: {at_once:?}, by steps {answer:?}"));
            }
        }
        Ok(answer)
    }

    /// The answer of a run on a budget of 1.
    fn step(&mut self) -> Result<Answer, String> {
        let before = self.before();
        let events = self.events(&before);
        let written = self.written(&before);
        let port = before.fetched.and_then(|cell| timer::timer_port(&self.driver.judge, cell));
        let [fetched, saved] = self.empty_around();
        let step = self.driver.step();
        self.steps += 1;
        self.read_outside += u64::from(step.read_outside);
        let answer = self.other.run(&mut self.lent, 1);
        let due = due(&step, taken::count(&events));
        if answer != due {
            return Err(format!("answered {answer:?}, the judge {due:?}"));
        }
        self.compare()?;
        let judge = &self.driver.judge;
        invariants::check(&before, &step, judge.row(), judge.cells(), judge.changed())?;
        if before.row[at::FENCE] > 0 {
            self.fence.count(&before.row, before.fetched, written, &step, judge.row());
        }
        if step.timed {
            let Before { row, fetched } = &before;
            self.timer.count(&timer::Taken {
                before: row,
                fetched: *fetched,
                port,
                step: &step,
                after: judge.row(),
            });
        }
        self.coverage.count(before.fetched, &step)?;
        self.taken.count(before.fetched, &events, &step)?;
        self.taken.count_around(fetched, saved && step.entered.is_some());
        if self.steps.is_multiple_of(VERIFY_EVERY) {
            self.driver.judge.verify()?;
        }
        Ok(due)
    }

    fn events(&self, before: &Before) -> Vec<taken::Event> {
        let judge = &self.driver.judge;
        before.fetched.map_or(Vec::new(), |cell| taken::events(judge.row(), judge.cells(), cell))
    }

    /// The address that the instruction of a machine with a fence writes, or would.
    fn written(&self, before: &Before) -> Option<i64> {
        let judge = &self.driver.judge;
        before
            .fetched
            .filter(|_| before.row[at::FENCE] > 0)
            .and_then(|cell| taken::written(judge.row(), judge.cells(), cell))
    }

    fn before(&self) -> Before {
        Before { row: *self.driver.judge.row(), fetched: fetched(&self.driver.judge) }
    }

    /// Whether the cell that is fetched is empty, and whether one of those that an entry writes over is.
    fn empty_around(&self) -> [bool; 2] {
        let judge = &self.driver.judge;
        [is_empty(judge, judge.row()[at::PC]), SAVES.iter().any(|address| is_empty(judge, (*address).into()))]
    }

    fn compare(&self) -> Result<(), String> {
        let (judge, lent) = (&self.driver.judge, &self.lent);
        if *judge.row() != lent.row {
            return Err(format!("row {:?}, the judge {:?}", lent.row, judge.row()));
        }
        if judge.cells() != lent.cells {
            return Err(first_cell(judge, lent));
        }
        if judge.queue() != lent.queue {
            return Err("queue bytes differ".into());
        }
        if judge.output() != lent.output {
            return Err("output bytes differ".into());
        }
        Ok(())
    }
}

/// Whether the cell at an address is there and empty.
fn is_empty(judge: &Judge, address: i64) -> bool {
    usize::try_from(address).is_ok_and(|at| at < CELLS && cell::get(judge.cells(), at) == EMPTY)
}

fn due(step: &Step, taken: u64) -> Answer {
    let (count, empty) = if step.completed { (1, taken) } else { (0, 0) };
    Answer { stop: step.stop, detail: step.detail, count, empty, ..Answer::DONE }
}

fn first_cell(judge: &Judge, lent: &Lent) -> String {
    let place = judge.cells().iter().zip(&lent.cells).position(|(x, y)| x != y).unwrap_or(0);
    let address = place / cell::LENGTH;
    let due = cell::get(judge.cells(), address);
    format!("cell {address} is {:?}, the judge's {due:?}", lent.cell(address))
}
