//! The timer (document 02, Card 14) put around the judge's step: the original has none. What it does to the machine is the original's own
//! entry of code 0; its three numbers are told here, from the machine before the step and what the step came to, and `plain` is not asked.

mod coverage;
mod draw;

pub use coverage::{Coverage, Taken};
pub use draw::{Singles, program, put};

use judge::{Judge, Raised, Step};
use layout::cell::{self, word};
use layout::limit::CYCLES_MOST;
use layout::memory::{TIMER_INTERVAL_PORT, TIMER_REMAINING_PORT};
use layout::sr::INTERRUPT_ENABLE;
use layout::{Cell, Row, at, row, stop};

use crate::coverage::{Outcome, outcome};
use crate::driver;
use crate::forms::*;
use crate::taken;

const INTERVAL_PORT: i64 = TIMER_INTERVAL_PORT as i64;
const REMAINING_PORT: i64 = TIMER_REMAINING_PORT as i64;

/// The judge's step; where the timer has a part in it, it says so.
pub fn step(judge: &mut Judge) -> Step {
    let (before, cell) = (*judge.row(), driver::fetched(judge));
    let port = cell.and_then(|cell| timer_port(judge, cell));
    if port.is_none() && is_idle(&before) {
        return driver::step(judge);
    }
    let kept = (before[at::CYCLES] > CYCLES_MOST - 3).then(|| Kept::of(judge));
    let step = match port {
        Some(taken::Port { port, word: None }) => {
            read(judge, before[if port == INTERVAL_PORT { at::TIMER_INTERVAL } else { at::TIMER_REMAINING }])
        }
        _ => driver::step(judge),
    };
    let step = Step { timed: true, ..step };
    pass(judge, cell, port, &step);
    poll(judge, step, kept)
}

/// Off, and its mark not set.
pub fn is_idle(row: &Row) -> bool {
    row[at::TIMER_INTERVAL] == 0 && row[at::TIMER_MARK] == 0
}

/// What the step does at one of the two ports.
pub fn timer_port(judge: &Judge, cell: Cell) -> Option<taken::Port> {
    let port = taken::port(judge.row(), judge.cells(), cell)?;
    matches!(port.port, INTERVAL_PORT | REMAINING_PORT).then_some(port)
}

/// The original reads 0 at these ports. So it is asked for an `ld` into the same register, which costs as much, of a cell that holds the
/// port's word for so long.
fn read(judge: &mut Judge, number: i64) -> Step {
    let pc = judge.row()[at::PC] as usize;
    let spare = if pc == 300 { 301 } else { 300 };
    let (own, held) = (cell::get(judge.cells(), pc), cell::get(judge.cells(), spare));
    let (_, (_, register)) = split(own[0]);
    let instead = instruction(LD, dir(spare as i64), reg(register));
    judge.put_cell(spare, word(number));
    judge.put_cell(pc, instead);
    let step = judge.step();
    judge.put_cell(spare, held);
    // an entry may have written over it
    if cell::get(judge.cells(), pc) == instead {
        judge.put_cell(pc, own);
    }
    step
}

/// "each completed instruction, before the poll, takes its cost off what remains, and each exception step its one cycle; a handler entry
/// by code 0 or by raise takes off none." "A step that writes port 120 takes nothing off."
fn pass(judge: &mut Judge, cell: Option<Cell>, port: Option<taken::Port>, step: &Step) {
    let cycles = match outcome(step) {
        Outcome::Done | Outcome::Interrupt | Outcome::Unhandled(0) => {
            if let Some(taken::Port { port: INTERVAL_PORT, word: Some(word) }) = port {
                let interval = word.max(0);
                judge.put_added(at::TIMER_INTERVAL, interval);
                judge.put_added(at::TIMER_REMAINING, interval);
                return;
            }
            cell.and_then(judge::cost).expect("an instruction was completed") as i64
        }
        Outcome::Entered(_) => 1,
        _ => return,
    };
    let interval = judge.row()[at::TIMER_INTERVAL];
    let left = judge.row()[at::TIMER_REMAINING] - cycles;
    if interval > 0 && left > 0 {
        judge.put_added(at::TIMER_REMAINING, left);
    } else if interval > 0 {
        judge.put_added(at::TIMER_REMAINING, interval);
        judge.put_added(at::TIMER_MARK, 1);
    }
}

/// "The poll takes the console's mark first and otherwise the timer's."
fn poll(judge: &mut Judge, step: Step, kept: Option<Kept>) -> Step {
    let row = judge.row();
    if outcome(&step) != Outcome::Done || row[at::SR] & INTERRUPT_ENABLE == 0 || row[at::TIMER_MARK] == 0 {
        return step;
    }
    judge.put_added(at::TIMER_MARK, 0);
    let Raised { stop, detail } = judge.interrupt();
    if stop == stop::CYCLES_FULL {
        kept.expect("the cycles are near their limit").put_back(judge);
    }
    match stop {
        stop::ENTERED => Step { entered: Some(0), ..step },
        _ => Step { stop, detail, completed: false, ..step },
    }
}

/// A whole machine.
struct Kept {
    cells: Vec<i64>,
    queue: Vec<u8>,
    output: Vec<u8>,
    row: Row,
}

impl Kept {
    fn of(judge: &Judge) -> Self {
        Self {
            cells: judge.cells().to_vec(),
            queue: judge.queue().to_vec(),
            output: judge.output().to_vec(),
            row: *judge.row(),
        }
    }

    fn put_back(&self, judge: &mut Judge) {
        judge.put(&self.cells, &self.queue, &self.output, &self.row);
    }
}

/// Interval, remaining and mark.
pub fn numbers(row: &Row) -> [i64; 3] {
    row::TIMER.map(|place| row[place])
}
