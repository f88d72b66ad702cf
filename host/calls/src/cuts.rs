//! "Budgets that add" (document 02, Card 12): a run on one budget, and the same budget cut into runs with nothing between them, until one
//! does not end with stop 0. The library is held to itself in all that is lent, stop, detail and summed counts.

use draws::edges;
use draws::forms::*;
use draws::rng::Rng;
use layout::memory::{INTERRUPT_HANDLER, SERIAL_DATA_PORT};
use layout::sr::{INTERRUPT_ENABLE, SUPERVISOR};
use layout::stop::{BUDGET_SPENT, CYCLES_FULL};
use layout::{Cell, at, cell, refusal, row};

use crate::accepted::{self, put};
use crate::anything;
use crate::trial::{Call, Lent, Trial};

const MACHINES: usize = 12_000;
/// Each machine's budget is cut so often, and is at most so large.
const CUTS: usize = 4;
const MOST: i64 = 120;
/// A loop's first cell and its length; it stands below the handler, and its data behind.
const CODE: usize = 0;
const LENGTH: usize = 8;
const DATA: i64 = 220;
const PORT: i64 = SERIAL_DATA_PORT as i64;

#[derive(Default)]
struct Seen {
    /// Runs that another one followed.
    pauses: u64,
    /// Of these, those that left I and the pending mark set: no poll is due before the next instruction.
    due: u64,
    steps: u64,
    empty: u64,
    refused: u64,
    stops: [u64; CYCLES_FULL as usize + 1],
}

/// A line on what was cut, or the first difference.
pub fn check(seed: u64) -> Result<String, String> {
    let (mut rng, mut seen) = (Rng::new(seed), Seen::default());
    for _ in 0..MACHINES {
        let trial = draw(&mut rng);
        let mut whole = trial.lent.clone();
        let once = run(&mut whole, trial.number);
        seen.count(&once);
        for _ in 0..CUTS {
            let budgets = cut(&mut rng, trial.number);
            let mut paused = trial.lent.clone();
            let sum = in_turn(&mut paused, &budgets, &mut seen);
            if sum != once || paused != whole {
                return Err(format!(
                    "{}: on {budgets:?} {sum:?}, at once {once:?}, or something is left otherwise",
                    trial.told()
                ));
            }
        }
    }
    seen.line()
}

impl Seen {
    fn count(&mut self, once: &z33::Ran) {
        if once.refusal != refusal::NONE {
            self.refused += 1;
            return;
        }
        self.stops[once.stop as usize] += 1;
        self.steps += once.steps;
        self.empty += once.empty;
    }

    /// Fails where a kind of pause or of end was not met.
    fn line(&self) -> Result<String, String> {
        let Self { pauses, due, steps, empty, refused, stops } = self;
        let line = format!(
            "{MACHINES} budgets, {steps} steps and {empty} words from empty cells, each cut {CUTS} times with {pauses} pauses, {due} of them \
             with I and the pending mark set, and run alike; {refused} refused, stops 0 to 7: {stops:?}"
        );
        let least = [*pauses, *due, *empty, *refused].into_iter().chain(*stops).min();
        if least > Some(0) { Ok(line) } else { Err(format!("some are missing: {line}")) }
    }
}

/// Mostly a loop, with exceptions, a handler that returns, and words of empty cells; or any machine.
fn draw(rng: &mut Rng) -> Trial {
    let mut trial = if rng.once_in(4) { anything::draw(rng, Call::Run) } else { draw_loop(rng) };
    trial.number = rng.between(0, MOST) as u64;
    trial
}

fn draw_loop(rng: &mut Rng) -> Trial {
    let mut trial = accepted::draw(rng, Call::Run);
    put_loop(rng, &mut trial);
    trial
}

/// Puts a loop into a machine that a run accepts.
pub fn put_loop(rng: &mut Rng, trial: &mut Trial) {
    for address in CODE..CODE + LENGTH {
        let line = instruction_of(rng);
        put(trial, address, line);
    }
    put(trial, CODE + LENGTH, instruction(JMP, imm(CODE as i64), NONE));
    let handler = INTERRUPT_HANDLER as usize;
    for (address, line) in
        [(handler, instruction(NOP, NONE, NONE)), (handler + 1, instruction(RTI, NONE, NONE))]
    {
        put(trial, address, line);
    }
    let numbers = &mut trial.lent.row;
    row::put_cell(numbers, at::A, word_or_empty(rng));
    row::put_cell(numbers, at::B, word_or_empty(rng));
    numbers[at::PC] = CODE as i64;
    numbers[at::SR] = rng.pick(&[0, SUPERVISOR, INTERRUPT_ENABLE, SUPERVISOR | INTERRUPT_ENABLE]);
    if rng.once_in(8) {
        set_i_and_trap(trial);
    }
}

/// The first step sets I beside the pending mark and then, as its new address is outside, enters code 5, so that it does not poll: a run
/// that polled at its start would show behind it.
fn set_i_and_trap(trial: &mut Trial) {
    let (register, below) = (reg(SR), SUPERVISOR - DATA);
    put(trial, CODE, instruction(SWAP, idx(SR, -below), register));
    put(trial, DATA as usize, cell::word(SUPERVISOR | INTERRUPT_ENABLE));
    trial.lent.row[at::SR] = SUPERVISOR;
    trial.lent.row[at::PENDING] = 1;
}

fn word_or_empty(rng: &mut Rng) -> Cell {
    if rng.once_in(2) { cell::EMPTY } else { cell::word(rng.between(-9, 9)) }
}

fn instruction_of(rng: &mut Rng) -> Cell {
    let (register, data) = (reg(rng.between(A, B)), dir(DATA + rng.between(0, 20)));
    match rng.below(16) {
        0..=4 => instruction(rng.pick(&[ADD, SUB, CMP, XOR]), data, register),
        5..=6 => instruction(LD, data, register),
        7..=8 => instruction(ST, register, data),
        9 => instruction(DIV, data, register),
        10..=11 => instruction(TRAP, NONE, NONE),
        12 => instruction(OUT, imm(rng.between(0, 255)), dir(PORT)),
        13 => instruction(IN, dir(PORT), register),
        14 => instruction(NOP, NONE, NONE),
        _ => edges::instruction(rng),
    }
}

/// Budgets that add up to this one, some of them 0.
fn cut(rng: &mut Rng, budget: u64) -> Vec<u64> {
    let mut budgets = Vec::new();
    let mut left = budget;
    loop {
        let most = rng.pick(&[0, 1, 1, 3, 20, MOST as u64]);
        let part = most.min(left);
        budgets.push(part);
        left -= part;
        if left == 0 && rng.once_in(2) {
            return budgets;
        }
    }
}

fn run(lent: &mut Lent, budget: u64) -> z33::Ran {
    let Lent { cells, queue, output, row, .. } = lent;
    z33::run(&mut cells[..], &mut queue[..], &mut output[..], &mut row[..], budget)
}

/// The runs one behind the other, and their counts summed.
fn in_turn(lent: &mut Lent, budgets: &[u64], seen: &mut Seen) -> z33::Ran {
    let mut sum = run(lent, budgets[0]);
    for &budget in &budgets[1..] {
        if sum.stop != BUDGET_SPENT {
            break;
        }
        if sum.refusal == refusal::NONE {
            seen.pauses += 1;
            let numbers = &lent.row;
            seen.due += u64::from(numbers[at::SR] & INTERRUPT_ENABLE != 0 && numbers[at::PENDING] == 1);
        }
        let next = run(lent, budget);
        sum = z33::Ran { steps: sum.steps + next.steps, empty: sum.empty.saturating_add(next.empty), ..next };
    }
    sum
}
