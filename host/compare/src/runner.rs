//! Programs for the runner: its sizes and start row, and no cell touched from 2,048 on.

use judge::Judge;
pub use layout::runner::BUDGET;
use layout::runner::{CELLS as RUNNER_CELLS, OUTPUT, QUEUE};
use layout::{Cell, Row, at, cell, row};
use list::{Answer, CELLS, Call, Case, Lent, Machine, Plain};

use crate::forms::*;
use crate::programs::{Layout, put_code, put_handler};
use crate::rng::Rng;

/// How a program for the runner ends.
pub struct Ended {
    pub answer: Answer,
    /// A step read an operand outside the cells, where the original has no answer.
    pub read_outside: bool,
}

/// A program that the runner runs as the judge does; none where the draw touched a cell from 2,048 on,
/// or that has not stopped when the limit, in steps, is at an end.
pub fn draw(rng: &mut Rng, judge: &mut Judge, limit: u64) -> Option<(Case, Ended)> {
    let layout = Layout {
        code: rng.pick(&[0, 300, 1_000]),
        length: rng.between(4, 40),
        data: rng.pick(&[90, 700, 1_900]),
        any_once_in: rng.pick(&[3, 20, 200]),
    };
    let mut case = start();
    put_code(rng, &layout, &mut case);
    put_handler(rng, &layout, &mut case);
    case.row[at::PC] = layout.code;
    case.row[at::SP] = rng.pick(&[0, 1, 400, 400, 400, 1_500, 2_047, layout.data + 8]);
    case.row[at::SR] = rng.pick(&[0, 0, 256, 512, 512, 512, 768, 14, 526, -1]);
    if rng.below(3) > 0 {
        count_down(rng, &layout, &mut case);
    }
    if case.cells.iter().any(|(address, _)| *address >= RUNNER_CELLS) {
        return None;
    }
    same_in_the_runner(judge, &case, limit).map(|ended| (case, ended))
}

/// An empty machine of the runner's sizes, run on its budget.
pub fn start() -> Case {
    Case {
        queue: vec![0; QUEUE],
        output: vec![0; OUTPUT],
        calls: vec![Call::Run(BUDGET)],
        for_runner: true,
        ..Case::default()
    }
}

/// The last lines count a cell down and go round again, so that the program ends by itself.
fn count_down(rng: &mut Rng, layout: &Layout, case: &mut Case) {
    let counter = layout.data + 16;
    let end = layout.code + layout.length;
    let lines = [
        instruction(LD, dir(counter), reg(A)),
        instruction(SUB, imm(1), reg(A)),
        instruction(ST, reg(A), dir(counter)),
        instruction(JNE, imm(layout.code), NONE),
        instruction(RESET, NONE, NONE),
    ];
    for (i, line) in lines.into_iter().enumerate() {
        case.put(end as usize + i, line);
    }
    case.put(counter as usize, cell::word(rng.between(1, 60)));
    let last = end as usize - 1;
    case.put(last, instruction(NOP, NONE, NONE));
}

/// The judge's answer, where no step touches a cell from 2,048 on and 2,048 cells give the same.
pub fn same_in_the_runner(judge: &mut Judge, case: &Case, limit: u64) -> Option<Ended> {
    let lent = case.lent();
    judge.put(&lent.cells, &lent.queue, &lent.output, &lent.row);
    let ended = run_below(judge, limit)?;
    let mut small = Lent { cells: lent.cells[..cell::LENGTH * RUNNER_CELLS].to_vec(), ..lent };
    let same = Plain.run(&mut small, BUDGET).without_empty() == ended.answer
        && small.row == *judge.row()
        && small.output == judge.output()
        && small.cells == judge.cells()[..cell::LENGTH * RUNNER_CELLS];
    same.then_some(ended)
}

/// Runs the judge on the runner's budget; none once a step touches a cell from 2,048 on.
fn run_below(judge: &mut Judge, limit: u64) -> Option<Ended> {
    let mut ended = Ended { answer: Answer::DONE, read_outside: false };
    while ended.answer.count < BUDGET.min(limit) {
        let before = *judge.row();
        let cell = crate::driver::fetched(judge);
        let step = judge.step();
        ended.read_outside |= step.read_outside;
        if touches(&before, judge.row(), cell) {
            return None;
        }
        if !step.completed {
            (ended.answer.stop, ended.answer.detail) = (step.stop, step.detail);
            return Some(ended);
        }
        ended.answer.count += 1;
    }
    (limit >= BUDGET).then_some(ended)
}

/// Whether pc, the stack or an operand, by the registers before or after, names a cell from 2,048 on.
fn touches(before: &Row, after: &Row, cell: Option<Cell>) -> bool {
    let mut moved = *before;
    moved[at::PC] += 1;
    let mut places = vec![before[at::PC], before[at::SP], after[at::SP]];
    if let Some([tag, first, second]) = cell {
        let (Form { m1, m2, .. }, (r1, r2)) = split(tag);
        for row in [&moved, after] {
            places.push(named(row, m1, r1, first));
            places.push(named(row, m2, r2, second));
        }
    }
    places.iter().any(|place| (RUNNER_CELLS as i64..CELLS as i64).contains(place))
}

/// The address of a memory operand, and 0 for any other.
fn named(row: &Row, mode: i64, base: i64, number: i64) -> i64 {
    let word = match base {
        A => row::cell(row, at::A)[1],
        B => row::cell(row, at::B)[1],
        PC => row[at::PC],
        SP => row[at::SP],
        _ => row[at::SR],
    };
    match mode {
        DIR => number,
        IND => word,
        IDX => word.wrapping_add(number),
        _ => 0,
    }
}
