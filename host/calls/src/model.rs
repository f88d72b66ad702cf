//! The eight calls in plain Rust, written from documents 01 and 02: what each answers and leaves for anything lent.
//! The tests see what is lent and cannot change it, so a refusal changes nothing. What they accept, run, deliver, drain,
//! set register and raise, `plain` does.

use layout::limit::{CELLS_MOST, OUTPUT_MOST, QUEUE_MOST};
use layout::{Row, at, cell, refusal};

use crate::journal::ring;
use crate::refusals::{self as test, Tested};
use crate::trial::{Answer, Buffer, Call, Lent, REST, Trial};

/// The answer; `lent` is what the trial lends, and becomes what the call leaves.
pub fn answer(trial: &Trial, lent: &mut Lent) -> Answer {
    match tested(trial, lent) {
        Ok(()) => Answer::done(performed(trial, lent)),
        Err(refusal) => Answer::refused(refusal),
    }
}

fn tested(trial: &Trial, lent: &Lent) -> Tested {
    own_tested(trial, lent)?;
    match trial.call {
        // "fresh tests its length only"
        Call::FreshJournal => test::journal_length(lent.journal.len()),
        Call::Back => {
            test::journal(&lent.journal)?;
            test::kept_record(&lent.journal, lent.cells.len() / cell::LENGTH)?;
            test::kept(&lent.journal)
        }
        call if call.is_lent(Buffer::Journal) => test::journal(&lent.journal),
        _ => Ok(()),
    }
}

/// By what the call tests without a journal.
fn own_tested(trial: &Trial, lent: &Lent) -> Tested {
    let number = trial.number;
    match trial.call.own() {
        Call::Fresh => {
            test::cells(lent.cells.len())?;
            test::row_length(lent.row.len())
        }
        Call::Run => run_tested(&lent.cells, &lent.queue, &lent.output, &lent.row),
        Call::Deliver => {
            test::queue(lent.queue.len())?;
            row(trial.call, lent)?;
            test::delivered(lent.bytes.len(), lent.queue.len(), lent.row[at::QUEUE_COUNT])
        }
        Call::Drain => {
            test::output(lent.output.len())?;
            row(trial.call, lent)?;
            test::buffer(lent.bytes.len(), lent.row[at::OUTPUT_COUNT])
        }
        Call::ReadCell => {
            test::cells(lent.cells.len())?;
            test::own_cell(&lent.cells, number)?;
            test::address(lent.cells.len(), number)
        }
        Call::Load => {
            test::cells(lent.cells.len())?;
            test::address(lent.cells.len(), number)?;
            test::image(lent.cells.len(), &lent.image, number)
        }
        Call::SetRegister => {
            row(trial.call, lent)?;
            test::register(number, trial.word)
        }
        Call::Raise => {
            test::cells(lent.cells.len())?;
            row(trial.call, lent)?;
            test::every_cell(&lent.cells)?;
            test::code(number)
        }
        // "checks cells as load does"
        _ => {
            test::cells(lent.cells.len())?;
            row(trial.call, lent)
        }
    }
}

/// What run is lent; of a bench, a seat's part of it.
pub fn run_tested(cells: &[i64], queue: &[u8], output: &[u8], row: &[i64]) -> Tested {
    test::cells(cells.len())?;
    test::queue(queue.len())?;
    test::output(output.len())?;
    test::row(row, queue.len(), output.len(), cells.len() / cell::LENGTH)?;
    test::every_cell(cells)
}

/// "Where a call isn't lent that buffer, the lengths are read as 4,096 and 65,536, and a count of cells as 10,000".
fn row(call: Call, lent: &Lent) -> Tested {
    let queue = if call.is_lent(Buffer::Queue) { lent.queue.len() } else { QUEUE_MOST };
    let output = if call.is_lent(Buffer::Output) { lent.output.len() } else { OUTPUT_MOST };
    let cells = if call.is_lent(Buffer::Cells) { lent.cells.len() / cell::LENGTH } else { CELLS_MOST };
    test::row(&lent.row, queue, output, cells)
}

/// What follows refusal and place in the answer.
fn performed(trial: &Trial, lent: &mut Lent) -> [i64; REST] {
    let Lent { cells, queue, output, row, bytes, image, journal } = lent;
    let number = trial.number;
    match trial.call {
        Call::RunJournal | Call::Back => {}
        Call::FreshJournal => ring::make(journal),
        call if call.is_lent(Buffer::Journal) => ring::empty(journal),
        _ => {}
    }
    match trial.call.own() {
        Call::Fresh => fresh(cells, row),
        Call::Run => {
            let row = tested_row(row);
            let ran = if trial.call == Call::RunJournal {
                plain::run_kept(cells, queue, output, row, number, |begun| ring::keep(journal, &begun))
            } else {
                plain::run(cells, queue, output, row, number)
            };
            [ran.stop, ran.detail, ran.steps, ran.empty].map(|number| number as i64)
        }
        Call::Deliver => done(plain::deliver(queue, tested_row(row), bytes) == refusal::NONE),
        Call::Drain => {
            let (refused, count) = plain::drain(output, tested_row(row), bytes);
            done(refused == refusal::NONE);
            [count as i64, 0, 0, 0]
        }
        Call::ReadCell => {
            let [tag, first, second] = cell::get(cells, number as usize);
            [tag, first, second, 0]
        }
        Call::Load => load(cells, image, number as usize),
        Call::SetRegister => done(plain::set_register(tested_row(row), number, trial.word)),
        Call::Raise => {
            let raised = plain::raise(cells, tested_row(row), number).expect(TESTED);
            [raised.stop as i64, raised.detail as i64, 0, 0]
        }
        _ => {
            ring::go_back(cells, row, journal);
            [0; REST]
        }
    }
}

const TESTED: &str = "what the tests accept, plain does not refuse";

fn tested_row(row: &mut [i64]) -> &mut Row {
    row.try_into().expect(TESTED)
}

fn done(done: bool) -> [i64; REST] {
    assert!(done, "{TESTED}");
    [0; REST]
}

/// "all empty, row 0"
fn fresh(cells: &mut [i64], row: &mut [i64]) -> [i64; REST] {
    cells.fill(0);
    row.fill(0);
    [0; REST]
}

/// "An image is copied into the cells from any start cell; an empty image changes nothing."
fn load(cells: &mut [i64], image: &[i64], start: usize) -> [i64; REST] {
    cells[cell::LENGTH * start..][..image.len()].copy_from_slice(image);
    [0; REST]
}
