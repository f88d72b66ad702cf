//! Draws of trials that no call refuses, with limits and edges among their lengths and numbers.

use draws::edges;
use draws::forms::*;
use draws::rng::Rng;

use layout::code::CODES;
use layout::limit::{ADDRESS_LAST, CELLS_LEAST, CELLS_MOST, CYCLES_MOST, OUTPUT_MOST, QUEUE_MOST};
use layout::memory::INTERRUPT_HANDLER;
use layout::{Cell, ROW, at, cell, row};

use crate::damaged::DAMAGED;
use crate::journal;
use crate::trial::{Buffer, Call, Lent, Trial};

const HANDLER: usize = INTERRUPT_HANDLER as usize;
/// Once in so many draws a longest buffer is lent: comparing it takes long.
const LONGEST_ONCE_IN: usize = 48;

pub fn draw(rng: &mut Rng, call: Call) -> Trial {
    let small = [CELLS_LEAST, CELLS_LEAST, CELLS_LEAST + 1, 300];
    let large = [CELLS_MOST - 1, CELLS_MOST];
    let count = if rng.once_in(LONGEST_ONCE_IN) { rng.pick(&large) } else { rng.pick(&small) };
    draw_with(rng, call, count)
}

/// With so many cells.
pub fn draw_with(rng: &mut Rng, call: Call, cells: usize) -> Trial {
    let (queue, output) = (queue_length(rng), output_length(rng));
    draw_sized(rng, call, cells, queue, output)
}

/// With so many cells, and so many bytes where the call is lent them.
pub fn draw_sized(rng: &mut Rng, call: Call, cells: usize, queue: usize, output: usize) -> Trial {
    let mut trial = Trial { call, number: 0, word: 0, lent: Lent::default(), null: rng.once_in(2) };
    if call.is_lent(Buffer::Queue) {
        trial.lent.queue = some_bytes(rng, queue);
    }
    if call.is_lent(Buffer::Output) {
        trial.lent.output = some_bytes(rng, output);
    }
    if call.is_lent(Buffer::Row) {
        draw_row(rng, &mut trial, cells);
    }
    if call.is_lent(Buffer::Cells) {
        draw_cells(rng, &mut trial, cells);
    }
    if call.is_lent(Buffer::Journal) {
        trial.lent.journal = journal::draw(rng, &trial, cells);
    }
    draw_arguments(rng, &mut trial, cells);
    trial
}

pub fn queue_length(rng: &mut Rng) -> usize {
    length(rng, &[1, 1, 2, 3, 7, 16], &[QUEUE_MOST - 1, QUEUE_MOST])
}

pub fn output_length(rng: &mut Rng) -> usize {
    length(rng, &[0, 0, 1, 2, 5, 64], &[OUTPUT_MOST - 1, OUTPUT_MOST])
}

fn length(rng: &mut Rng, lengths: &[usize], longest: &[usize]) -> usize {
    if rng.once_in(LONGEST_ONCE_IN) { rng.pick(longest) } else { rng.pick(lengths) }
}

fn some_bytes(rng: &mut Rng, length: usize) -> Vec<u8> {
    (0..length).map(|_| rng.byte()).collect()
}

/// The queue's and the output record's length as the call reads them, and the count of cells, of which there are so many.
pub fn lengths(trial: &Trial, cells: usize) -> (i64, i64, i64) {
    let read = |buffer: Buffer, length: usize, not_lent: usize| {
        if trial.call.is_lent(buffer) { length as i64 } else { not_lent as i64 }
    };
    let length = |buffer: Buffer| trial.length(buffer);
    (
        read(Buffer::Queue, length(Buffer::Queue), QUEUE_MOST),
        read(Buffer::Output, length(Buffer::Output), OUTPUT_MOST),
        read(Buffer::Cells, cells, CELLS_MOST),
    )
}

fn draw_row(rng: &mut Rng, trial: &mut Trial, cells: usize) {
    let lengths = lengths(trial, cells);
    trial.lent.row = if trial.call.own() == Call::Fresh {
        // "never the row's old numbers"
        (0..ROW).map(|_| edges::word(rng)).collect()
    } else {
        row_within(rng, lengths, cells)
    };
}

/// Any row of so many cells, of whose numbers none is over these lengths.
pub fn row_within(rng: &mut Rng, (queue, output, most): (i64, i64, i64), cells: usize) -> Vec<i64> {
    let mut row = vec![0; ROW];
    row::put_cell(&mut row, at::A, edges::cell(rng));
    row::put_cell(&mut row, at::B, edges::cell(rng));
    row[at::PC] = if rng.once_in(4) { edges::address(rng) } else { rng.below(cells) as i64 };
    row[at::SP] = if rng.once_in(2) { edges::address(rng) } else { rng.below(cells + 1) as i64 };
    row[at::SR] = if rng.once_in(4) { edges::word(rng) } else { edges::status(rng) };
    row[at::CYCLES] = if rng.once_in(4) { CYCLES_MOST - rng.between(0, 4) } else { rng.between(0, 9) };
    for mark in row::MARKS {
        row[mark] = rng.between(0, 1);
    }
    row[at::QUEUE_START] = up_to(rng, queue - 1);
    row[at::QUEUE_COUNT] = up_to(rng, queue);
    row[at::OUTPUT_COUNT] = up_to(rng, output);
    row[at::FENCE] = up_to(rng, most);
    draw_timer(rng, &mut row);
    row
}

/// Off half of the time.
fn draw_timer(rng: &mut Rng, row: &mut [i64]) {
    row[at::TIMER_INTERVAL] = if rng.once_in(2) { 0 } else { rng.pick(&[1, 2, 3, 4, 5, 9, i64::MAX]) };
    let interval = row[at::TIMER_INTERVAL];
    row[at::TIMER_REMAINING] = rng.pick(&[0, 1, 2, interval / 2, interval]).min(interval);
    row[at::TIMER_MARK] = rng.between(0, 1);
}

/// The least, the most, or anything between.
pub fn up_to(rng: &mut Rng, most: i64) -> i64 {
    match rng.below(3) {
        0 => 0,
        1 => most,
        _ => rng.between(0, most),
    }
}

fn draw_cells(rng: &mut Rng, trial: &mut Trial, count: usize) {
    trial.lent.cells = vec![0; cell::LENGTH * count];
    let filled = rng.pick(&[4, 16, count.min(300)]);
    for _ in 0..filled {
        let (address, cell) = (rng.below(count), edges::cell(rng));
        put(trial, address, cell);
    }
    for address in [0, count - 1] {
        let cell = edges::cell(rng);
        put(trial, address, cell);
    }
    let handler = if rng.once_in(2) { edges::instruction(rng) } else { [rng.between(0, 1), 0, 0] };
    put(trial, HANDLER, handler);
    match trial.call.own() {
        Call::Run => draw_program(rng, trial, count),
        // none looks at the damage of other cells
        Call::Fresh | Call::Load | Call::ReadCell | Call::Back => {
            for _ in 0..rng.below(3) {
                let (address, cell) = (rng.below(count), rng.pick(&DAMAGED));
                put(trial, address, cell);
            }
        }
        _ => {}
    }
}

pub fn put(trial: &mut Trial, address: usize, cell: Cell) {
    cell::put(&mut trial.lent.cells, address, cell);
}

/// Instructions from pc on; the seldom stops are helped.
fn draw_program(rng: &mut Rng, trial: &mut Trial, count: usize) {
    let pc = trial.lent.row[at::PC] as usize;
    for address in pc..(pc + 6).min(count) {
        let cell = match rng.below(12) {
            0 => instruction(OUT, imm(rng.draw() as i64), dir(111)),
            1 => instruction(IN, dir(rng.pick(&[110, 111, 120, 121])), reg(rng.between(0, REGISTERS - 1))),
            3 if rng.once_in(2) => instruction(OUT, imm(rng.between(-1, 5)), dir(120)),
            2 => instruction(RESET, NONE, NONE),
            _ => edges::instruction(rng),
        };
        put(trial, address, cell);
    }
}

fn draw_arguments(rng: &mut Rng, trial: &mut Trial, cells: usize) {
    match trial.call.own() {
        Call::Run => trial.number = rng.pick(&[0, 1, 1, 2, 5, 40]),
        Call::Deliver => {
            let free = trial.lent.queue.len() as i64 - trial.lent.row[at::QUEUE_COUNT];
            let length = up_to(rng, free) as usize;
            trial.lent.bytes = some_bytes(rng, length);
        }
        Call::Drain => {
            let length = trial.lent.row[at::OUTPUT_COUNT] as usize + rng.pick(&[0, 0, 1, 7]);
            trial.lent.bytes = some_bytes(rng, length);
        }
        Call::ReadCell => {
            trial.number = up_to(rng, cells as i64 - 1) as u64;
            let own = edges::cell(rng);
            put(trial, trial.number as usize, own);
        }
        Call::Load => draw_image(rng, trial, cells),
        Call::SetRegister => {
            let reg = rng.between(A, SP);
            trial.number = reg as u64;
            trial.word = if reg < PC { edges::word(rng) } else { address(rng) };
        }
        Call::Raise => trial.number = rng.below(CODES as usize) as u64,
        _ => {}
    }
}

fn address(rng: &mut Rng) -> i64 {
    if rng.once_in(3) { rng.pick(&[0, ADDRESS_LAST]) } else { edges::address(rng) }
}

/// No cell, some, or as many as there is room for.
fn draw_image(rng: &mut Rng, trial: &mut Trial, cells: usize) {
    let start = up_to(rng, cells as i64 - 1);
    let length = up_to(rng, cells as i64 - start);
    trial.number = start as u64;
    trial.lent.image = (0..length).flat_map(|_| edges::cell(rng)).collect();
}
