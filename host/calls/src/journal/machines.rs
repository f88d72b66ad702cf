//! Machines to go back on: any, loops with the console, the timer and the fence, and such as stop.

use draws::forms::*;
use draws::rng::Rng;
use layout::at;
use layout::memory::{
    INTERRUPT_HANDLER, SAVES, SERIAL_DATA_PORT, SERIAL_STATUS_PORT, TIMER_INTERVAL_PORT, TIMER_REMAINING_PORT,
};
use layout::sr::{INTERRUPT_ENABLE, SUPERVISOR};

use crate::accepted::{self, put};
use crate::bench::stops_after;
use crate::cuts;
use crate::trial::{Call, Trial};

const PORTS: [u32; 4] = [SERIAL_STATUS_PORT, SERIAL_DATA_PORT, TIMER_INTERVAL_PORT, TIMER_REMAINING_PORT];
/// A loop's length, from cell 0 on; its data stands behind the handler.
const LENGTH: usize = 8;
const DATA: i64 = 220;

/// With so many cells, and for runs on so many steps.
pub fn draw(rng: &mut Rng, cells: usize, most: i64) -> Trial {
    let (queue, output) = (accepted::queue_length(rng), rng.pick(&[0, 5, 64, most as usize]));
    let mut trial = accepted::draw_sized(rng, Call::Run, cells, queue, output);
    match rng.below(8) {
        0 => {}
        1..=2 => cuts::put_loop(rng, &mut trial),
        3 => stops_after(&mut trial, rng.pick(&[0, 1, 2, 3, 5, 20, 99, 150]), rng.between(1, 7) as u64),
        4 => put_loop(rng, &mut trial, use_console),
        5 => put_loop(rng, &mut trial, write_saves),
        _ => put_loop(rng, &mut trial, write_around_fence),
    }
    trial
}

type Line = fn(&mut Rng, &mut Trial) -> [i64; 3];

/// A loop of such lines, with a handler that returns.
fn put_loop(rng: &mut Rng, trial: &mut Trial, line: Line) {
    trial.lent.row[at::PC] = 0;
    trial.lent.row[at::CYCLES] = 0;
    trial.lent.row[at::SP] = rng.between(240, 256);
    trial.lent.row[at::SR] = rng.pick(&[SUPERVISOR, SUPERVISOR | INTERRUPT_ENABLE]);
    for address in 0..LENGTH {
        let line = line(rng, trial);
        put(trial, address, line);
    }
    put(trial, LENGTH, instruction(JMP, imm(0), NONE));
    let handler = INTERRUPT_HANDLER as usize;
    put(trial, handler, instruction(NOP, NONE, NONE));
    put(trial, handler + 1, instruction(RTI, NONE, NONE));
}

/// In supervisor mode, mostly on the ports with a meaning.
fn use_console(rng: &mut Rng, _: &mut Trial) -> [i64; 3] {
    let port = dir(rng.pick(&PORTS).into());
    match rng.below(4) {
        0..=1 => instruction(IN, port, reg(rng.between(A, B))),
        2 => instruction(OUT, imm(rng.between(-1, 20)), port),
        _ => instruction(TRAP, NONE, NONE),
    }
}

/// In the cells that entry writes, while the timer interrupts; and a call that has pushed when its target's cell is outside.
fn write_saves(rng: &mut Rng, trial: &mut Trial) -> [i64; 3] {
    let interval = rng.between(5, 30);
    let row = &mut trial.lent.row;
    row[at::SR] |= INTERRUPT_ENABLE;
    (row[at::TIMER_INTERVAL], row[at::TIMER_REMAINING]) = (interval, rng.between(1, interval));
    row[at::SP] = rng.between(100, 104);
    match rng.below(4) {
        0..=1 => instruction(ST, reg(rng.between(A, B)), dir(rng.pick(&SAVES).into())),
        2 => instruction(CALL, dir(60_000), NONE),
        _ => instruction(ADD, imm(1), reg(SP)),
    }
}

/// In user mode: stores, pushes and swaps on both sides of the fence.
fn write_around_fence(rng: &mut Rng, trial: &mut Trial) -> [i64; 3] {
    let row = &mut trial.lent.row;
    row[at::SR] = if rng.once_in(4) { INTERRUPT_ENABLE } else { 0 };
    row[at::FENCE] = rng.between(DATA, DATA + 30);
    let (register, data) = (reg(rng.between(A, B)), dir(DATA + rng.between(0, 30)));
    match rng.below(6) {
        0..=1 => instruction(ST, register, data),
        2 => instruction(SWAP, data, register),
        3 => instruction(FAS, data, register),
        4 => instruction(PUSH, imm(rng.between(0, 9)), NONE),
        _ => instruction(LD, imm(256), reg(SP)),
    }
}
