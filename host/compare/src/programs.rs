//! Programs of many steps: code, data, stack and a handler, with other calls between the runs.

use layout::cell::word as cell_of;
use layout::limit::CYCLES_MOST;
use layout::memory::INTERRUPT_HANDLER;
use layout::{Cell, at, row};
use list::{Call, Case};

use crate::edges::{address, cell, status, word};
use crate::forms::*;
use crate::rng::Rng;

const HANDLER: usize = INTERRUPT_HANDLER as usize;

/// Where a program's parts lie.
pub struct Layout {
    pub code: i64,
    pub length: i64,
    pub data: i64,
    /// Once in so many operands anything is drawn; otherwise what keeps the program going.
    pub any_once_in: usize,
}

/// A program anywhere in the 10,000 cells with calls between its runs.
pub fn draw(rng: &mut Rng) -> Case {
    let length = rng.between(8, 60);
    let layout = Layout {
        code: rng.pick(&[0, 300, 1_000, 5_000, 9_999 - length, 10_000 - length]),
        length,
        data: rng.pick(&[90, 700, 9_900]),
        any_once_in: rng.pick(&[4, 12, 40, 200]),
    };
    let mut case = Case::default();
    put_code(rng, &layout, &mut case);
    put_handler(rng, &layout, &mut case);
    put_row(rng, &layout, &mut case);
    put_console(rng, &mut case);
    case.calls = calls(rng, &layout);
    case
}

pub fn put_code(rng: &mut Rng, layout: &Layout, case: &mut Case) {
    put_data(rng, layout, case);
    for i in 0..layout.length {
        let line = line(rng, layout);
        case.put((layout.code + i) as usize, line);
    }
    let last = (layout.code + layout.length - 1) as usize;
    match rng.below(4) {
        0 => case.put(last, instruction(RESET, NONE, NONE)),
        1 | 2 => case.put(last, instruction(JMP, imm(layout.code), NONE)),
        _ => {}
    }
}

pub fn put_data(rng: &mut Rng, layout: &Layout, case: &mut Case) {
    for i in 0..16 {
        let held = if rng.once_in(layout.any_once_in) { cell(rng) } else { [1, near(rng, layout), 0] };
        case.put((layout.data + i) as usize, held);
    }
}

/// No handler, or one of a few that a kernel has.
pub fn put_handler(rng: &mut Rng, layout: &Layout, case: &mut Case) {
    let rti = instruction(RTI, NONE, NONE);
    let lines = match rng.below(8) {
        0 => vec![[rng.between(0, 1), 0, 0]],
        1 | 2 => vec![rti],
        3 => vec![instruction(LD, dir(102), reg(A)), instruction(LD, dir(100), reg(B)), rti],
        4 => vec![
            instruction(IN, dir(110), reg(A)),
            instruction(IN, dir(111), reg(B)),
            instruction(OUT, reg(B), dir(111)),
            rti,
        ],
        5 => vec![instruction(OUT, imm(1), dir(110)), rti],
        6 => vec![instruction(RESET, NONE, NONE)],
        _ => (0..6).map(|_| line(rng, layout)).chain([rti]).collect(),
    };
    for (i, line) in lines.into_iter().enumerate() {
        case.put(HANDLER + i, line);
    }
}

pub fn put_row(rng: &mut Rng, layout: &Layout, case: &mut Case) {
    let row = &mut case.row;
    for place in [at::A, at::B] {
        let held = if rng.once_in(4) { cell(rng) } else { cell_of(near(rng, layout)) };
        row::put_cell(row, place, held);
    }
    row[at::PC] = layout.code + rng.between(0, layout.length - 1);
    row[at::SP] = rng.pick(&[0, 1, 2_000, 2_000, 9_999, 10_000, 4_294_967_295, layout.data + 8]);
    row[at::SR] = status(rng);
    row[at::CYCLES] = if rng.once_in(16) { CYCLES_MOST - rng.between(0, 200) } else { 0 };
    for mark in row::MARKS {
        row[mark] = rng.between(0, 1);
    }
}

pub fn put_console(rng: &mut Rng, case: &mut Case) {
    let queue = rng.pick(&[1, 2, 7, 16]);
    let output = rng.pick(&[0, 3, 64, 64]);
    case.queue = (0..queue).map(|_| rng.byte()).collect();
    case.output = (0..output).map(|_| rng.byte()).collect();
    case.row[at::QUEUE_START] = rng.below(queue) as i64;
    case.row[at::QUEUE_COUNT] = rng.below(queue + 1) as i64;
    case.row[at::OUTPUT_COUNT] = rng.below(output + 1) as i64;
}

/// Runs with other calls between; after a stop the program goes on from another pc.
fn calls(rng: &mut Rng, layout: &Layout) -> Vec<Call> {
    let mut calls = Vec::new();
    for _ in 0..rng.between(4, 10) {
        calls.push(Call::Run(budget(rng)));
        for _ in 0..rng.between(0, 2) {
            let call = other_call(rng);
            calls.push(call);
        }
        if rng.below(3) > 0 {
            calls.push(Call::SetRegister(PC as u64, layout.code + rng.between(0, layout.length - 1)));
        }
    }
    calls
}

/// One step, a few, or many.
fn budget(rng: &mut Rng) -> u64 {
    let most = rng.pick(&[1, 90, 90, 90, 90, 2_000]);
    rng.between(most / 2, most) as u64
}

/// Deliver, drain, raise or set register, refused ones among them.
pub fn other_call(rng: &mut Rng) -> Call {
    match rng.below(8) {
        0..=2 => Call::Deliver((0..rng.below(6)).map(|_| rng.byte()).collect()),
        3..=4 => Call::Drain(rng.pick(&[0, 2, 64, 100])),
        5 => Call::Raise(rng.below(7) as u64),
        6 => Call::SetRegister(rng.below(6) as u64, word(rng)),
        _ => Call::SetRegister(rng.below(4) as u64, address(rng)),
    }
}

/// A word that is useful as an address of data or code, or as a small number.
pub fn near(rng: &mut Rng, layout: &Layout) -> i64 {
    match rng.below(4) {
        0 => layout.data + rng.between(0, 15),
        1 => layout.code + rng.between(0, layout.length - 1),
        _ => rng.between(-4, 70),
    }
}

/// One instruction of any form, with operands that mostly keep the program going.
pub fn line(rng: &mut Rng, layout: &Layout) -> Cell {
    let op = operation(rng);
    let target =
        if rng.once_in(8.max(layout.any_once_in / 4)) { rng.between(2, 4) } else { rng.between(0, 1) };
    let any = |rng: &mut Rng| rng.pick(&[IMM, IMM, REG, DIR, DIR, IND, IDX]);
    match op {
        NOP | RESET | RTI | RTN | TRAP => instruction(op, NONE, NONE),
        NEG | NOT | POP => instruction(op, reg(target), NONE),
        PUSH => instruction(op, operand(rng, layout, op, IMM, REG), NONE),
        CALL | JMP..=JGT => {
            let mode = if rng.below(4) > 0 { IMM } else { any(rng) };
            instruction(op, operand(rng, layout, op, mode, mode), NONE)
        }
        OUT => {
            let source = operand(rng, layout, op, IMM, REG);
            instruction(op, source, port(rng, layout))
        }
        IN => instruction(op, port(rng, layout), reg(target)),
        ST => instruction(op, reg(rng.between(0, 4)), memory(rng, layout)),
        FAS => instruction(op, memory(rng, layout), reg(target)),
        SWAP if rng.once_in(3) => instruction(op, reg(rng.between(0, 4)), reg(target)),
        SWAP => instruction(op, memory(rng, layout), reg(target)),
        _ => {
            let mode = any(rng);
            instruction(op, operand(rng, layout, op, mode, mode), reg(target))
        }
    }
}

/// Reset, rti and rtn seldom: they end most programs.
fn operation(rng: &mut Rng) -> i64 {
    let op = rng.between(0, OPERATIONS - 1);
    if matches!(op, RESET | RTI | RTN | TRAP) && rng.below(4) > 0 { LD } else { op }
}

fn operand(rng: &mut Rng, layout: &Layout, op: i64, one: i64, other: i64) -> Operand {
    match if rng.once_in(2) { one } else { other } {
        IMM => imm(number(rng, layout, op)),
        REG => reg(rng.between(0, 4)),
        _ => memory(rng, layout),
    }
}

fn number(rng: &mut Rng, layout: &Layout, op: i64) -> i64 {
    if rng.once_in(layout.any_once_in) {
        return word(rng);
    }
    match op {
        CALL | JMP..=JGT => layout.code + rng.between(0, layout.length - 1),
        SHL | SHR => rng.between(0, 63),
        DIV => rng.between(1, 9),
        _ => near(rng, layout),
    }
}

fn memory(rng: &mut Rng, layout: &Layout) -> Operand {
    if rng.once_in(layout.any_once_in) {
        return match rng.below(3) {
            0 => dir(address(rng)),
            1 => ind(rng.between(0, 4)),
            _ if rng.once_in(2) => idx(rng.between(0, 4), rng.between(-9, 9)),
            _ => idx(rng.between(0, 4), word(rng)),
        };
    }
    match rng.below(8) {
        0..=4 => dir(layout.data + rng.between(0, 15)),
        5 => dir(rng.pick(&[100, 101, 102])),
        6 => ind(SP),
        _ => idx(SP, rng.between(0, 2)),
    }
}

fn port(rng: &mut Rng, layout: &Layout) -> Operand {
    if rng.once_in(layout.any_once_in) { memory(rng, layout) } else { dir(rng.between(109, 112)) }
}
