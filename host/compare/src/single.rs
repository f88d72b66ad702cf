//! Single steps from edge rows and cells: the forms in turn, each with what its operands point to.

use layout::cell::{EMPTY, word as cell_of, word_in};
use layout::limit::{CYCLES_MOST, OUTPUT_MOST, QUEUE_MOST};
use layout::memory::{INTERRUPT_HANDLER, SAVES};
use layout::{Cell, at, row};
use list::{CELLS, Call, Case};

use crate::edges::{self, address, cell, instruction, status, word};
use crate::forms::*;
use crate::rng::Rng;

/// The turn chooses the form; every 125th is a fetch of what is no instruction.
pub fn draw(rng: &mut Rng, forms: &[Form], turn: usize) -> Case {
    let mut case = Case { calls: vec![Call::Run(1)], ..Case::default() };
    draw_row(rng, &mut case);
    draw_console(rng, &mut case);
    draw_handler(rng, &mut case);
    match forms.get(turn % (forms.len() + 1)) {
        Some(form) => draw_instruction(rng, &mut case, *form),
        None => draw_bad_fetch(rng, &mut case),
    }
    case
}

/// The same with more empty cells: a, b, what the operands point to; an empty register points to cell 0.
pub fn draw_empty(rng: &mut Rng, forms: &[Form], turn: usize) -> Case {
    let mut case = draw(rng, forms, turn);
    for place in [at::A, at::B] {
        if rng.once_in(2) {
            row::put_cell(&mut case.row, place, EMPTY);
        }
    }
    let pc = case.row[at::PC] as usize;
    if pc != 0 {
        let held = cell(rng);
        case.put(0, held);
    }
    for (address, held) in &mut case.cells {
        if *address != pc && *address != INTERRUPT_HANDLER as usize && rng.once_in(3) {
            *held = EMPTY;
        }
    }
    case
}

fn draw_row(rng: &mut Rng, case: &mut Case) {
    let row = &mut case.row;
    row::put_cell(row, at::A, cell(rng));
    row::put_cell(row, at::B, cell(rng));
    row[at::PC] = inside(rng);
    row[at::SP] = address(rng);
    row[at::SR] = status(rng);
    row[at::CYCLES] = if rng.once_in(8) { CYCLES_MOST - rng.between(0, 3) } else { rng.between(0, 1_000) };
    for mark in row::MARKS {
        row[mark] = rng.between(0, 1);
    }
}

/// Mostly short buffers, so that full and empty ones occur; rarely the longest.
fn draw_console(rng: &mut Rng, case: &mut Case) {
    let queue = if rng.once_in(512) { QUEUE_MOST } else { rng.pick(&[1, 1, 2, 3, 5, 8]) };
    let output = if rng.once_in(512) { OUTPUT_MOST } else { rng.pick(&[0, 1, 2, 4, 8]) };
    case.queue = (0..queue).map(|_| rng.byte()).collect();
    case.output = (0..output).map(|_| rng.byte()).collect();
    case.row[at::QUEUE_START] = rng.below(queue) as i64;
    case.row[at::QUEUE_COUNT] = count(rng, queue);
    case.row[at::OUTPUT_COUNT] = count(rng, output);
}

/// None, all or some.
fn count(rng: &mut Rng, length: usize) -> i64 {
    match rng.below(3) {
        0 => 0,
        1 => length as i64,
        _ => rng.between(0, length as i64),
    }
}

fn draw_handler(rng: &mut Rng, case: &mut Case) {
    let handler = if rng.once_in(2) { instruction(rng) } else { [rng.between(0, 1), 0, 0] };
    case.put(INTERRUPT_HANDLER as usize, handler);
    for saved in SAVES {
        let held = cell(rng);
        case.put(saved as usize, held);
    }
}

/// An address inside the cells, the last and the handler's neighbours among them.
fn inside(rng: &mut Rng) -> i64 {
    if rng.once_in(8) {
        rng.pick(&[0, 99, 100, 101, 102, 199, 201, 9_998, 9_999])
    } else {
        rng.between(0, 9_999)
    }
}

fn draw_bad_fetch(rng: &mut Rng, case: &mut Case) {
    if rng.once_in(2) {
        case.row[at::PC] = rng.pick(&[10_000, 10_001, 2_147_483_648, 4_294_967_294, 4_294_967_295]);
    } else {
        let held = cell_of(word(rng));
        let held = if rng.once_in(2) { held } else { EMPTY };
        case.put(case.row[at::PC] as usize, held);
    }
}

fn draw_instruction(rng: &mut Rng, case: &mut Case, form: Form) {
    let r1 = register_for(rng, form.m1);
    let mut r2 = register_for(rng, form.m2);
    if form.m1 >= REG && form.m2 == REG && rng.once_in(3) {
        r2 = r1;
    }
    draw_stack(rng, case);
    if form.m1 == REG && rng.once_in(2) {
        let held = held(rng, form.op);
        set_cell(case, r1, held);
    }
    let n1 = number_for(rng, case, form, form.m1, r1);
    let n2 = number_for(rng, case, form, form.m2, r2);
    let pc = case.row[at::PC] as usize;
    case.put(pc, [form.tag(r1, r2), n1, n2]);
}

fn register_for(rng: &mut Rng, mode: i64) -> i64 {
    if matches!(mode, REG | IND | IDX) { rng.between(0, REGISTERS - 1) } else { 0 }
}

/// What pop and rtn find.
fn draw_stack(rng: &mut Rng, case: &mut Case) {
    let sp = case.row[at::SP];
    if sp < CELLS as i64 {
        let held = cell(rng);
        case.put(sp as usize, held);
    }
}

/// The number of an operand; the register it starts from is often set so that the address is a useful one.
fn number_for(rng: &mut Rng, case: &mut Case, form: Form, mode: i64, reg: i64) -> i64 {
    let wanted = if matches!(form.op, IN | OUT) { port(rng) } else { address(rng) };
    match mode {
        IMM => immediate(rng, form.op),
        DIR => point_at(rng, case, form.op, wanted),
        IND => {
            if rng.below(4) > 0 {
                set_base(case, reg, wanted);
            }
            if let Some(base) = base(case, reg) {
                point_at(rng, case, form.op, base);
            }
            0
        }
        IDX => {
            if rng.once_in(4) {
                return word(rng);
            }
            let base = base(case, reg).unwrap_or(0);
            point_at(rng, case, form.op, wanted);
            wanted.wrapping_sub(base)
        }
        _ => 0,
    }
}

fn port(rng: &mut Rng) -> i64 {
    if rng.once_in(4) { address(rng) } else { rng.between(109, 112) }
}

fn immediate(rng: &mut Rng, op: i64) -> i64 {
    match op {
        CALL | JMP..=JGT if rng.below(3) > 0 => address(rng),
        DIV if rng.once_in(3) => rng.between(-1, 1),
        SHL | SHR if rng.once_in(2) => rng.between(-2, 66),
        _ => edges::word(rng),
    }
}

/// The word of an operand's base register; pc has moved on.
pub fn base(case: &Case, reg: i64) -> Option<i64> {
    let row = &case.row;
    match reg {
        A => word_in(row::cell(row, at::A)),
        B => word_in(row::cell(row, at::B)),
        PC => Some(row[at::PC] + 1),
        SP => Some(row[at::SP]),
        _ => Some(row[at::SR]),
    }
}

/// pc and sr keep what they have.
pub fn set_base(case: &mut Case, reg: i64, word: i64) {
    if reg == SP {
        case.row[at::SP] = word;
    } else {
        set_cell(case, reg, cell_of(word));
    }
}

/// a and b alone hold cells.
fn set_cell(case: &mut Case, reg: i64, cell: Cell) {
    match reg {
        A => row::put_cell(&mut case.row, at::A, cell),
        B => row::put_cell(&mut case.row, at::B, cell),
        _ => {}
    }
}

/// A cell for an operand to find; div and the shifts turn on small numbers.
fn held(rng: &mut Rng, op: i64) -> Cell {
    match op {
        DIV | SHL | SHR if rng.once_in(2) => cell_of(rng.between(-3, 66)),
        _ => cell(rng),
    }
}

/// Puts some cell where an operand points, if that is a cell; the address.
fn point_at(rng: &mut Rng, case: &mut Case, op: i64, address: i64) -> i64 {
    if (0..CELLS as i64).contains(&address) && (address != INTERRUPT_HANDLER.into() || rng.once_in(4)) {
        let held = held(rng, op);
        case.put(address as usize, held);
    }
    address
}
