//! Machines with the timer on or its mark set, and programs that use its ports.

use layout::limit::CYCLES_MOST;
use layout::memory::INTERRUPT_HANDLER;
use layout::sr::{INTERRUPT_ENABLE, SUPERVISOR};
use layout::{Row, at};
use list::Case;

use super::{INTERVAL_PORT, REMAINING_PORT};
use crate::forms::*;
use crate::rng::Rng;
use crate::{fence, programs, single};

/// Single steps with the timer: every form in turn, and one in four an `in` or `out` at its ports.
pub struct Singles {
    all: Vec<Form>,
    ports: Vec<Form>,
}

impl Default for Singles {
    fn default() -> Self {
        let ports = all().into_iter().filter(|form| matches!(form.op, IN | OUT)).collect();
        Self { all: all(), ports }
    }
}

impl Singles {
    pub fn draw(&self, rng: &mut Rng, turn: usize) -> Case {
        let at_ports = turn % 4 == 0;
        let forms = if at_ports { &self.ports } else { &self.all };
        let draw = if rng.once_in(3) { single::draw_empty } else { single::draw };
        let mut case = draw(rng, forms, turn / 4 * 3 + turn % 4);
        put(rng, &mut case.row);
        if at_ports {
            point_at_port(rng, &mut case);
        }
        if rng.once_in(6) {
            fill_cycles(&mut case);
        }
        if rng.once_in(8) {
            case.row[at::FENCE] = fence::fence(rng);
        }
        case
    }
}

/// There are cycles for the cost, and none for the entry by the timer's mark.
fn fill_cycles(case: &mut Case) {
    let pc = case.row[at::PC] as usize;
    let fetched = case.cells.iter().find(|(address, _)| *address == pc).map(|(_, cell)| *cell);
    let cost = fetched.and_then(judge::cost).unwrap_or(1);
    case.row[at::CYCLES] = CYCLES_MOST - cost as i64;
    case.row[at::SR] |= INTERRUPT_ENABLE;
    case.row[at::PENDING] = 0;
    case.row[at::TIMER_MARK] = 1;
    if pc != INTERRUPT_HANDLER as usize {
        case.put(INTERRUPT_HANDLER as usize, instruction(NOP, NONE, NONE));
    }
}

/// Any timer, mostly near its end.
pub fn put(rng: &mut Rng, row: &mut Row) {
    let interval = match rng.below(8) {
        0 => 0,
        1..=5 => rng.between(1, 5),
        6 => rng.pick(&[100, 4_294_967_295, 4_294_967_296]),
        _ => i64::MAX,
    };
    row[at::TIMER_INTERVAL] = interval;
    row[at::TIMER_REMAINING] = rng.pick(&[0, 1, 1, 2, 2, 3, interval]).min(interval);
    row[at::TIMER_MARK] = rng.between(0, 1);
}

/// Makes the step's port one of the timer's, in supervisor mode; `out` brings a number around 1.
fn point_at_port(rng: &mut Rng, case: &mut Case) {
    let pc = case.row[at::PC] as usize;
    let Some((_, [tag, first, second])) = case.cells.iter().find(|(address, _)| *address == pc).copied()
    else {
        return;
    };
    if tag < 2 {
        return;
    }
    let (form, (r1, r2)) = split(tag);
    let port = rng.pick(&[INTERVAL_PORT, INTERVAL_PORT, REMAINING_PORT]);
    let (mode, reg, number) = if form.op == IN { (form.m1, r1, first) } else { (form.m2, r2, second) };
    case.row[at::SR] |= SUPERVISOR;
    if form.op == OUT && form.m1 == REG && r1 < PC && rng.once_in(2) {
        single::set_base(case, r1, brought(rng));
    }
    let number = match mode {
        DIR => port,
        IND => {
            if matches!(reg, A | B | SP) {
                single::set_base(case, reg, port);
            }
            number
        }
        _ => single::base(case, reg).map_or(number, |base| port.wrapping_sub(base)),
    };
    let cell = match (form.op, form.m1) {
        (IN, _) => [tag, number, second],
        (_, IMM) => [tag, brought(rng), number],
        _ => [tag, first, number],
    };
    case.put(pc, cell);
}

fn brought(rng: &mut Rng) -> i64 {
    if rng.once_in(6) { rng.pick(&[i64::MAX, i64::MIN, -1, 4_294_967_296]) } else { rng.between(-1, 5) }
}

/// A program with the timer, at whose ports are some of its lines; every fourth with a fence.
pub fn program(rng: &mut Rng) -> Case {
    let mut case = programs::draw(rng);
    for (_, cell) in &mut case.cells {
        let [tag, first, second] = *cell;
        if tag >= 2 && rng.once_in(2) {
            let port = if rng.once_in(3) { REMAINING_PORT } else { INTERVAL_PORT };
            match Form::of_tag(tag) {
                Form { op: IN, m1: DIR, .. } => *cell = [tag, port, second],
                Form { op: OUT, m1: IMM, m2: DIR } => *cell = [tag, rng.between(-1, 40), port],
                Form { op: OUT, m2: DIR, .. } => *cell = [tag, first, port],
                _ => {}
            }
        }
    }
    if rng.below(3) > 0 {
        put(rng, &mut case.row);
    }
    if rng.once_in(4) {
        case.row[at::FENCE] = fence::fence(rng);
    }
    case
}
