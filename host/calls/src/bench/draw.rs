//! Draws of benches that are not refused, with edges among limits, steps used, last stops and totals.

use draws::forms::*;
use draws::rng::Rng;
use layout::cell::EMPTY;
use layout::limit::{CELLS_LEAST, CELLS_MOST, SEATS_MOST, TURN_MOST};
use layout::memory::{INTERRUPT_HANDLER, INTERRUPT_PC_SAVE, SERIAL_DATA_PORT};
use layout::sr::SUPERVISOR;
use layout::{at, stop};
use z33::Seat;

use super::class::{Seated, Trial};
use super::model::can_go_on;
use crate::accepted::{self, put};
use crate::cuts;
use crate::damaged::DAMAGED;
use crate::trial::{self, Call};

/// Around one turn and two.
const EDGES: [u64; 12] = [0, 1, 2, 50, 98, 99, 100, 101, 102, 199, 200, 201];
/// A seat that has no more of its limit than this ends by itself.
const SHORT: u64 = 1_000;
/// Totals of benches with a seat that may not.
const LONG: u64 = 3_000;
const LARGE: [u64; 6] = [(1 << 32) - 1, 1 << 32, (1 << 32) + 100, 1 << 63, u64::MAX - 1, u64::MAX];
const STOPS: [u32; 12] = [1, 2, 3, 4, 5, 6, 7, 8, 256, 1 << 16, 1 << 31, u32::MAX];
/// Once in so many benches the machines have the most cells that there are.
const LONGEST_ONCE_IN: usize = 200;

/// The seats, apart and as they are lent.
pub fn draw(rng: &mut Rng, seats: usize) -> (Trial, Vec<Seated>) {
    let cells = if rng.once_in(LONGEST_ONCE_IN) {
        CELLS_MOST
    } else {
        rng.pick(&[CELLS_LEAST, CELLS_LEAST, CELLS_LEAST + 1, 300])
    };
    let (queue, output) = (accepted::queue_length(rng), accepted::output_length(rng));
    let record = if rng.once_in(3) { going } else { record };
    let mut ends = true;
    let seated: Vec<Seated> = (0..seats)
        .map(|_| {
            let mut machine = accepted::draw_sized(rng, Call::Run, cells, queue, output);
            let stops = program(rng, &mut machine);
            let seat = record(rng);
            ends &= stops || !can_go_on(&seat) || seat.limit - seat.used <= SHORT;
            Seated { seat, machine }
        })
        .collect();
    let total = total(rng, seats as u64, ends);
    (Trial { null: rng.once_in(2), ..Trial::of(&seated, total) }, seated)
}

fn total(rng: &mut Rng, seats: u64, ends: bool) -> u64 {
    match rng.below(8) {
        0..=1 => rng.pick(&EDGES),
        // around one round and two
        2..=3 => (TURN_MOST * seats * rng.pick(&[1, 2]) + rng.pick(&[0, 1, 2])).saturating_sub(1),
        4..=5 if ends => rng.pick(&LARGE),
        _ => rng.between(0, LONG as i64) as u64,
    }
}

fn record(rng: &mut Rng) -> Seat {
    let stop = if rng.once_in(6) { rng.pick(&STOPS) } else { 0 };
    let used = rng.pick(&[0, 0, 1, 100, (1 << 32) - 1, 1 << 32, u64::MAX - 100, u64::MAX - 1, u64::MAX]);
    let rest = if rng.once_in(3) { rng.between(0, SHORT as i64) as u64 } else { rng.pick(&EDGES) };
    let limit = match rng.below(10) {
        // used up, and more than that
        0 => used - rng.pick(&[0, 1, 100]).min(used),
        1 => u64::MAX,
        _ => used.saturating_add(rest),
    };
    Seat { limit, used, stop }
}

/// A record of a seat that can go on, for more than a turn.
fn going(rng: &mut Rng) -> Seat {
    let used = rng.pick(&[0, 7, 1 << 32]);
    Seat { limit: used + rng.between(TURN_MOST as i64 + 1, SHORT as i64) as u64, used, stop: 0 }
}

/// What a seat's machine does; whether it is sure to stop.
fn program(rng: &mut Rng, machine: &mut trial::Trial) -> bool {
    match rng.below(8) {
        // anything, which mostly stops soon
        0 => false,
        1..=2 => {
            cuts::put_loop(rng, machine);
            false
        }
        3 => {
            calm(machine);
            put(machine, 0, instruction(ADD, imm(1), reg(A)));
            put(machine, 1, instruction(JMP, imm(0), NONE));
            false
        }
        _ => {
            let (steps, why) =
                (rng.pick(&[0, 1, 50, 98, 99, 100, 101, 102, 150, 198, 199]), rng.between(1, 7) as u64);
            stops_after(machine, steps, why);
            true
        }
    }
}

/// In supervisor mode at cell 0, and nothing interrupts.
fn calm(machine: &mut trial::Trial) {
    let row = &mut machine.lent.row;
    row[at::PC] = 0;
    row[at::SR] = SUPERVISOR;
    row[at::CYCLES] = 0;
    row[at::PENDING] = 0;
    row[at::TIMER_INTERVAL] = 0;
    row[at::TIMER_REMAINING] = 0;
    row[at::TIMER_MARK] = 0;
}

/// After so many steps, fewer than 200, it stops by this number.
pub fn stops_after(machine: &mut trial::Trial, steps: usize, why: u64) {
    calm(machine);
    let nop = instruction(NOP, NONE, NONE);
    for address in 0..=steps {
        put(machine, address, nop);
    }
    let last = match why {
        stop::RESET => instruction(RESET, NONE, NONE),
        stop::NO_HANDLER => instruction(TRAP, NONE, NONE),
        stop::CELL_ERROR => instruction(RTI, NONE, NONE),
        stop::EXTRACT => instruction(JMP, imm(-1), NONE),
        stop::INVALID_REGISTER => instruction(LD, imm(-1), reg(SP)),
        stop::OUTPUT_FULL => instruction(OUT, imm(65), dir(SERIAL_DATA_PORT.into())),
        _ => nop,
    };
    put(machine, steps, last);
    match why {
        stop::NO_HANDLER => put(machine, INTERRUPT_HANDLER as usize, EMPTY),
        // an instruction where rti takes pc from, unless that is where it stands
        stop::CELL_ERROR if steps != INTERRUPT_PC_SAVE as usize => {
            put(machine, INTERRUPT_PC_SAVE as usize, nop)
        }
        stop::OUTPUT_FULL => machine.lent.row[at::OUTPUT_COUNT] = machine.lent.output.len() as i64,
        stop::CYCLES_FULL => machine.lent.row[at::CYCLES] = i64::MAX - steps as i64,
        _ => {}
    }
}

/// A bench with some of it drawn anew; nothing is known of it before.
pub fn anything(rng: &mut Rng, seats: usize) -> Trial {
    let (mut trial, _) = draw(rng, seats);
    trial.total = trial.total.min(LONG);
    let lent = &mut trial.lent;
    for _ in 0..rng.below(3) {
        let place = rng.below(lent.rows.len());
        lent.rows[place] = rng.pick(&[-1, 0, 1, 2, 257, 4_294_967_296, i64::MAX, i64::MIN]);
    }
    if rng.once_in(4) {
        let from = 3 * rng.below(lent.cells.len() / 3);
        lent.cells[from..from + 3].copy_from_slice(&rng.pick(&DAMAGED));
    }
    if rng.once_in(16) {
        trial.seats = rng.below(SEATS_MOST as usize + 2) as u64;
    }
    if rng.once_in(16) {
        let length = rng.below(2 * seats + 1);
        lent.list.resize(length, Seat::default());
    }
    match rng.below(32) {
        0 => lent.cells.truncate(rng.below(3 * CELLS_LEAST * seats)),
        1 => lent.queues.truncate(rng.below(seats + 1)),
        2 => lent.outputs.push(0),
        3 => lent.rows.truncate(rng.below(lent.rows.len())),
        _ => {}
    }
    trial
}
