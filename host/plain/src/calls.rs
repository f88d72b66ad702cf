//! The calls over lent numbers, for arguments that they accept.

use layout::cell::{self, word};
use layout::{Row, at, code, memory, refusal, reg, row, stop};

use crate::cell::address_in;
use crate::console::Console;
use crate::machine::{Held, MOST_CYCLES, Machine, State, enter};
use crate::timer::Timer;

pub struct Ran {
    pub stop: u64,
    pub detail: u64,
    pub steps: u64,
    /// Words that the completed steps took from empty cells.
    pub empty: u64,
}

/// Stop 0: the exception was entered.
pub struct Raised {
    pub stop: u64,
    pub detail: u64,
}

pub fn run(cells: &mut [i64], queue: &mut [u8], output: &mut [u8], row: &mut Row, budget: u64) -> Ran {
    let console = console_of(queue, output, row);
    let (timer, state) = (timer_of(row), state_of(row));
    let mut machine = Machine { cells, console, timer, state, empty: 0, closed: 0, held: None };
    let mut ran = Ran { stop: stop::BUDGET_SPENT, detail: 0, steps: 0, empty: 0 };
    while ran.steps < budget {
        match machine.step() {
            Ok(empty) => ran.empty = ran.empty.saturating_add(empty),
            Err(stop) => {
                (ran.stop, ran.detail) = stop;
                break;
            }
        }
        ran.steps += 1;
    }
    put_state(row, &machine.state);
    put_console(row, &machine.console);
    put_timer(row, &machine.timer);
    ran
}

/// A step that was begun: the row before it, and what the cells that it wrote held, in order of writing.
pub struct Begun {
    pub row: Row,
    pub held: Vec<Held>,
}

/// A run that keeps "for every step begun, the row before and what the cells it wrote held" (document 02, Card 11), the first one first.
pub fn run_kept(
    cells: &mut [i64],
    queue: &mut [u8],
    output: &mut [u8],
    row: &mut Row,
    budget: u64,
    mut keep: impl FnMut(Begun),
) -> Ran {
    let mut ran = Ran { stop: stop::BUDGET_SPENT, detail: 0, steps: 0, empty: 0 };
    while ran.steps < budget && ran.stop == stop::BUDGET_SPENT {
        let before = *row;
        let console = console_of(queue, output, row);
        let (timer, state) = (timer_of(row), state_of(row));
        let mut machine =
            Machine { cells, console, timer, state, empty: 0, closed: 0, held: Some(Vec::new()) };
        match machine.step() {
            Ok(empty) => {
                ran.steps += 1;
                ran.empty = ran.empty.saturating_add(empty);
            }
            Err(stop) => (ran.stop, ran.detail) = stop,
        }
        let held = machine.held.take().unwrap_or_default();
        put_state(row, &machine.state);
        put_console(row, &machine.console);
        put_timer(row, &machine.timer);
        // "stops 6 and 7 begin no step"
        if !matches!(ran.stop, stop::OUTPUT_FULL | stop::CYCLES_FULL) {
            keep(Begun { row: before, held });
        }
    }
    ran
}

/// The refusal's number, 0 where the bytes were delivered.
pub fn deliver(queue: &mut [u8], row: &mut Row, bytes: &[u8]) -> u64 {
    let mut console = console_of(queue, &mut [], row);
    if bytes.len() > console.queue.len() - console.count {
        return refusal::DELIVERY;
    }
    console.deliver(bytes);
    put_console(row, &console);
    refusal::NONE
}

/// The refusal's number and the count of bytes copied to the front of the buffer.
pub fn drain(output: &[u8], row: &mut Row, buffer: &mut [u8]) -> (u64, u64) {
    let count = row[at::OUTPUT_COUNT] as usize;
    if buffer.len() < count {
        return (refusal::DRAIN, 0);
    }
    buffer[..count].copy_from_slice(&output[..count]);
    row[at::OUTPUT_COUNT] = 0;
    (refusal::NONE, count as u64)
}

/// False where it is refused.
pub fn set_register(row: &mut Row, reg: u64, value: i64) -> bool {
    match reg as i64 {
        reg::A => row::put_cell(row, at::A, word(value)),
        reg::B => row::put_cell(row, at::B, word(value)),
        reg::PC if address_in(value).is_some() => row[at::PC] = value,
        reg::SP if address_in(value).is_some() => row[at::SP] = value,
        _ => return false,
    }
    true
}

/// None where the code is not 0 to 5.
pub fn raise(cells: &mut [i64], row: &mut Row, code: u64) -> Option<Raised> {
    if code >= code::CODES {
        return None;
    }
    let mut state = state_of(row);
    let before = memory::SAVES.map(|address| cell::get(cells, address as usize));
    if !enter(cells, &mut state, code) {
        return Some(Raised { stop: stop::NO_HANDLER, detail: code });
    }
    if state.cycles == MOST_CYCLES {
        for (address, saved) in memory::SAVES.into_iter().zip(before) {
            cell::put(cells, address as usize, saved);
        }
        return Some(Raised { stop: stop::CYCLES_FULL, detail: 0 });
    }
    state.cycles += 1;
    put_state(row, &state);
    Some(Raised { stop: stop::ENTERED, detail: 0 })
}

fn state_of(row: &Row) -> State {
    State {
        a: row::cell(row, at::A),
        b: row::cell(row, at::B),
        pc: row[at::PC] as u32,
        sp: row[at::SP] as u32,
        sr: row[at::SR],
        cycles: row[at::CYCLES] as u64,
        fence: row[at::FENCE] as u32,
    }
}

fn put_state(row: &mut Row, state: &State) {
    row::put_cell(row, at::A, state.a);
    row::put_cell(row, at::B, state.b);
    row[at::PC] = state.pc.into();
    row[at::SP] = state.sp.into();
    row[at::SR] = state.sr;
    row[at::CYCLES] = state.cycles as i64;
}

fn timer_of(row: &Row) -> Timer {
    Timer {
        interval: row[at::TIMER_INTERVAL] as u64,
        remaining: row[at::TIMER_REMAINING] as u64,
        mark: row[at::TIMER_MARK] == 1,
        written: false,
    }
}

fn put_timer(row: &mut Row, timer: &Timer) {
    row[at::TIMER_INTERVAL] = timer.interval as i64;
    row[at::TIMER_REMAINING] = timer.remaining as i64;
    row[at::TIMER_MARK] = timer.mark.into();
}

fn console_of<'a>(queue: &'a mut [u8], output: &'a mut [u8], row: &Row) -> Console<'a> {
    Console {
        enable: row[at::ENABLE] == 1,
        flag: row[at::FLAG] == 1,
        pending: row[at::PENDING] == 1,
        queue,
        start: row[at::QUEUE_START] as usize,
        count: row[at::QUEUE_COUNT] as usize,
        output,
        written: row[at::OUTPUT_COUNT] as usize,
    }
}

fn put_console(row: &mut Row, console: &Console) {
    row[at::ENABLE] = console.enable.into();
    row[at::FLAG] = console.flag.into();
    row[at::PENDING] = console.pending.into();
    row[at::QUEUE_START] = console.start as i64;
    row[at::QUEUE_COUNT] = console.count as i64;
    row[at::OUTPUT_COUNT] = console.written as i64;
}
