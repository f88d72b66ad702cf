//! What holds after every step, whatever the machine: checked on the judge itself.

use judge::Step;
use layout::cell::{self, is_instruction, word};
use layout::limit::ADDRESS_LAST;
use layout::memory::{INTERRUPT_HANDLER, SAVES};
use layout::sr::{INTERRUPT_ENABLE, SUPERVISOR};
use layout::{Cell, Row, at, code, reg, row, stop};

/// What the judge held before a step.
pub struct Before {
    pub row: Row,
    pub fetched: Option<Cell>,
}

pub fn check(
    before: &Before,
    step: &Step,
    row: &Row,
    cells: &[i64],
    changed: &[usize],
) -> Result<(), String> {
    counts(before, step, row, changed.len())?;
    if before.row[at::SR] & SUPERVISOR == 0 {
        console_kept(&before.row, row)?;
        fence_kept(&before.row, step, changed)?;
        if before.row[at::TIMER_INTERVAL] != row[at::TIMER_INTERVAL] {
            return Err("a step begun with S clear set the timer".into());
        }
        if row[at::SR] & SUPERVISOR != 0 {
            entered(step, row, cells)?;
        }
    }
    if step.stop >= stop::OUTPUT_FULL && (before.row != *row || !changed.is_empty()) {
        return Err("stop 6 or 7 changed the machine".into());
    }
    if before.row[at::FENCE] != row[at::FENCE] {
        return Err("a step moved the fence".into());
    }
    if !(0..=row[at::TIMER_INTERVAL]).contains(&row[at::TIMER_REMAINING]) {
        return Err("more of the timer's interval remains than there is".into());
    }
    Ok(())
}

/// A step adds at most 3 cycles and writes at most 4 cells; a completed one adds at least 1.
fn counts(before: &Before, step: &Step, row: &Row, changed: usize) -> Result<(), String> {
    let added = row[at::CYCLES] - before.row[at::CYCLES];
    if !(i64::from(step.completed)..=3).contains(&added) || changed > 4 {
        return Err(format!("{added} cycles added, {changed} cells changed"));
    }
    let details = match step.stop {
        stop::NO_HANDLER => 0..=code::CODES - 1,
        stop::INVALID_REGISTER => reg::PC as u64..=reg::SR as u64,
        _ => 0..=0,
    };
    if step.completed != (step.stop == stop::BUDGET_SPENT) || !details.contains(&step.detail) {
        return Err("stop and detail do not fit".into());
    }
    Ok(())
}

/// A step begun with S clear leaves the console, its pending mark aside.
fn console_kept(before: &Row, after: &Row) -> Result<(), String> {
    let console = |row: &Row| row::CONSOLE.map(|place| row[place]);
    if console(before) == console(after) {
        return Ok(());
    }
    Err("a step begun with S clear changed the console".into())
}

/// A step begun with S clear changes no cell below the fence but 100 to 102, and those only where it enters the handler.
fn fence_kept(before: &Row, step: &Step, changed: &[usize]) -> Result<(), String> {
    let saved = |address: &usize| SAVES.iter().any(|save| *save as usize == *address);
    let below = changed.iter().find(|address| {
        (**address as i64) < before[at::FENCE] && !(saved(address) && step.entered.is_some())
    });
    match below {
        None => Ok(()),
        Some(address) => Err(format!("a step begun with S clear changed cell {address} below the fence")),
    }
}

/// The step that sets S is completed and ends at pc 200, an instruction there, with cells 100 to 102 filled.
fn entered(step: &Step, row: &Row, cells: &[i64]) -> Result<(), String> {
    let saved = SAVES.map(|address| cell::get(cells, address as usize));
    let [pc, sr, code] = saved.map(|cell| cell[1]);
    let mut due = sr | SUPERVISOR;
    if code == code::HARDWARE_INTERRUPT as i64 {
        due &= !INTERRUPT_ENABLE;
    }
    let facts = [
        step.completed,
        step.entered == u64::try_from(code).ok(),
        row[at::PC] == i64::from(INTERRUPT_HANDLER),
        is_instruction(cell::get(cells, INTERRUPT_HANDLER as usize)),
        saved == [pc, sr, code].map(word),
        (0..=ADDRESS_LAST).contains(&pc),
        sr & SUPERVISOR == 0,
        (0..code::CODES as i64).contains(&code),
        row[at::SR] == due,
    ];
    match facts.iter().position(|fact| !fact) {
        None => Ok(()),
        Some(i) => Err(format!("entry from user mode: fact {} does not hold", i + 1)),
    }
}
