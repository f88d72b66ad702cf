//! What the request says of every bench, asked of what the call was lent and what it left; rounds are not looked at.

use layout::limit::TURN_MOST;
use z33::Seat;

use super::class::{Class, Machine, Trial, machine_of};
use super::model::can_go_on;

/// Nothing, or what does not hold. `after` is what a bench that was done has left.
pub fn hold(trial: &Trial, after: &mut Class, left: u64) -> Result<(), String> {
    let before = &trial.lent;
    adds_up(&before.list, &after.list, trial.total, left)?;
    ended(&after.list, left)?;
    waited(&before.list, &after.list)?;
    (0..before.list.len()).try_for_each(|at| by_itself(before, after, at))
}

/// "Steps used add up to what left the total, counted from what the list held before."
fn adds_up(before: &[Seat], after: &[Seat], total: u64, left: u64) -> Result<(), String> {
    let sum = |list: &[Seat], total: u64| {
        list.iter().map(|seat| u128::from(seat.used)).sum::<u128>() + u128::from(total)
    };
    let kept = before.iter().zip(after).all(|(b, a)| {
        a.limit == b.limit && b.used <= a.used && a.used <= b.limit.max(b.used) && (can_go_on(b) || a == b)
    });
    if !kept {
        return Err("a limit was changed or passed, or a seat had a turn that could not go on".into());
    }
    if sum(before, total) != sum(after, left) {
        return Err("steps used do not add up to what left the total".into());
    }
    Ok(())
}

/// "until the total is spent or nobody can go on"
fn ended(after: &[Seat], left: u64) -> Result<(), String> {
    if left == 0 || !after.iter().any(can_go_on) { Ok(()) } else { Err("it ended too early".into()) }
}

/// "A seat that can go on waits for at most 100 steps of each other seat while the total lasts": so no other seat has taken 101 more.
fn waited(before: &[Seat], after: &[Seat]) -> Result<(), String> {
    let taken = |at: usize| after[at].used - before[at].used;
    for waiting in (0..after.len()).filter(|at| can_go_on(&after[*at])) {
        if let Some(other) = (0..after.len()).find(|other| taken(*other) > taken(waiting) + TURN_MOST) {
            return Err(format!(
                "seat {} waited for {} steps of seat {}",
                waiting + 1,
                taken(other) - taken(waiting),
                other + 1
            ));
        }
    }
    Ok(())
}

/// "A seat's machine is the one it would reach by itself in runs of the same turn budgets": budgets add, so one run of the plain interpreter
/// gets there, on one step more where it stopped.
fn by_itself(before: &Class, after: &mut Class, at: usize) -> Result<(), String> {
    let seats = before.list.len();
    let (first, last) = (before.list[at], after.list[at]);
    let stopped = can_go_on(&first) && last.stop != 0;
    let budget = last.used - first.used + u64::from(stopped);
    let Machine { cells, queue, output, row } = machine_of(after, seats, at);
    let mut due = before.copy_of(at);
    let ran = plain::run(
        &mut due.cells,
        &mut due.queues,
        &mut due.outputs,
        due.rows.as_mut_slice().try_into().expect("a row"),
        budget,
    );
    let stop = if can_go_on(&first) { ran.stop as u32 } else { first.stop };
    let same = due.cells == cells && due.queues == queue && due.outputs == output && due.rows == row;
    if same && stop == last.stop && ran.steps == last.used - first.used {
        Ok(())
    } else {
        let (stop, steps) = (ran.stop, ran.steps);
        Err(format!(
            "seat {} is not where {budget} steps by itself lead, stop {stop} after {steps}, or its machine is another",
            at + 1
        ))
    }
}
