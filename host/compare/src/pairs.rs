//! Demand 3 on the judge itself: two machines with S clear, alike but for their consoles, stay alike; their fences and timers are
//! equal.

use judge::Judge;
use layout::sr::SUPERVISOR;
use layout::{Row, at, row};
use list::Case;

use crate::rng::Rng;
use crate::timer::step;
use crate::{fence, programs, timer};

/// The count of steps that both took with S clear.
pub fn check(rng: &mut Rng, programs: usize, most_steps: usize) -> Result<u64, String> {
    let mut judges = [Judge::empty(), Judge::empty()];
    let mut steps = 0;
    for _ in 0..programs {
        let mut one = programs::draw(rng);
        one.row[at::SR] &= !SUPERVISOR;
        one.row[at::FENCE] = if rng.once_in(2) { fence::fence(rng) } else { 0 };
        if rng.once_in(2) {
            timer::put(rng, &mut one.row);
        }
        let two = other_console(rng, &one);
        for (judge, case) in judges.iter_mut().zip([&one, &two]) {
            let lent = case.lent();
            judge.put(&lent.cells, &lent.queue, &lent.output, &lent.row);
        }
        steps += together(&mut judges, most_steps)
            .map_err(|why| format!("{why}\n{}", list::case_lines(1, &one)))?;
    }
    Ok(steps)
}

/// Another console with the same pending mark.
fn other_console(rng: &mut Rng, one: &Case) -> Case {
    let mut two = one.clone();
    let (queue, output) = (1 + rng.below(9), rng.below(9));
    two.queue = (0..queue).map(|_| rng.byte()).collect();
    two.output = (0..output).map(|_| rng.byte()).collect();
    two.row[at::ENABLE] = rng.between(0, 1);
    two.row[at::FLAG] = rng.between(0, 1);
    two.row[at::QUEUE_START] = rng.below(queue) as i64;
    two.row[at::QUEUE_COUNT] = rng.below(queue + 1) as i64;
    two.row[at::OUTPUT_COUNT] = rng.below(output + 1) as i64;
    two
}

/// Steps both until S is set or one stops for good; a stop leaves both where they are.
fn together([one, two]: &mut [Judge; 2], most_steps: usize) -> Result<u64, String> {
    let console = |judge: &Judge| (judge.queue().to_vec(), judge.output().to_vec(), rest(judge.row()));
    let before = (console(one), console(two));
    for taken in 0..most_steps as u64 {
        if one.row()[at::SR] & SUPERVISOR != 0 {
            return Ok(taken);
        }
        let steps = (step(one), step(two));
        if steps.0 != steps.1 || shared(one.row()) != shared(two.row()) || one.cells() != two.cells() {
            return Err(format!("user mode: the two part: {steps:?}"));
        }
        if (console(one), console(two)) != before {
            return Err("user mode: a console changed".into());
        }
        if !steps.0.completed {
            return Ok(taken + 1);
        }
    }
    Ok(most_steps as u64)
}

/// The console's numbers, the pending mark aside.
fn rest(row: &Row) -> [i64; row::CONSOLE.len()] {
    row::CONSOLE.map(|place| row[place])
}

/// All others.
fn shared(row: &Row) -> Row {
    let mut shared = *row;
    row::CONSOLE.iter().for_each(|place| shared[*place] = 0);
    shared
}
