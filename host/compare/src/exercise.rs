//! The exercise load at full size: 10,000 cells from a seed, with a handler, data and the console laid over them, run from
//! many places.

use list::{CELLS, Call, Case, Machine};

use crate::harness::Harness;
use crate::programs::{self, Layout};
use crate::rng::Rng;

/// What fills an image from a seed.
pub type Fill = fn(&mut [i64], u64);

/// Most runs of a load end after a few steps: a word in memory is an instruction.
const RUNS: usize = 250;

/// So many loads: of this seed, and of seeds drawn from it. A line on what was compared, or the first difference.
pub fn check(machine: &mut dyn Machine, fill: Fill, loads: usize, seed: u64) -> Result<String, String> {
    let mut harness = Harness::new(machine);
    let (mut seeds, mut of) = (Rng::new(seed), seed);
    for _ in 0..loads {
        let tell = |why| format!("exercise load of seed {of}: {why}");
        harness.check(&draw(fill, of)).map_err(tell)?;
        of = seeds.draw();
    }
    let (forms, least) = harness.coverage.forms_taken();
    let (reached, pairs) = harness.coverage.reached();
    if forms < 124 && loads >= ENOUGH {
        return Err(format!("exercise load: only {forms} forms were taken in {loads} loads"));
    }
    Ok(format!(
        "exercise load: {} steps and {} calls compared on {loads} loads of {CELLS} cells; {forms} forms taken, each {least} times or more; {reached} of {pairs} (form, outcome) pairs; {} steps read an operand outside",
        harness.steps, harness.calls, harness.read_outside
    ))
}

/// In so many loads every form is taken.
const ENOUGH: usize = 10;

/// All of it follows from the load's seed.
fn draw(fill: Fill, seed: u64) -> Case {
    let mut rng = Rng::new(seed);
    let mut image = vec![0; 3 * CELLS];
    fill(&mut image, seed);
    let mut case = Case::default();
    case.cells = image.chunks_exact(3).map(|cell| [cell[0], cell[1], cell[2]]).enumerate().collect();
    let layout = Layout { code: 0, length: CELLS as i64, data: rng.pick(&[90, 700, 9_900]), any_once_in: 12 };
    programs::put_data(&mut rng, &layout, &mut case);
    programs::put_handler(&mut rng, &layout, &mut case);
    programs::put_row(&mut rng, &layout, &mut case);
    programs::put_console(&mut rng, &mut case);
    case.calls = calls(&mut rng, &layout);
    case
}

/// Runs from anywhere, with other calls between them.
fn calls(rng: &mut Rng, layout: &Layout) -> Vec<Call> {
    let mut calls = Vec::new();
    for _ in 0..RUNS {
        calls.push(Call::Run(rng.between(1, 60) as u64));
        if rng.once_in(2) {
            calls.push(Call::SetRegister(rng.below(2) as u64, programs::near(rng, layout)));
        }
        if rng.once_in(4) {
            calls.push(Call::SetRegister(3, rng.between(0, 10_000)));
        }
        if rng.once_in(3) {
            let call = programs::other_call(rng);
            calls.push(call);
        }
        calls.push(Call::SetRegister(2, rng.between(0, layout.length - 1)));
    }
    calls
}
