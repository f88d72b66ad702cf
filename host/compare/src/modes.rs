//! Every generator in turn on one harness, and what it came to.

use list::Case;

use crate::coverage::{BASE_KINDS, Kind};
use crate::harness::Harness;
use crate::rng::Rng;
use crate::{directed, fence, forms, pairs, programs, single, tags, timer, words};

/// How much of each generator is run.
pub struct Size {
    pub singles: usize,
    pub programs: usize,
    pub pairs: usize,
    /// Single steps with a fence, and a program with one for each five hundred of them.
    pub fenced: usize,
    /// Single steps with the timer, and a program with it for each five hundred of them.
    pub timed: usize,
    /// Exercise loads of 10,000 cells.
    pub loads: usize,
}

impl Size {
    /// About so many steps: two in three are single ones; a program takes about eight hundred.
    pub fn of(steps: usize) -> Self {
        Self {
            singles: steps / 3 * 2,
            programs: steps / 2_400,
            pairs: steps / 600,
            fenced: steps / 8,
            timed: steps / 8,
            loads: steps / 20_000,
        }
    }
}

/// About two million steps; a quarter of a minute on the plain interpreter.
pub const CHECK: Size =
    Size { singles: 800_000, programs: 1_700, pairs: 4_000, fenced: 200_000, timed: 300_000, loads: 300 };

/// Runs every mode; lines that say what was compared, or the first difference.
pub fn all(harness: &mut Harness, size: &Size, seed: u64) -> Result<Vec<String>, String> {
    let tags = tags::check()?;
    let directed = directed::check(harness)?;
    let fenced = directed::check_fenced(&mut harness.apart())?;
    let timed = directed::check_timed(&mut harness.apart())?;
    singles(harness, size.singles, seed)?;
    let after_singles = harness.steps;
    words::each(|case| checked(harness, case))?;
    let after_words = harness.steps;
    programs(harness, size.programs, seed)?;
    let user = pairs::check(&mut Rng::new(seed + 2), size.pairs, 300)?;
    let (after_programs, calls, outside) = (harness.steps, harness.calls, harness.read_outside);
    let at_ports = harness.timer.steps();
    reached(harness.coverage.missing(&BASE_KINDS, 1))?;
    with_a_fence(harness, size.fenced, seed + 3)?;
    reached([harness.coverage.missing(&[Kind::Fenced], 1), harness.fence.missing()].concat())?;
    with_the_timer(harness, size.timed, seed + 4)?;
    let missing = harness.coverage.missing(&[Kind::Timed], 1);
    reached([missing, harness.timer.missing(), harness.taken.missing()].concat())?;
    let mut lines = vec![
        format!("{tags} cells: sound, encoding and cost as the original's types have them"),
        format!(
            "{directed} directed cases as written out by hand, {fenced} with a fence, {timed} with the timer"
        ),
        format!(
            "{} steps and {} calls compared: single {after_singles}, words {}, programs {}; of these steps {} read an operand \
             outside the cells, and are held to the original's stop with its own entry of code 5 after it; {at_ports} use the \
             timer's ports, or come after it was turned on there",
            after_programs,
            calls,
            after_words - after_singles,
            after_programs - after_words,
            outside
        ),
        harness.fence.told(),
        harness.timer.told(),
        format!("{user} steps in user mode by two machines with different consoles, alike"),
    ];
    lines.extend(harness.coverage.told());
    lines.extend(harness.taken.told());
    Ok(lines)
}

fn singles(harness: &mut Harness, count: usize, seed: u64) -> Result<(), String> {
    let (mut rng, forms) = (Rng::new(seed), forms::all());
    for turn in 0..count {
        // every other round of the forms with many empty cells
        let draw = if turn / (forms.len() + 1) % 2 == 0 { single::draw } else { single::draw_empty };
        checked(harness, &draw(&mut rng, &forms, turn))?;
    }
    Ok(())
}

fn programs(harness: &mut Harness, count: usize, seed: u64) -> Result<(), String> {
    let mut rng = Rng::new(seed + 1);
    for _ in 0..count {
        checked(harness, &programs::draw(&mut rng))?;
    }
    Ok(())
}

/// Single steps and programs with a fence.
fn with_a_fence(harness: &mut Harness, singles: usize, seed: u64) -> Result<(), String> {
    let (mut rng, draws) = (Rng::new(seed), fence::Singles::default());
    for turn in 0..singles {
        checked(harness, &draws.draw(&mut rng, turn))?;
    }
    for _ in 0..singles / 500 {
        checked(harness, &fence::program(&mut rng))?;
    }
    Ok(())
}

/// Single steps and programs with the timer.
fn with_the_timer(harness: &mut Harness, singles: usize, seed: u64) -> Result<(), String> {
    let (mut rng, draws) = (Rng::new(seed), timer::Singles::default());
    for turn in 0..singles {
        checked(harness, &draws.draw(&mut rng, turn))?;
    }
    for _ in 0..singles / 500 {
        checked(harness, &timer::program(&mut rng))?;
    }
    Ok(())
}

fn reached(missing: Vec<String>) -> Result<(), String> {
    if missing.is_empty() {
        return Ok(());
    }
    Err(format!("{} pairs not reached: {}", missing.len(), missing.join(", ")))
}

/// A difference is told with the case it is found in, in the recorded list's form.
fn checked(harness: &mut Harness, case: &Case) -> Result<(), String> {
    let tell = |why| format!("{why}\n{}{:?}", list::case_lines(1, case), case.calls);
    harness.check(case).map(|_| ()).map_err(tell)
}
