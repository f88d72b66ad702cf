//! The proved library against the unchanged original.

mod long_runs;

use compare::exercise;
use compare::harness::Harness;
use compare::modes::{self, Size};
use z33::Library;

/// About two million steps. `z33_run` looks at all 10,000 cells in each call, so that a step on a budget of 1 takes
/// 20 to 40 µs with its comparison; all of it stays below two minutes on one core. The pairs are the judge's alone
/// and have their number in host/check.
pub const CHECK: Size =
    Size { singles: 750_000, programs: 1_600, pairs: 200, fenced: 100_000, timed: 150_000, loads: 160 };

/// Every mode of the judge with `z33_run` on a budget of 1 for each step, and once more on each run's whole budget;
/// then runs on large budgets.
pub fn compared(size: &Size, seed: u64) -> Result<Vec<String>, String> {
    let mut lines = modes::all(&mut Harness::new(&mut Library), size, seed)?;
    lines.push(long_runs::check(seed + 3)?);
    lines.push(loads(size.loads, seed)?);
    Ok(lines)
}

/// Exercise loads, filled by the library: the first of this seed.
pub fn loads(count: usize, seed: u64) -> Result<String, String> {
    exercise::check(
        &mut Library,
        |image, seed| assert_eq!(z33::exercise(image, seed).refusal, 0),
        count,
        seed,
    )
}
