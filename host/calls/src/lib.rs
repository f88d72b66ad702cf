//! The calls on any lengths and contents: a plain model of them, generators, and the library held to the model.
//! None of it needs the original.

mod accepted;
mod anything;
mod asked;
mod bench;
mod check;
mod coverage;
mod cuts;
mod damaged;
mod exercise;
mod faults;
mod guarded;
mod huge;
mod journal;
mod model;
mod refusals;
mod tags;
mod trial;

use std::fs;

/// The recorded list replayed on the library, then the calls held to the model.
pub fn all(list: &str, seed: u64) -> Result<Vec<String>, String> {
    let text = fs::read_to_string(list).map_err(|why| format!("{list}: {why}"))?;
    let (cases, calls) = list::replay(&text, &mut z33::Library)?;
    let mut lines = vec![format!("recorded list: {cases} cases, {calls} calls, each answered as recorded")];
    lines.extend(check::check(seed)?);
    Ok(lines)
}
