//! `library check LIST [SEED]`: the library in every mode of the judge, with complete coverage, then the recorded list
//! and the model of the calls.
//! `library long STEPS [SEED]`: about so many steps more against the judge.
//! `library exercise SEED [LOADS]`: exercise loads, the first of this seed.

use std::process::ExitCode;

use compare::modes::Size;
use library::CHECK;
use list::command::{number, tell};

fn main() -> ExitCode {
    tell("library", |arguments| match *arguments {
        ["check", list] => check(list, "1"),
        ["check", list, seed] => check(list, seed),
        ["long", steps] => long(steps, "1000"),
        ["long", steps, seed] => long(steps, seed),
        ["exercise", seed] => loads(seed, "1"),
        ["exercise", seed, count] => loads(seed, count),
        _ => Err("library check LIST [SEED] | long STEPS [SEED] | exercise SEED [LOADS]".into()),
    })
}

/// The short parts first: what they notice is told at once.
fn check(list: &str, seed: &str) -> Result<Vec<String>, String> {
    let seed = number(seed)?;
    let mut lines = calls::all(list, seed)?;
    lines.extend(library::compared(&CHECK, seed)?);
    Ok(lines)
}

fn long(steps: &str, seed: &str) -> Result<Vec<String>, String> {
    library::compared(&Size::of(number(steps)? as usize), number(seed)?)
}

fn loads(seed: &str, count: &str) -> Result<Vec<String>, String> {
    Ok(vec![library::loads(number(count)? as usize, number(seed)?)?])
}
