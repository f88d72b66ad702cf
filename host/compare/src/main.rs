//! `compare check [SEED]`: every mode on the plain interpreter, with complete coverage.
//! `compare long STEPS [SEED]`: about so many steps more.
//! `compare exercise SEED [LOADS]`: exercise loads, the first of this seed.
//! `compare record FILE`: writes the recorded list.

use std::fs;
use std::process::ExitCode;

use compare::exercise;
use compare::harness::Harness;
use compare::modes::{self, Size};
use compare::record;
use draws::exercise::fill;
use list::command::{number, tell};

fn main() -> ExitCode {
    tell("judge", |arguments| match *arguments {
        ["check"] => check(&modes::CHECK, "1"),
        ["check", seed] => check(&modes::CHECK, seed),
        ["long", steps] => long(steps, "1000"),
        ["long", steps, seed] => long(steps, seed),
        ["exercise", seed] => loads(seed, "1"),
        ["exercise", seed, count] => loads(seed, count),
        ["record", file] => write_list(file),
        _ => Err("compare check [SEED] | long STEPS [SEED] | exercise SEED [LOADS] | record FILE".into()),
    })
}

fn check(size: &Size, seed: &str) -> Result<Vec<String>, String> {
    let (mut plain, seed) = (list::Plain, number(seed)?);
    let mut lines = modes::all(&mut Harness::new(&mut plain), size, seed)?;
    lines.push(exercise::check(&mut plain, fill, size.loads, seed)?);
    Ok(lines)
}

fn loads(seed: &str, count: &str) -> Result<Vec<String>, String> {
    Ok(vec![exercise::check(&mut list::Plain, fill, number(count)? as usize, number(seed)?)?])
}

fn long(steps: &str, seed: &str) -> Result<Vec<String>, String> {
    check(&Size::of(number(steps)? as usize), seed)
}

fn write_list(file: &str) -> Result<Vec<String>, String> {
    let list = record::list()?;
    fs::write(file, &list.text).map_err(|why| format!("{file}: {why}"))?;
    Ok(vec![format!(
        "recorded list: {} cases ({} for the runner), {} steps, {} bytes; the last {} cases read an operand outside the cells, and have \
         the plain interpreter's answers",
        list.cases,
        list.for_runner,
        list.steps,
        list.text.len(),
        list.of_plain
    )])
}
