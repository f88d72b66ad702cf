//! Replays a recorded list on the plain interpreter: `replay FILE`. The original is not needed.

use std::fs;
use std::process::ExitCode;

fn main() -> ExitCode {
    list::command::tell("recorded list", |arguments| match arguments {
        [path] => replayed(path),
        _ => Err("which file?".into()),
    })
}

fn replayed(path: &str) -> Result<Vec<String>, String> {
    let text = fs::read_to_string(path).map_err(|why| format!("{path}: {why}"))?;
    let (cases, calls) = list::replay(&text, &mut list::Plain)?;
    Ok(vec![format!(
        "recorded list: {cases} cases, {calls} calls, the plain interpreter answers each the same"
    )])
}
