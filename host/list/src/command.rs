//! What the commands share: their arguments and how they end.

use std::env;
use std::process::ExitCode;

/// Runs a command on its arguments and prints its lines, or why there are none.
pub fn tell(name: &str, said: impl FnOnce(&[&str]) -> Result<Vec<String>, String>) -> ExitCode {
    let arguments: Vec<String> = env::args().skip(1).collect();
    let arguments: Vec<&str> = arguments.iter().map(String::as_str).collect();
    match said(&arguments) {
        Ok(lines) => {
            println!("{}", lines.join("\n"));
            ExitCode::SUCCESS
        }
        Err(why) => {
            println!("{name}: {why}");
            ExitCode::FAILURE
        }
    }
}

pub fn number(text: &str) -> Result<u64, String> {
    text.parse().map_err(|_| format!("{text} is no number"))
}
