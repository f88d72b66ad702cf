//! `calls LIST [SEED]`: the recorded list and the model of the calls on the library. The original is not needed.

use std::process::ExitCode;

use list::command::{number, tell};

fn main() -> ExitCode {
    tell("library", |arguments| match *arguments {
        [list] => calls::all(list, 1),
        [list, seed] => calls::all(list, number(seed)?),
        _ => Err("calls LIST [SEED]".into()),
    })
}
