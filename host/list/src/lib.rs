//! What is lent to a machine, what a machine can be asked, cases, and the recorded list's text.
//! None of it needs the original.

mod case;
pub mod command;
mod lent;
mod reader;
mod writer;

pub use case::{Answer, Call, Case, Recorded};
pub use lent::{CELLS, Lent, Machine, Plain};
pub use reader::replay;
pub use writer::{Writer, case_lines};
