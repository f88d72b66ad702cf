//! A plain interpreter over the lent numbers, written from the sentences of documents 01 and 02 and not from the original.
//! It is compared with the judge after every step, replays the recorded list where the original is not at hand,
//! and is the loop that speed is measured against. It trusts its caller to lend only what `run` accepts.

mod calls;
mod cell;
mod console;
mod instructions;
mod machine;
mod timer;

pub use calls::{Begun, Raised, Ran, deliver, drain, raise, run, run_kept, set_register};
pub use cell::{cost, sound};
pub use machine::Held;
