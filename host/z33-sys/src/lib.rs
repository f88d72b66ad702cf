//! include/z33.h in Rust: its structs and its functions, libz33.a linked. Crate `z33` is the one to use; this one is for what needs the
//! numbers of C, and pointers.

#![deny(missing_docs)]

mod answers;
mod functions;

pub use answers::{z33_benched, z33_cell, z33_counted, z33_done, z33_drained, z33_raised, z33_ran, z33_seat};
pub use functions::{
    z33_assemble, z33_back, z33_bench, z33_deliver, z33_deliver_journal, z33_drain, z33_drain_journal,
    z33_exercise, z33_fresh, z33_fresh_journal, z33_list, z33_load, z33_load_journal, z33_raise,
    z33_raise_journal, z33_read_cell, z33_run, z33_run_journal, z33_set_register, z33_set_register_journal,
    z33_take_over,
};
