//! The C interface as it is, for the tests: every number as it comes, null pointers too, and the library as a machine to compare.

mod calls;
mod library;

pub use calls::{
    assemble, back, bench, deliver, deliver_journal, drain, drain_journal, exercise, fresh, fresh_journal,
    list, load, load_journal, raise, raise_journal, read_cell, run, run_journal, set_register,
    set_register_journal, take_over,
};
pub use library::Library;
pub use z33_sys::{
    z33_benched as Benched, z33_cell as Cell, z33_counted as Counted, z33_done as Done,
    z33_drained as Drained, z33_raised as Raised, z33_ran as Ran, z33_seat as Seat,
};
