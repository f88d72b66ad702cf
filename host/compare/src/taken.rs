//! Words that a step takes from empty cells, and empty cells whose word it does not take (document 02, Card 2); and where the fence stops it
//! (Card 5).

mod coverage;
mod possible;
mod trace;

pub use coverage::Coverage;
pub use trace::{Port, at_fence, events, port, written};

/// What a cell is asked for, or where it goes.
#[derive(Clone, Copy, Debug, PartialEq, Eq, PartialOrd, Ord)]
pub enum Way {
    /// The word of an operand that is register a or b.
    Operand,
    /// The word of an operand in memory.
    Memory,
    /// The word of the register beside the operand.
    Register,
    /// Register a or b that gives an operand's address.
    Base,
    /// The same once more, for swap's write.
    BaseAgain,
    /// A cell that is put into this register.
    Into(i64),
    /// The other cell of swap, put into its first register.
    IntoFirst(i64),
    IntoMemory,
    /// Cell 100, for rti.
    SavedPc,
    /// Cell 101, for rti.
    SavedSr,
    /// The cell at sp, for rtn.
    Return,
}

/// Why an empty cell's word is not taken.
#[derive(Clone, Copy, Debug, PartialEq, Eq, PartialOrd, Ord)]
pub enum Reason {
    JumpNotTaken,
    /// It is for sr, and S is clear.
    UserMode,
    /// The step has ended before.
    Ended,
    /// The cell goes into a, b or memory as it is.
    Carried,
}

/// An empty cell that a step meets.
#[derive(Clone, Copy, Debug, PartialEq, Eq, PartialOrd, Ord)]
pub enum Event {
    Taken(Way),
    Left(Reason, Way),
}

/// How many words the events take.
pub fn count(events: &[Event]) -> u64 {
    events.iter().filter(|event| matches!(event, Event::Taken(_))).count() as u64
}
