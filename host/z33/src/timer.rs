/// The timer: after so many cycles it interrupts what runs with interrupts enabled. A kernel sets it by `out` at port 120.
#[derive(Clone, Copy, Debug, Default, PartialEq, Eq, Hash)]
pub struct Timer {
    /// The cycles from one interrupt to the next; 0 while it is off.
    pub interval: u64,
    /// The cycles that remain of them.
    pub remaining: u64,
    /// Whether its interrupt waits to be taken.
    pub mark: bool,
}
