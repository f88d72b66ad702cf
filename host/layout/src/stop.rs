//! Why a run ended.

pub const BUDGET_SPENT: u64 = 0;
pub const RESET: u64 = 1;
/// Detail: the exception's code.
pub const NO_HANDLER: u64 = 2;
pub const CELL_ERROR: u64 = 3;
pub const EXTRACT: u64 = 4;
/// Detail: the register.
pub const INVALID_REGISTER: u64 = 5;
/// This one and the next leave the machine as it was before the step.
pub const OUTPUT_FULL: u64 = 6;
pub const CYCLES_FULL: u64 = 7;

/// Raise answers this where the exception was entered.
pub const ENTERED: u64 = 0;
