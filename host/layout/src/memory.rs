//! Cells and ports with a meaning of their own.

pub const INTERRUPT_PC_SAVE: u32 = 100;
pub const INTERRUPT_SR_SAVE: u32 = 101;
pub const INTERRUPT_EXCEPTION: u32 = 102;
pub const INTERRUPT_HANDLER: u32 = 200;

/// The cells that exception entry fills.
pub const SAVES: [u32; 3] = [INTERRUPT_PC_SAVE, INTERRUPT_SR_SAVE, INTERRUPT_EXCEPTION];

pub const SERIAL_STATUS_PORT: u32 = 110;
pub const SERIAL_DATA_PORT: u32 = 111;
pub const TIMER_INTERVAL_PORT: u32 = 120;
pub const TIMER_REMAINING_PORT: u32 = 121;

/// What the status port reads.
pub const STATUS_INPUT_READY: i64 = 1;
pub const STATUS_OUTPUT_READY: i64 = 2;
pub const STATUS_INTERRUPT: i64 = 4;
