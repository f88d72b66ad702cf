use std::fmt;

/// An exception, entered through cell 200.
#[derive(Clone, Copy, Debug, PartialEq, Eq, Hash)]
pub enum Exception {
    /// Code 0: the console's interrupt.
    HardwareInterrupt,
    /// Code 1: a division by 0, or of the smallest word by -1.
    DivByZero,
    /// Code 2: a cell that is no instruction, or a shift by less than 0 or more than 63.
    InvalidInstruction,
    /// Code 3: what only supervisor mode may do.
    PrivilegedInstruction,
    /// Code 4: the instruction trap.
    Trap,
    /// Code 5: a fetch, an operand, a store or the stack outside the cells.
    InvalidMemoryAccess,
}

impl Exception {
    /// All of them, by their codes.
    pub const ALL: [Exception; 6] = [
        Exception::HardwareInterrupt,
        Exception::DivByZero,
        Exception::InvalidInstruction,
        Exception::PrivilegedInstruction,
        Exception::Trap,
        Exception::InvalidMemoryAccess,
    ];

    /// Its code, 0 to 5.
    pub fn code(self) -> u64 {
        self as u64
    }

    pub(crate) fn of(code: u64) -> Self {
        Self::ALL[code as usize]
    }
}

impl fmt::Display for Exception {
    fn fmt(&self, f: &mut fmt::Formatter) -> fmt::Result {
        f.write_str(match self {
            Exception::HardwareInterrupt => "interrupt",
            Exception::DivByZero => "division by zero",
            Exception::InvalidInstruction => "invalid instruction",
            Exception::PrivilegedInstruction => "privileged instruction",
            Exception::Trap => "trap",
            Exception::InvalidMemoryAccess => "invalid memory access",
        })
    }
}
