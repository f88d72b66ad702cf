use std::fmt;

/// A register of the machine.
#[derive(Clone, Copy, Debug, PartialEq, Eq, Hash)]
pub enum Register {
    /// a, which holds a cell of any kind.
    A,
    /// b, which holds a cell of any kind.
    B,
    /// The program counter, an address.
    Pc,
    /// The stack pointer, an address.
    Sp,
    /// The status register, a word with the bits Z, N, V, I and S.
    Sr,
}

impl Register {
    /// All of them, by their numbers.
    pub const ALL: [Register; 5] = [Register::A, Register::B, Register::Pc, Register::Sp, Register::Sr];

    /// Its number, 0 to 4.
    pub fn number(self) -> u64 {
        self as u64
    }

    pub(crate) fn of(number: u64) -> Self {
        Self::ALL[number as usize]
    }
}

impl fmt::Display for Register {
    fn fmt(&self, f: &mut fmt::Formatter) -> fmt::Result {
        f.write_str(match self {
            Register::A => "a",
            Register::B => "b",
            Register::Pc => "pc",
            Register::Sp => "sp",
            Register::Sr => "sr",
        })
    }
}
