use std::fmt;

use layout::cell::{EMPTY, TAG_WORD, word};

/// What a cell of memory, or the register a or b, holds.
#[derive(Clone, Copy, Debug, Default, PartialEq, Eq, Hash)]
pub enum Cell {
    /// Nothing; it reads as word 0 and cannot be executed.
    #[default]
    Empty,
    /// A signed word.
    Word(i64),
    /// An instruction by its numbers. With numbers that are no instruction's the cell is damaged, and no call takes it.
    Instruction {
        /// Which instruction with which modes and registers, 2 or more.
        tag: i64,
        /// The first operand's number, or 0.
        first: i64,
        /// The second operand's number, or 0.
        second: i64,
    },
}

impl Cell {
    /// The cell of three numbers.
    pub fn from_numbers(numbers: [i64; 3]) -> Self {
        match numbers {
            EMPTY => Cell::Empty,
            [TAG_WORD, word, 0] => Cell::Word(word),
            [tag, first, second] => Cell::Instruction { tag, first, second },
        }
    }

    /// Its tag, first and second.
    pub fn numbers(self) -> [i64; 3] {
        match self {
            Cell::Empty => EMPTY,
            Cell::Word(held) => word(held),
            Cell::Instruction { tag, first, second } => [tag, first, second],
        }
    }
}

impl fmt::Display for Cell {
    fn fmt(&self, f: &mut fmt::Formatter) -> fmt::Result {
        match self {
            Cell::Empty => write!(f, "empty"),
            Cell::Word(word) => write!(f, "word {word}"),
            Cell::Instruction { tag, first, second } => write!(f, "instruction {tag},{first},{second}"),
        }
    }
}
