use std::{error, fmt};

use layout::{ROW, refusal};

/// Why a call was refused. A refused call has changed nothing.
#[derive(Clone, Copy, Debug, PartialEq, Eq, Hash)]
pub enum Refusal {
    /// 1: the cells are not 3 numbers each for 256 to 10,000 cells.
    Cells,
    /// 2: the queue is not 1 to 4,096 bytes.
    Queue,
    /// 3: the output record is over 65,536 bytes.
    Output,
    /// 4: the row is not 20 long (place 0), or its number at this place, from 1, is out of its range.
    Row {
        /// The lowest such place, or 0.
        place: u64,
    },
    /// 5: a cell is damaged.
    DamagedCell {
        /// The lowest such address.
        address: u64,
    },
    /// 6: more bytes than the queue has free places.
    Delivery,
    /// 7: the buffer is shorter than what was written.
    Drain,
    /// 8: the address, or the image's start, is outside the cells.
    Address,
    /// 9: the image is no whole number of cells, runs past the end, or holds a damaged cell.
    Image,
    /// 10: the register cannot be set, or pc or sp would be no address.
    Register,
    /// 11: the code is none of an exception.
    Code,
    /// 13: a line of a program is outside the grammar, has round brackets over 32 deep, or has no cell left in the image.
    Text {
        /// The lowest such line, from 1.
        line: u64,
    },
    /// 14: a line of a program uses a label that is set nowhere, sets one again, or sets the 257th.
    Label {
        /// The lowest such line, from 1.
        line: u64,
    },
    /// 15: a line of a program has a value out of range.
    Value {
        /// The lowest such line, from 1.
        line: u64,
    },
    /// 16: the image has an empty cell, and a listing was not allowed it.
    EmptyCell,
    /// 17: the text buffer is too short.
    TextRoom,
    /// 19: the seats are not 1 to 16, the list has not one record a seat, or a buffer has not as much for each seat.
    Seats,
    /// 20: the journal has not 1 to 4,096 whole records behind start and count, these are out of their range, or the record to go back to is
    /// none of a machine with so many cells.
    Journal,
    /// 21: the journal has nothing to go back to.
    NothingKept,
}

impl Refusal {
    /// Its number, 1 to 11, 13 to 17 or 19 to 21.
    pub fn number(self) -> u64 {
        match self {
            Refusal::Cells => refusal::CELLS,
            Refusal::Queue => refusal::QUEUE,
            Refusal::Output => refusal::OUTPUT,
            Refusal::Row { .. } => refusal::ROW,
            Refusal::DamagedCell { .. } => refusal::DAMAGED_CELL,
            Refusal::Delivery => refusal::DELIVERY,
            Refusal::Drain => refusal::DRAIN,
            Refusal::Address => refusal::ADDRESS,
            Refusal::Image => refusal::IMAGE,
            Refusal::Register => refusal::REGISTER,
            Refusal::Code => refusal::CODE,
            Refusal::Text { .. } => refusal::TEXT,
            Refusal::Label { .. } => refusal::LABEL,
            Refusal::Value { .. } => refusal::VALUE,
            Refusal::EmptyCell => refusal::EMPTY_CELL,
            Refusal::TextRoom => refusal::TEXT_ROOM,
            Refusal::Seats => refusal::SEATS,
            Refusal::Journal => refusal::JOURNAL,
            Refusal::NothingKept => refusal::NOTHING_KEPT,
        }
    }

    /// The row's place, from 1, the cell's address or the line, or 0.
    pub fn place(self) -> u64 {
        match self {
            Refusal::Row { place } => place,
            Refusal::DamagedCell { address } => address,
            Refusal::Text { line } | Refusal::Label { line } | Refusal::Value { line } => line,
            _ => 0,
        }
    }

    /// Nothing to refuse, or the refusal of a number and place.
    pub(crate) fn check(number: u64, place: u64) -> Result<(), Self> {
        Err(match number {
            refusal::NONE => return Ok(()),
            refusal::CELLS => Refusal::Cells,
            refusal::QUEUE => Refusal::Queue,
            refusal::OUTPUT => Refusal::Output,
            refusal::ROW => Refusal::Row { place },
            refusal::DAMAGED_CELL => Refusal::DamagedCell { address: place },
            refusal::DELIVERY => Refusal::Delivery,
            refusal::DRAIN => Refusal::Drain,
            refusal::ADDRESS => Refusal::Address,
            refusal::IMAGE => Refusal::Image,
            refusal::REGISTER => Refusal::Register,
            refusal::CODE => Refusal::Code,
            refusal::TEXT => Refusal::Text { line: place },
            refusal::LABEL => Refusal::Label { line: place },
            refusal::VALUE => Refusal::Value { line: place },
            refusal::EMPTY_CELL => Refusal::EmptyCell,
            refusal::TEXT_ROOM => Refusal::TextRoom,
            refusal::SEATS => Refusal::Seats,
            refusal::JOURNAL => Refusal::Journal,
            refusal::NOTHING_KEPT => Refusal::NothingKept,
            _ => unreachable!(
                "the library is proved to refuse with 1 to 11, 13 to 17 and 19 to 21, and refused with {number}"
            ),
        })
    }
}

impl fmt::Display for Refusal {
    fn fmt(&self, f: &mut fmt::Formatter) -> fmt::Result {
        match self {
            Refusal::Cells => write!(f, "the cells are not three numbers each for 256 to 10,000 cells"),
            Refusal::Queue => write!(f, "the queue is not 1 to 4,096 bytes"),
            Refusal::Output => write!(f, "the output record is over 65,536 bytes"),
            Refusal::Row { place: 0 } => write!(f, "the row is not {ROW} numbers"),
            Refusal::Row { place } => write!(f, "the row's number {place} is out of its range"),
            Refusal::DamagedCell { address } => write!(f, "the cell at {address} is damaged"),
            Refusal::Delivery => write!(f, "more bytes than the queue has free places"),
            Refusal::Drain => write!(f, "the buffer is shorter than what was written"),
            Refusal::Address => write!(f, "the address is outside the cells"),
            Refusal::Image => {
                write!(f, "the image has no whole cells, runs past the end or holds a damaged cell")
            }
            Refusal::Register => write!(f, "the register cannot be set to that"),
            Refusal::Code => write!(f, "no exception has that code"),
            Refusal::Text { line } => {
                write!(f, "line {line} of the program cannot be read, or the image has no cell for it")
            }
            Refusal::Label { line } => {
                write!(f, "line {line} of the program has a label that is missing, set again or one too many")
            }
            Refusal::Value { line } => write!(f, "line {line} of the program has a value out of range"),
            Refusal::EmptyCell => write!(f, "the image has an empty cell, which the listing was not allowed"),
            Refusal::TextRoom => write!(f, "the buffer is shorter than the image's text"),
            Refusal::Seats => write!(f, "the seats are not 1 to 16 with a record and equal parts for each"),
            Refusal::Journal => {
                write!(f, "the journal is none of 1 to 4,096 steps, or its last step is none of this machine")
            }
            Refusal::NothingKept => write!(f, "the journal has nothing to go back to"),
        }
    }
}

impl error::Error for Refusal {}

/// Why a bench was refused, and which seat. Nothing has changed then.
#[derive(Clone, Copy, Debug, PartialEq, Eq, Hash)]
pub struct SeatRefusal {
    /// The refusal; its place is within the seat's part.
    pub refusal: Refusal,
    /// The lowest such seat, from 1, or 0 for [`Refusal::Seats`], which concerns them all.
    pub seat: u64,
}

impl fmt::Display for SeatRefusal {
    fn fmt(&self, f: &mut fmt::Formatter) -> fmt::Result {
        match self.seat {
            0 => write!(f, "{}", self.refusal),
            seat => write!(f, "seat {seat}: {}", self.refusal),
        }
    }
}

impl error::Error for SeatRefusal {}
