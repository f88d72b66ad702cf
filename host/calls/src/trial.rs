//! A call with everything that is lent to it, and its answer.

use layout::{ROW, journal, refusal};

#[derive(Clone, Copy, Debug, PartialEq, Eq, PartialOrd, Ord)]
pub enum Call {
    Fresh,
    Run,
    Deliver,
    Drain,
    ReadCell,
    Load,
    SetRegister,
    Raise,
    FreshJournal,
    RunJournal,
    DeliverJournal,
    DrainJournal,
    LoadJournal,
    SetRegisterJournal,
    RaiseJournal,
    Back,
}

use Call::{
    Back, Deliver, DeliverJournal, Drain, DrainJournal, Fresh, FreshJournal, Load, LoadJournal, Raise,
    RaiseJournal, ReadCell, Run, RunJournal, SetRegister, SetRegisterJournal,
};

pub const CALLS: [Call; 16] = [
    Fresh,
    Run,
    Deliver,
    Drain,
    ReadCell,
    Load,
    SetRegister,
    Raise,
    FreshJournal,
    RunJournal,
    DeliverJournal,
    DrainJournal,
    LoadJournal,
    SetRegisterJournal,
    RaiseJournal,
    Back,
];

#[derive(Clone, Copy, Debug, PartialEq, Eq, PartialOrd, Ord)]
pub enum Buffer {
    Cells,
    Queue,
    Output,
    Row,
    /// Bytes to deliver, or the drain buffer.
    Bytes,
    Image,
    Journal,
}

impl Call {
    /// The same call without a journal; going back has none.
    pub fn own(self) -> Self {
        match self {
            FreshJournal => Fresh,
            RunJournal => Run,
            DeliverJournal => Deliver,
            DrainJournal => Drain,
            LoadJournal => Load,
            SetRegisterJournal => SetRegister,
            RaiseJournal => Raise,
            call => call,
        }
    }

    /// "Calls, with what each is lent", and what else it is given.
    pub fn lends(self) -> &'static [Buffer] {
        use Buffer::{Bytes, Cells, Image, Journal, Output, Queue, Row};
        match self {
            Fresh | Raise => &[Cells, Row],
            Run => &[Cells, Queue, Output, Row],
            Deliver => &[Queue, Row, Bytes],
            Drain => &[Output, Row, Bytes],
            ReadCell => &[Cells],
            Load => &[Cells, Image],
            SetRegister => &[Row],
            FreshJournal | RaiseJournal | Back => &[Cells, Row, Journal],
            RunJournal => &[Cells, Queue, Output, Row, Journal],
            DeliverJournal => &[Queue, Row, Journal, Bytes],
            DrainJournal => &[Output, Row, Journal, Bytes],
            LoadJournal => &[Cells, Journal, Image],
            SetRegisterJournal => &[Row, Journal],
        }
    }

    pub fn is_lent(self, buffer: Buffer) -> bool {
        self.lends().contains(&buffer)
    }

    /// The refusals of "Turned back" that it can give.
    pub fn refusals(self) -> Vec<u64> {
        let own = match self.own() {
            Fresh => vec![refusal::CELLS, refusal::ROW],
            Run => vec![refusal::CELLS, refusal::QUEUE, refusal::OUTPUT, refusal::ROW, refusal::DAMAGED_CELL],
            Deliver => vec![refusal::QUEUE, refusal::ROW, refusal::DELIVERY],
            Drain => vec![refusal::OUTPUT, refusal::ROW, refusal::DRAIN],
            ReadCell => vec![refusal::CELLS, refusal::DAMAGED_CELL, refusal::ADDRESS],
            Load => vec![refusal::CELLS, refusal::ADDRESS, refusal::IMAGE],
            SetRegister => vec![refusal::ROW, refusal::REGISTER],
            Raise => vec![refusal::CELLS, refusal::ROW, refusal::DAMAGED_CELL, refusal::CODE],
            _ => vec![refusal::CELLS, refusal::ROW],
        };
        let journal = self.is_lent(Buffer::Journal).then_some(refusal::JOURNAL);
        let back = (self == Back).then_some(refusal::NOTHING_KEPT);
        own.into_iter().chain(journal).chain(back).collect()
    }
}

/// What a call may be lent; a buffer that it is not lent is empty.
#[derive(Clone, Default, PartialEq, Eq)]
pub struct Lent {
    pub cells: Vec<i64>,
    pub queue: Vec<u8>,
    pub output: Vec<u8>,
    pub row: Vec<i64>,
    pub bytes: Vec<u8>,
    pub image: Vec<i64>,
    pub journal: Vec<i64>,
}

#[derive(Clone)]
pub struct Trial {
    pub call: Call,
    /// Budget, cell address, image start, register or code.
    pub number: u64,
    /// The word for a register.
    pub word: i64,
    pub lent: Lent,
    /// Whether empty buffers come as null pointers.
    pub null: bool,
}

impl Trial {
    pub fn length(&self, buffer: Buffer) -> usize {
        match buffer {
            Buffer::Cells => self.lent.cells.len(),
            Buffer::Queue => self.lent.queue.len(),
            Buffer::Output => self.lent.output.len(),
            Buffer::Row => self.lent.row.len(),
            Buffer::Bytes => self.lent.bytes.len(),
            Buffer::Image => self.lent.image.len(),
            Buffer::Journal => self.lent.journal.len(),
        }
    }

    /// For a message: everything but the cells' numbers and the bytes.
    pub fn told(&self) -> String {
        let lengths: Vec<String> =
            self.call.lends().iter().map(|buffer| format!("{buffer:?} {}", self.length(*buffer))).collect();
        let (call, number, word, row) = (self.call, self.number, self.word, &self.lent.row);
        let row = &row[..row.len().min(ROW + 1)];
        let head = &self.lent.journal[..self.lent.journal.len().min(journal::RING)];
        format!(
            "{call:?} with number {number}, word {word}, lengths {}, null {}, row {row:?}, journal {head:?}",
            lengths.join(", "),
            self.null
        )
    }
}

/// The most numbers that follow refusal and place: run's.
pub const REST: usize = 4;

/// Any call's answer; `rest` is what follows refusal and place in its struct, 0 where there is nothing more.
#[derive(Clone, Copy, Debug, Default, PartialEq, Eq)]
pub struct Answer {
    pub refusal: u64,
    pub place: u64,
    pub rest: [i64; REST],
}

impl Answer {
    pub fn done(rest: [i64; REST]) -> Self {
        Self { rest, ..Self::default() }
    }

    pub fn refused((refusal, place): (u64, u64)) -> Self {
        Self { refusal, place, ..Self::default() }
    }
}
