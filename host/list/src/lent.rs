//! The four lent buffers and the calls over them, in the shape of the C interface.

use layout::{Cell, ROW, Row, cell, limit, refusal};

use crate::case::Answer;

/// The original's MEMORY_SIZE; every recorded machine has this many cells.
pub const CELLS: usize = limit::CELLS_MOST;

#[derive(Clone, PartialEq, Eq)]
pub struct Lent {
    pub cells: Vec<i64>,
    pub queue: Vec<u8>,
    pub output: Vec<u8>,
    pub row: Row,
}

impl Lent {
    /// Empty cells, zero bytes and a row of zeros.
    pub fn zero(cells: usize, queue: usize, output: usize) -> Self {
        Self {
            cells: vec![0; cell::LENGTH * cells],
            queue: vec![0; queue],
            output: vec![0; output],
            row: [0; ROW],
        }
    }

    pub fn cell(&self, address: usize) -> Cell {
        cell::get(&self.cells, address)
    }

    pub fn put_cell(&mut self, address: usize, cell: Cell) {
        cell::put(&mut self.cells, address, cell);
    }
}

/// What is compared with the judge. Each call is lent everything and holds nothing back.
pub trait Machine {
    fn run(&mut self, lent: &mut Lent, budget: u64) -> Answer;
    fn deliver(&mut self, lent: &mut Lent, bytes: &[u8]) -> Answer;
    fn drain(&mut self, lent: &mut Lent, buffer: &mut [u8]) -> Answer;
    fn raise(&mut self, lent: &mut Lent, code: u64) -> Answer;
    fn set_register(&mut self, lent: &mut Lent, reg: u64, word: i64) -> Answer;
}

/// The plain interpreter as such a machine.
pub struct Plain;

impl Machine for Plain {
    fn run(&mut self, lent: &mut Lent, budget: u64) -> Answer {
        let Lent { cells, queue, output, row } = lent;
        let ran = plain::run(cells, queue, output, row, budget);
        Answer { stop: ran.stop, detail: ran.detail, count: ran.steps, empty: ran.empty, ..Answer::DONE }
    }

    fn deliver(&mut self, lent: &mut Lent, bytes: &[u8]) -> Answer {
        Answer::refused(plain::deliver(&mut lent.queue, &mut lent.row, bytes))
    }

    fn drain(&mut self, lent: &mut Lent, buffer: &mut [u8]) -> Answer {
        let (refusal, count) = plain::drain(&lent.output, &mut lent.row, buffer);
        Answer { refusal, count, ..Answer::DONE }
    }

    fn raise(&mut self, lent: &mut Lent, code: u64) -> Answer {
        match plain::raise(&mut lent.cells, &mut lent.row, code) {
            Some(raised) => Answer { stop: raised.stop, detail: raised.detail, ..Answer::DONE },
            None => Answer::refused(refusal::CODE),
        }
    }

    fn set_register(&mut self, lent: &mut Lent, reg: u64, word: i64) -> Answer {
        let taken = plain::set_register(&mut lent.row, reg, word);
        Answer::refused(if taken { refusal::NONE } else { refusal::REGISTER })
    }
}
