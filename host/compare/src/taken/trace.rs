//! What a step meets, told from the machine before it, operand by operand and without arithmetic; `plain`, which counts while it
//! interprets, is not asked.

use layout::cell::{self, EMPTY, word, word_in};
use layout::limit::ADDRESS_LAST;
use layout::memory::{INTERRUPT_PC_SAVE, INTERRUPT_SR_SAVE};
use layout::sr::{NEGATIVE, SUPERVISOR, ZERO};
use layout::{Cell, Row, at, row};

use super::Event::{self, Left, Taken};
use super::Reason::{self, Carried, Ended, JumpNotTaken, UserMode};
use super::Way::{
    self, Base, BaseAgain, Into, IntoFirst, IntoMemory, Memory, Register, Return, SavedPc, SavedSr,
};
use crate::forms::*;

/// The events of the step that fetches this instruction, in order.
pub fn events(row: &Row, cells: &[i64], fetched: Cell) -> Vec<Event> {
    trace(row, cells, fetched).events
}

/// The registers where the fence stops the write of that step; none where it does not.
pub fn at_fence(row: &Row, cells: &[i64], fetched: Cell) -> Option<Row> {
    if closed(row) == 0 {
        return None;
    }
    trace(row, cells, fetched).at_fence
}

/// The address that the step's instruction writes, or would but for the fence.
pub fn written(row: &Row, cells: &[i64], fetched: Cell) -> Option<i64> {
    trace(row, cells, fetched).written
}

/// The port that `in` or `out` comes to, and the word that `out` brings.
#[derive(Clone, Copy, Debug, PartialEq, Eq)]
pub struct Port {
    pub port: i64,
    pub word: Option<i64>,
}

/// What port that step uses.
pub fn port(row: &Row, cells: &[i64], fetched: Cell) -> Option<Port> {
    trace(row, cells, fetched).port
}

/// No write below here; S is that of the step's beginning.
fn closed(row: &Row) -> i64 {
    if row[at::SR] & SUPERVISOR == 0 { row[at::FENCE] } else { 0 }
}

fn trace<'a>(row: &Row, cells: &'a [i64], [tag, first, second]: Cell) -> Trace<'a> {
    let (Form { op, m1, m2 }, (r1, r2)) = split(tag);
    let mut trace = Trace {
        cells,
        row: *row,
        closed: closed(row),
        pushed: None,
        written: None,
        at_fence: None,
        port: None,
        why_not: None,
        events: Vec::new(),
    };
    trace.row[at::PC] += 1;
    trace.instruction(op, (m1, r1, first), (m2, r2, second));
    trace
}

struct Trace<'a> {
    cells: &'a [i64],
    /// The registers, pc moved on.
    row: Row,
    closed: i64,
    /// The cell that call has filled.
    pushed: Option<i64>,
    /// Where the instruction writes.
    written: Option<i64>,
    /// The registers where the fence stopped it.
    at_fence: Option<Row>,
    port: Option<Port>,
    /// Why no more words are taken.
    why_not: Option<Reason>,
    events: Vec<Event>,
}

impl Trace<'_> {
    fn instruction(&mut self, op: i64, x: Operand, y: Operand) {
        match op {
            CALL => {
                self.push(word(self.row[at::PC]));
                self.pushed = self.why_not.is_none().then_some(self.row[at::SP]);
                self.word(x);
            }
            JMP..=JGT => {
                self.why_not = (!self.jumps(op)).then_some(JumpNotTaken);
                self.word(x);
            }
            LD => {
                if let Some(cell) = self.cell(x) {
                    self.put(Into(y.1), y.1, cell);
                }
            }
            FAS => self.fas(x, y.1),
            IN => {
                self.privileged();
                let port = self.address(Base, x);
                self.use_port(port, None);
            }
            OUT => {
                self.privileged();
                let word = self.word(x);
                let port = self.address(Base, y);
                self.use_port(port, word);
            }
            NEG | NOT => {
                self.word(x);
            }
            POP => {
                if let Some(cell) = self.pop() {
                    self.put(Into(x.1), x.1, cell);
                }
            }
            PUSH => {
                if let Some(cell) = self.cell(x) {
                    self.push(cell);
                }
            }
            RTI => {
                self.privileged();
                let saved = |address: u32| cell::get(self.cells, address as usize);
                let (pc, sr) = (saved(INTERRUPT_PC_SAVE), saved(INTERRUPT_SR_SAVE));
                self.take_address(SavedPc, pc);
                self.take(SavedSr, sr);
            }
            RTN => {
                if let Some(cell) = self.pop() {
                    self.take_address(Return, cell);
                }
            }
            ST => {
                self.word(x);
                if let Some(address) = self.address(Base, y) {
                    self.store(address, word(0));
                }
            }
            SWAP => self.swap(x, y.1),
            op if TWO_WORDS.contains(&op) => {
                self.word(x);
                self.take(Register, self.register(y.1));
            }
            _ => {}
        }
    }

    fn fas(&mut self, x: Operand, y: i64) {
        let Some(address) = self.address(Base, x) else { return };
        let Some(cell) = self.read(address) else { return };
        self.store(address, word(1));
        if self.at_fence.is_none() {
            self.put(Into(y), y, cell);
        }
    }

    fn swap(&mut self, x: Operand, y: i64) {
        let (first, second) = (self.cell(x), self.register(y));
        if let Some(first) = first {
            self.put(Into(y), y, first);
        }
        if x.0 == REG {
            self.put(IntoFirst(x.1), x.1, second);
        } else if let Some(address) = self.address(BaseAgain, x) {
            self.store(address, second);
        }
    }

    /// A word that is needed; what is none ends the step.
    fn take(&mut self, way: Way, cell: Cell) -> Option<i64> {
        if cell == EMPTY {
            self.events.push(self.why_not.map_or(Taken(way), |reason| Left(reason, way)));
        }
        self.or_end(word_in(cell))
    }

    fn take_address(&mut self, way: Way, cell: Cell) -> Option<i64> {
        let address = self.take(way, cell).filter(|word| (0..=ADDRESS_LAST).contains(word));
        self.or_end(address)
    }

    fn or_end<T>(&mut self, taken: Option<T>) -> Option<T> {
        if taken.is_none() {
            self.why_not.get_or_insert(Ended);
        }
        taken
    }

    fn address(&mut self, way: Way, (mode, reg, number): Operand) -> Option<i64> {
        let word = match mode {
            DIR => number,
            _ => self.take(way, self.register(reg))?.wrapping_add(number),
        };
        self.or_end((0..=ADDRESS_LAST).contains(&word).then_some(word))
    }

    /// The cell at an address; none where that is outside.
    fn read(&mut self, address: i64) -> Option<Cell> {
        let inside = (address as usize) < self.cells.len() / cell::LENGTH;
        let filled = self.pushed == Some(address);
        self.or_end(inside.then(|| if filled { word(0) } else { cell::get(self.cells, address as usize) }))
    }

    fn cell(&mut self, x: Operand) -> Option<Cell> {
        match x.0 {
            IMM => Some(word(x.2)),
            REG => Some(self.register(x.1)),
            _ => {
                let address = self.address(Base, x)?;
                self.read(address)
            }
        }
    }

    fn word(&mut self, x: Operand) -> Option<i64> {
        let cell = self.cell(x)?;
        self.take(if x.0 == REG { Way::Operand } else { Memory }, cell)
    }

    fn use_port(&mut self, port: Option<i64>, word: Option<i64>) {
        if self.why_not.is_none() {
            self.port = port.map(|port| Port { port, word });
        }
    }

    fn register(&self, reg: i64) -> Cell {
        match reg {
            A => row::cell(&self.row, at::A),
            B => row::cell(&self.row, at::B),
            PC => word(self.row[at::PC]),
            SP => word(self.row[at::SP]),
            _ => word(self.row[at::SR]),
        }
    }

    fn put(&mut self, way: Way, reg: i64, cell: Cell) {
        match reg {
            A | B => {
                self.carry(way, cell);
                if self.why_not.is_none() {
                    row::put_cell(&mut self.row, if reg == A { at::A } else { at::B }, cell);
                }
            }
            SR if self.row[at::SR] & SUPERVISOR == 0 => {
                self.why_not.get_or_insert(UserMode);
                self.take(way, cell);
                self.why_not = Some(Ended);
            }
            SR => self.row[at::SR] = self.take(way, cell).unwrap_or(self.row[at::SR]),
            PC => self.row[at::PC] = self.take_address(way, cell).unwrap_or(self.row[at::PC]),
            _ => self.row[at::SP] = self.take_address(way, cell).unwrap_or(self.row[at::SP]),
        }
    }

    fn carry(&mut self, way: Way, cell: Cell) {
        if cell == EMPTY && self.why_not.is_none() {
            self.events.push(Left(Carried, way));
        }
    }

    fn store(&mut self, address: i64, cell: Cell) {
        if self.why_not.is_none() {
            self.written = Some(address);
            if address < self.closed {
                self.at_fence = Some(self.row);
                self.why_not = Some(Ended);
            }
        }
        if self.read(address).is_some() {
            self.carry(IntoMemory, cell);
        }
    }

    fn push(&mut self, cell: Cell) {
        self.row[at::SP] = if self.row[at::SP] == 0 { ADDRESS_LAST } else { self.row[at::SP] - 1 };
        self.store(self.row[at::SP], cell);
    }

    fn pop(&mut self) -> Option<Cell> {
        let cell = self.read(self.row[at::SP])?;
        self.row[at::SP] += 1;
        Some(cell)
    }

    fn privileged(&mut self) {
        self.or_end((self.row[at::SR] & SUPERVISOR != 0).then_some(()));
    }

    fn jumps(&self, op: i64) -> bool {
        let (zero, negative) = (self.row[at::SR] & ZERO != 0, self.row[at::SR] & NEGATIVE != 0);
        match op {
            JMP => true,
            JEQ => zero,
            JNE => !zero,
            JLE => zero || negative,
            JLT => negative && !zero,
            JGE => zero || !negative,
            _ => !zero && !negative,
        }
    }
}
