//! Registers, operands, exception entry and the step.

use layout::Cell;
use layout::cell::{self, EMPTY, is_instruction, word, word_in};
use layout::code::{HARDWARE_INTERRUPT, INVALID_INSTRUCTION, INVALID_MEMORY_ACCESS, PRIVILEGED_INSTRUCTION};
use layout::limit::CYCLES_MOST;
use layout::memory::{INTERRUPT_EXCEPTION, INTERRUPT_HANDLER, INTERRUPT_PC_SAVE, INTERRUPT_SR_SAVE, SAVES};
use layout::sr::{INTERRUPT_ENABLE, SUPERVISOR};
use layout::{mode, reg, stop};

use crate::cell::{Operand, address_in, cost, decode};
use crate::console::Console;
use crate::timer::Timer;

pub const MOST_CYCLES: u64 = CYCLES_MOST as u64;
/// A step adds at most this: an instruction's cost of 2 and one for an entry.
const MOST_ADDED: u64 = 3;

pub type Stop = (u64, u64);

/// What ends an instruction before its end.
pub enum Fault {
    Code(u64),
    Reset,
    CellError,
    Extract,
    Register(i64),
    OutputFull,
}

pub struct Machine<'a> {
    pub cells: &'a mut [i64],
    pub console: Console<'a>,
    pub timer: Timer,
    pub state: State,
    /// Words that this step took from empty cells.
    pub empty: u64,
    /// This step's instruction may not write below here.
    pub closed: u32,
    /// What the cells that this step wrote held, where that is asked for.
    pub held: Option<Vec<Held>>,
}

/// A cell that was written: its address, and what it held just before.
#[derive(Clone, Copy, Debug, PartialEq, Eq)]
pub struct Held {
    pub address: u32,
    pub cell: Cell,
}

#[derive(Clone, Copy)]
pub struct State {
    pub a: Cell,
    pub b: Cell,
    pub pc: u32,
    pub sp: u32,
    pub sr: i64,
    pub cycles: u64,
    pub fence: u32,
}

impl Machine<'_> {
    /// How many words a completed step took from empty cells.
    pub fn step(&mut self) -> Result<u64, Stop> {
        self.empty = 0;
        if self.state.cycles > MOST_CYCLES - MOST_ADDED {
            self.step_near_the_limit()?;
        } else {
            self.step_with_room()?;
        }
        Ok(self.empty)
    }

    /// Takes the step and puts everything back where it passed the limit.
    fn step_near_the_limit(&mut self) -> Result<(), Stop> {
        let (cells, state, timer) = (self.cells.to_vec(), self.state, self.timer);
        let Console { enable, flag, pending, start, count, written, .. } = self.console;
        let output = self.console.output.to_vec();
        let result = self.step_with_room();
        if self.state.cycles <= MOST_CYCLES {
            return result;
        }
        self.cells.copy_from_slice(&cells);
        self.state = state;
        self.timer = timer;
        self.console.output.copy_from_slice(&output);
        let console = &mut self.console;
        (console.enable, console.flag, console.pending) = (enable, flag, pending);
        (console.start, console.count, console.written) = (start, count, written);
        Err((stop::CYCLES_FULL, 0))
    }

    fn step_with_room(&mut self) -> Result<(), Stop> {
        let pc = self.state.pc;
        self.closed = if self.has(SUPERVISOR) { 0 } else { self.state.fence };
        self.timer.written = false;
        match self.attempt() {
            Ok(spent) => {
                self.state.cycles += spent;
                self.timer.pass(spent);
                self.poll()
            }
            Err(Fault::Code(code)) => {
                self.enter(code)?;
                self.timer.pass(1);
                Ok(())
            }
            Err(Fault::Reset) => Err((stop::RESET, 0)),
            Err(Fault::CellError) => Err((stop::CELL_ERROR, 0)),
            Err(Fault::Extract) => Err((stop::EXTRACT, 0)),
            Err(Fault::Register(reg)) => Err((stop::INVALID_REGISTER, reg as u64)),
            Err(Fault::OutputFull) => {
                self.state.pc = pc;
                Err((stop::OUTPUT_FULL, 0))
            }
        }
    }

    /// Fetch and execute; the instruction's cost.
    fn attempt(&mut self) -> Result<u64, Fault> {
        let cell = self.read(self.state.pc)?;
        self.state.pc += 1;
        if !is_instruction(cell) {
            return Err(Fault::Code(INVALID_INSTRUCTION));
        }
        let decoded = decode(cell);
        self.execute(&decoded)?;
        Ok(cost(decoded.op, decoded.x.mode, decoded.y.mode))
    }

    /// If I is set, the console's pending mark or otherwise the timer's mark is taken and, if it was set, code 0 is entered.
    fn poll(&mut self) -> Result<(), Stop> {
        let mark = if self.console.pending { &mut self.console.pending } else { &mut self.timer.mark };
        if self.state.sr & INTERRUPT_ENABLE != 0 && std::mem::take(mark) {
            return self.enter(HARDWARE_INTERRUPT);
        }
        Ok(())
    }

    pub fn enter(&mut self, code: u64) -> Result<(), Stop> {
        let saves = SAVES.map(|address| Held { address, cell: cell::get(self.cells, address as usize) });
        if !enter(self.cells, &mut self.state, code) {
            return Err((stop::NO_HANDLER, code));
        }
        if let Some(held) = &mut self.held {
            held.extend(saves);
        }
        self.state.cycles += 1;
        Ok(())
    }

    pub fn has(&self, bit: i64) -> bool {
        self.state.sr & bit != 0
    }

    pub fn put_bit(&mut self, bit: i64, value: bool) {
        self.state.sr = if value { self.state.sr | bit } else { self.state.sr & !bit };
    }

    /// A read outside the cells is code 5, an operand's too (document 02, Card 9).
    pub fn read(&self, address: u32) -> Result<Cell, Fault> {
        read(self.cells, address).ok_or(Fault::Code(INVALID_MEMORY_ACCESS))
    }

    /// A store outside the cells is code 5, and so is one below the fence in a step begun with S clear (document 02, Card 5).
    pub fn write(&mut self, address: u32, cell: Cell) -> Result<(), Fault> {
        let Some(before) = read(self.cells, address).filter(|_| address >= self.closed) else {
            return Err(Fault::Code(INVALID_MEMORY_ACCESS));
        };
        write(self.cells, address, cell);
        if let Some(held) = &mut self.held {
            held.push(Held { address, cell: before });
        }
        Ok(())
    }

    pub fn get(&self, reg: i64) -> Cell {
        match reg {
            reg::A => self.state.a,
            reg::B => self.state.b,
            reg::PC => word(self.state.pc.into()),
            reg::SP => word(self.state.sp.into()),
            _ => word(self.state.sr),
        }
    }

    /// A cell's word. Empty is word 0, and it is counted that it was taken; an instruction has none.
    pub fn take(&mut self, cell: Cell) -> Option<i64> {
        self.empty += u64::from(cell == EMPTY);
        word_in(cell)
    }

    /// A cell's word as an address.
    pub fn take_address(&mut self, cell: Cell) -> Option<u32> {
        self.take(cell).and_then(address_in)
    }

    /// sr asks for S first; pc and sp take addresses, sr words; a and b cells as they are.
    pub fn set(&mut self, reg: i64, cell: Cell) -> Result<(), Fault> {
        let refused = Fault::Register(reg);
        match reg {
            reg::A => self.state.a = cell,
            reg::B => self.state.b = cell,
            reg::PC => self.state.pc = self.take_address(cell).ok_or(refused)?,
            reg::SP => self.state.sp = self.take_address(cell).ok_or(refused)?,
            _ => {
                self.privileged()?;
                self.state.sr = self.take(cell).ok_or(refused)?;
            }
        }
        Ok(())
    }

    pub fn privileged(&self) -> Result<(), Fault> {
        if self.has(SUPERVISOR) { Ok(()) } else { Err(Fault::Code(PRIVILEGED_INSTRUCTION)) }
    }

    /// The address that a memory operand names; none where its word is missing or no address.
    pub fn address(&mut self, operand: Operand) -> Option<u32> {
        if operand.mode == mode::DIR {
            return address_in(operand.number);
        }
        // an indirect operand's number is 0
        let base = self.take(self.get(operand.reg))?;
        address_in(base.wrapping_add(operand.number))
    }

    /// An operand's cell; a word that is no address is stop 4.
    pub fn cell_of(&mut self, operand: Operand) -> Result<Cell, Fault> {
        match operand.mode {
            mode::IMM => Ok(word(operand.number)),
            mode::REG => Ok(self.get(operand.reg)),
            _ => {
                let address = self.address(operand).ok_or(Fault::Extract)?;
                self.read(address)
            }
        }
    }

    pub fn word_of(&mut self, operand: Operand) -> Result<i64, Fault> {
        let cell = self.cell_of(operand)?;
        self.take(cell).ok_or(Fault::Extract)
    }
}

/// Exception entry without its cycle, which no fence stops; false where cell 200 is no instruction.
pub fn enter(cells: &mut [i64], state: &mut State, code: u64) -> bool {
    if !read(cells, INTERRUPT_HANDLER).is_some_and(is_instruction) {
        return false;
    }
    write(cells, INTERRUPT_PC_SAVE, word(state.pc.into()));
    write(cells, INTERRUPT_SR_SAVE, word(state.sr));
    write(cells, INTERRUPT_EXCEPTION, word(code as i64));
    state.sr |= SUPERVISOR;
    if code == HARDWARE_INTERRUPT {
        state.sr &= !INTERRUPT_ENABLE;
    }
    state.pc = INTERRUPT_HANDLER;
    true
}

fn read(cells: &[i64], address: u32) -> Option<Cell> {
    let at = cell::LENGTH * address as usize;
    Some([*cells.get(at)?, *cells.get(at + 1)?, *cells.get(at + 2)?])
}

/// At an address that is inside.
fn write(cells: &mut [i64], address: u32, cell: Cell) {
    cell::put(cells, address as usize, cell);
}
