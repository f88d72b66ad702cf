//! The original's `Computer`, and the lent buffers that say the same in document 01's numbers.
//!
//! The buffers are brought up to date after each call. So that a step takes little time, only what it can touch
//! is looked at: the cells named by its operands, the stack's top and, after an entered exception, cells 100 to
//! 102; the console only after `in`, `out` or with the pending mark set. `verify` compares all of the buffers
//! with the `Computer`, so that this short way is itself checked.

use layout::cell::{self, is_instruction};
use layout::code::{
    DIV_BY_ZERO, HARDWARE_INTERRUPT, INVALID_INSTRUCTION, INVALID_MEMORY_ACCESS, PRIVILEGED_INSTRUCTION, TRAP,
};
use layout::limit::{CYCLES_MOST, OUTPUT_MOST, QUEUE_LEAST, QUEUE_MOST};
use layout::mode::DIR;
use layout::op::{IN, OUT};
use layout::{Cell as Flat, Form, ROW, Row, at, refusal, reg, row, stop};

use crate::console::{self, Marks};
use crate::constants::{
    INTERRUPT_EXCEPTION, INTERRUPT_HANDLER, INTERRUPT_PC_SAVE, INTERRUPT_SR_SAVE, MEMORY_SIZE,
};
use crate::encoding::{self, decode, encode};
use crate::places::{CELLS, Places, SAVES, may_have_written};
use crate::row::{DAMAGED, place};
use crate::runtime::arguments::ExtractError;
use crate::runtime::registers::StatusRegister;
use crate::runtime::{Computer, Exception, Instruction, IoBus, Memory, ProcessorError, Registers};

const MOST_CYCLES: usize = CYCLES_MOST as usize;

/// What one step came to. `stop` and `detail` are document 01's, both 0 where the step was completed.
#[derive(Clone, Copy, Debug, PartialEq, Eq)]
pub struct Step {
    pub stop: u64,
    pub detail: u64,
    pub completed: bool,
    /// The code of the exception that this completed step entered.
    pub entered: Option<u64>,
    /// An operand was read outside the cells. The original stops there, and what is told here is not its answer: see `attempt`.
    pub read_outside: bool,
    /// The fence stopped this step's write. The original has none: see `step_to_fence`.
    pub fenced: bool,
    /// The timer, which the original has not, was on, its mark set, or one of its ports used. This is told by who puts the timer around the
    /// original's step.
    pub timed: bool,
}

#[derive(Clone, Copy, Debug, PartialEq, Eq)]
pub struct Ran {
    pub stop: u64,
    pub detail: u64,
    pub steps: u64,
    /// How many steps, the last one among them, read an operand outside the cells.
    pub read_outside: u64,
}

/// Stop 0: the exception was entered.
#[derive(Clone, Copy, Debug, PartialEq, Eq)]
pub struct Raised {
    pub stop: u64,
    pub detail: u64,
}

pub struct Judge {
    computer: Computer,
    cells: Vec<i64>,
    queue: Vec<u8>,
    output: Vec<u8>,
    row: Row,
    /// The addresses whose cells the last call changed, in order, some of them more than once.
    changed: Vec<usize>,
}

impl Judge {
    /// A machine of 10,000 cells. Panics where `run` would refuse it.
    pub fn new(cells: &[i64], queue: &[u8], output: &[u8], row: &Row) -> Self {
        let mut judge = Self::empty();
        judge.put(cells, queue, output, row);
        judge
    }

    /// 10,000 empty cells, a row of zeros, one place in the queue and none in the output record.
    pub fn empty() -> Self {
        let mut computer = Computer::default();
        computer.registers.sr = StatusRegister::from_bits_retain(0);
        Self {
            computer,
            cells: vec![0; cell::LENGTH * CELLS],
            queue: vec![0],
            output: Vec::new(),
            row: [0; ROW],
            changed: Vec::new(),
        }
    }

    pub fn cells(&self) -> &[i64] {
        &self.cells
    }

    pub fn queue(&self) -> &[u8] {
        &self.queue
    }

    pub fn output(&self) -> &[u8] {
        &self.output
    }

    pub fn row(&self) -> &Row {
        &self.row
    }

    /// The addresses whose cells the last call changed, in order, some of them more than once.
    pub fn changed(&self) -> &[usize] {
        &self.changed
    }

    /// Another machine; only the cells that differ are rebuilt.
    pub fn put(&mut self, cells: &[i64], queue: &[u8], output: &[u8], row: &Row) {
        assert_eq!(cells.len(), cell::LENGTH * CELLS, "{DAMAGED}");
        for address in 0..CELLS {
            let cell = cell::get(cells, address);
            if cell != cell::get(&self.cells, address) {
                self.put_cell(address, cell);
            }
        }
        self.put_rest(queue, output, row);
        self.changed.clear();
    }

    /// A number of the row that the original has not.
    pub fn put_added(&mut self, place: usize, number: i64) {
        assert!(place >= at::FENCE);
        self.row[place] = number;
    }

    pub fn put_cell(&mut self, address: usize, cell: Flat) {
        put_cell(&mut self.computer.memory, address, cell);
        cell::put(&mut self.cells, address, cell);
    }

    /// Everything but the cells.
    pub fn put_rest(&mut self, queue: &[u8], output: &[u8], row: &Row) {
        self.queue = queue.to_vec();
        self.output = output.to_vec();
        self.row = *row;
        assert!(
            (QUEUE_LEAST..=QUEUE_MOST).contains(&queue.len()) && output.len() <= OUTPUT_MOST,
            "{DAMAGED}"
        );
        assert!(
            place(row, at::QUEUE_START) < queue.len() && place(row, at::QUEUE_COUNT) <= queue.len(),
            "{DAMAGED}"
        );
        assert!(place(row, at::OUTPUT_COUNT) <= output.len(), "{DAMAGED}");
        self.rebuild_row();
    }

    /// One step, with stops 6 and 7 put around the original's own.
    pub fn step(&mut self) -> Step {
        self.changed.clear();
        self.step_on()
    }

    fn step_on(&mut self) -> Step {
        let fetched = self.fetched();
        let (result, read_outside) = self.attempt();
        Step { read_outside, ..self.step_after(fetched, result) }
    }

    /// The original's step, and whether an operand was read outside the cells: that is what its own error says. There code 5 is
    /// raised in place of its stop (document 02, Card 9), by the original's own entry, on the machine that the stop left.
    fn attempt(&mut self) -> (Result<(), ProcessorError>, bool) {
        match self.computer.step() {
            Err(ProcessorError::Extract(ExtractError::MemoryError(error))) => {
                let entered = self.computer.recover_from_exception(&error.into());
                self.computer.cycles += usize::from(entered.is_ok());
                (entered.map_err(ProcessorError::Exception), true)
            }
            result => (result, false),
        }
    }

    /// Stops 6 and 7, and the buffers brought up to date.
    fn step_after(&mut self, fetched: Option<Flat>, result: Result<(), ProcessorError>) -> Step {
        let bytes = self.take_output(fetched);
        let next = self.registers_now();
        let maybe = may_have_written(&self.row, &next, &self.at_entry(next), fetched);
        if bytes.len() > self.output.len() - place(&self.row, at::OUTPUT_COUNT) {
            self.put_back(&maybe);
            return stopped(stop::OUTPUT_FULL, 0);
        }
        if self.computer.cycles > MOST_CYCLES {
            self.put_back(&maybe);
            return stopped(stop::CYCLES_FULL, 0);
        }
        let step = match result {
            Ok(()) => self.completed(fetched, &next, &maybe),
            Err(error) => stop_of(&error),
        };
        self.commit(next, &maybe);
        self.record(&bytes);
        if self.row[at::PENDING] == 1 || matches!(fetched.map(operation), Some(IN | OUT)) {
            self.read_console();
        }
        step
    }

    /// A step that the fence stopped where these were its registers (document 02, Card 5): code 5 is raised there, by the original's own
    /// entry. Its instruction wrote nothing before.
    pub fn step_to_fence(&mut self, there: &Row) -> Step {
        let before = self.row;
        self.row = *there;
        self.rebuild_row();
        let Raised { stop, detail } = self.raise(INVALID_MEMORY_ACCESS).expect("a code");
        let step = match stop {
            stop::ENTERED => Step { entered: Some(INVALID_MEMORY_ACCESS), ..COMPLETED },
            _ => stopped(stop, detail),
        };
        if stop == stop::CYCLES_FULL {
            self.row = before;
            self.rebuild_row();
        }
        Step { fenced: true, ..step }
    }

    /// Steps until one is not completed or the budget is spent; no fence is looked at.
    pub fn run(&mut self, budget: u64) -> Ran {
        self.changed.clear();
        let mut ran = Ran { stop: stop::BUDGET_SPENT, detail: 0, steps: 0, read_outside: 0 };
        while ran.steps < budget {
            let step = self.step_on();
            ran.read_outside += u64::from(step.read_outside);
            if !step.completed {
                return Ran { stop: step.stop, detail: step.detail, ..ran };
            }
            ran.steps += 1;
        }
        ran
    }

    /// `Computer::step` alone, to time it: the buffers stay behind until `refresh`.
    pub fn steps_alone(&mut self, n: u64) {
        for _ in 0..n {
            if self.computer.step().is_err() {
                return;
            }
        }
    }

    /// Cells, registers and cycles as the `Computer` has them.
    pub fn refresh(&mut self) {
        for address in 0..CELLS {
            let cell = encode(self.computer.memory.get(address as u32).expect("below the size"));
            cell::put(&mut self.cells, address, cell);
        }
        self.row = self.registers_now();
    }

    /// The refusal's number, 0 where the bytes were delivered.
    pub fn deliver(&mut self, bytes: &[u8]) -> u64 {
        self.changed.clear();
        let (start, count) = (place(&self.row, at::QUEUE_START), place(&self.row, at::QUEUE_COUNT));
        if bytes.len() > self.queue.len() - count {
            return refusal::DELIVERY;
        }
        let length = self.queue.len();
        for (i, byte) in bytes.iter().enumerate() {
            self.queue[(start + count + i) % length] = *byte;
        }
        self.row[at::QUEUE_COUNT] += bytes.len() as i64;
        self.computer.io.serial.push_input(bytes);
        self.read_console();
        refusal::NONE
    }

    /// The bytes written since the last drain.
    pub fn drain(&mut self) -> Vec<u8> {
        self.changed.clear();
        let rest = self.computer.io.serial.drain_output();
        assert!(rest.is_empty(), "each step's byte was taken when it was written");
        let written = place(&self.row, at::OUTPUT_COUNT);
        self.row[at::OUTPUT_COUNT] = 0;
        self.output[..written].to_vec()
    }

    /// `recover_from_exception` with its one cycle; none where the code is not 0 to 5.
    pub fn raise(&mut self, code: u64) -> Option<Raised> {
        self.changed.clear();
        self.enter(code)
    }

    /// Code 0, in the step that has just been taken.
    pub fn interrupt(&mut self) -> Raised {
        self.enter(HARDWARE_INTERRUPT).expect("a code")
    }

    fn enter(&mut self, code: u64) -> Option<Raised> {
        let exception = exception(code, &self.computer.memory)?;
        if let Err(left) = self.computer.recover_from_exception(&exception) {
            return Some(Raised { stop: stop::NO_HANDLER, detail: left.code() as u64 });
        }
        self.computer.cycles += 1;
        let mut saves: Places = [None; 8];
        saves[..3].copy_from_slice(&SAVES);
        if self.computer.cycles > MOST_CYCLES {
            self.put_back(&saves);
            return Some(Raised { stop: stop::CYCLES_FULL, detail: 0 });
        }
        let next = self.registers_now();
        self.commit(next, &saves);
        Some(Raised { stop: stop::ENTERED, detail: 0 })
    }

    /// The rule of dap's `set_register`: a, b, pc and sp take a word. False where it is refused.
    pub fn set_register(&mut self, reg: u64, word: i64) -> bool {
        self.changed.clear();
        let Some(reg) = encoding::reg(reg as i64).filter(|_| reg as i64 != reg::SR) else { return false };
        let taken = self.computer.registers.set(reg, word.into()).is_ok();
        self.row = self.registers_now();
        taken
    }

    /// Compares all of the buffers with the `Computer`.
    pub fn verify(&self) -> Result<(), String> {
        for address in 0..CELLS {
            let cell = encode(self.computer.memory.get(address as u32).expect("below the size"));
            if cell != cell::get(&self.cells, address) {
                return Err(format!("the original's cell {address} is {cell:?}"));
            }
        }
        self.verify_row()
    }

    /// Compares the row and the unread bytes with the `Computer`.
    pub fn verify_row(&self) -> Result<(), String> {
        if self.registers_now() != self.row {
            return Err(format!("the original's registers are {:?}", self.registers_now()));
        }
        let seen = console::probe(&self.computer.io.serial);
        if seen != (self.unread(), self.marks()) {
            return Err(format!("the original's console is {seen:?}"));
        }
        Ok(())
    }

    /// The cell that the next step fetches, if it is an instruction.
    fn fetched(&self) -> Option<Flat> {
        let pc = place(&self.row, at::PC);
        let cell = (pc < CELLS).then(|| cell::get(&self.cells, pc))?;
        is_instruction(cell).then_some(cell)
    }

    /// The row with the `Computer`'s registers and cycles in it.
    fn registers_now(&self) -> Row {
        let Registers { a, b, pc, sp, sr } = &self.computer.registers;
        let mut row = self.row;
        row::put_cell(&mut row, at::A, encode(a));
        row::put_cell(&mut row, at::B, encode(b));
        row[at::PC] = (*pc).into();
        row[at::SP] = (*sp).into();
        row[at::SR] = sr.bits();
        row[at::CYCLES] = self.computer.cycles as i64;
        row
    }

    /// The registers that the instruction left where an exception was then entered: pc and sr were saved.
    fn at_entry(&self, mut next: Row) -> Row {
        if next[at::PC] == i64::from(INTERRUPT_HANDLER) {
            next[at::PC] = self.saved(INTERRUPT_PC_SAVE);
            next[at::SR] = self.saved(INTERRUPT_SR_SAVE);
        }
        next
    }

    /// The first number of one of the cells that exception entry fills.
    fn saved(&self, address: u32) -> i64 {
        encode(self.computer.memory.get(address).expect("below the size"))[1]
    }

    /// The bytes that the step wrote. The original only appends, so the record is kept here.
    fn take_output(&mut self, fetched: Option<Flat>) -> Vec<u8> {
        match fetched.map(operation) {
            Some(OUT) => self.computer.io.serial.drain_output(),
            _ => Vec::new(),
        }
    }

    fn record(&mut self, bytes: &[u8]) {
        for byte in bytes {
            self.output[place(&self.row, at::OUTPUT_COUNT)] = *byte;
            self.row[at::OUTPUT_COUNT] += 1;
        }
    }

    /// Which exception a completed step entered, from the cycles it added.
    fn completed(&mut self, fetched: Option<Flat>, next: &Row, maybe: &Places) -> Step {
        let added = next[at::CYCLES] - self.row[at::CYCLES];
        let entered = match fetched.map(cost_of) {
            Some(cost) if added == cost + 1 => Some(HARDWARE_INTERRUPT),
            Some(1) if added == 1 && next[at::PC] == i64::from(INTERRUPT_HANDLER) => {
                self.entry_or_jump(fetched, maybe)
            }
            Some(cost) if added == cost => None,
            _ => Some(self.saved(INTERRUPT_EXCEPTION) as u64),
        };
        Step { entered, ..COMPLETED }
    }

    /// An instruction of cost 1 that ends at the handler either jumped there or raised an exception: both add
    /// one cycle. The instruction alone is executed on the machine before the step, and the step taken again.
    fn entry_or_jump(&mut self, fetched: Option<Flat>, maybe: &Places) -> Option<u64> {
        self.put_back(maybe);
        let instruction = instruction_of(fetched?)?;
        self.computer.registers.pc += 1;
        let raised = match instruction.execute(&mut self.computer) {
            Err(ProcessorError::Exception(exception)) => Some(exception.code() as u64),
            _ => None,
        };
        self.put_back(maybe);
        assert!(self.computer.step().is_ok(), "the same step twice");
        raised
    }

    /// Takes the registers and the cells that were written into the buffers.
    fn commit(&mut self, next: Row, maybe: &Places) {
        self.row = next;
        for address in maybe.iter().flatten().copied() {
            let cell = encode(self.computer.memory.get(address as u32).expect("below the size"));
            if cell != cell::get(&self.cells, address) {
                cell::put(&mut self.cells, address, cell);
                self.changed.push(address);
            }
        }
    }

    /// Makes the `Computer` what the buffers say again.
    fn put_back(&mut self, maybe: &Places) {
        for address in maybe.iter().flatten().copied() {
            put_cell(&mut self.computer.memory, address, cell::get(&self.cells, address));
        }
        self.rebuild_row();
    }

    /// Registers, cycles and console from the buffers.
    fn rebuild_row(&mut self) {
        let row = &self.row;
        self.computer.registers = Registers {
            a: decode(row::cell(row, at::A)).expect(DAMAGED),
            b: decode(row::cell(row, at::B)).expect(DAMAGED),
            pc: row[at::PC].try_into().expect(DAMAGED),
            sp: row[at::SP].try_into().expect(DAMAGED),
            sr: StatusRegister::from_bits_retain(row[at::SR]),
        };
        self.computer.cycles = row[at::CYCLES].try_into().expect(DAMAGED);
        self.computer.io = IoBus { serial: console::build(&self.unread(), self.marks()) };
    }

    /// The bytes from the queue's start, wrapping at its end.
    fn unread(&self) -> Vec<u8> {
        let (start, count) = (place(&self.row, at::QUEUE_START), place(&self.row, at::QUEUE_COUNT));
        (0..count).map(|i| self.queue[(start + i) % self.queue.len()]).collect()
    }

    fn marks(&self) -> Marks {
        let [enable, flag, pending] = row::MARKS.map(|i| self.row[i] == 1);
        Marks { enable, flag, pending }
    }

    /// Takes the console's marks and what was read from the queue into the row.
    fn read_console(&mut self) {
        let (unread, marks) = console::probe(&self.computer.io.serial);
        let read = place(&self.row, at::QUEUE_COUNT) - unread.len();
        let start = (place(&self.row, at::QUEUE_START) + read) % self.queue.len();
        self.row[at::QUEUE_START] = start as i64;
        self.row[at::QUEUE_COUNT] = unread.len() as i64;
        self.row[at::ENABLE] = marks.enable.into();
        self.row[at::FLAG] = marks.flag.into();
        self.row[at::PENDING] = marks.pending.into();
        assert_eq!(unread, self.unread(), "the ring holds what the original has yet to read");
    }
}

fn operation([tag, ..]: Flat) -> i64 {
    Form::of_tag(tag).op
}

/// One cycle and one for each memory operand: `compare` checks this against the original's `cost` for every form.
fn cost_of([tag, ..]: Flat) -> i64 {
    let Form { m1, m2, .. } = Form::of_tag(tag);
    1 + i64::from(m1 >= DIR) + i64::from(m2 >= DIR)
}

fn instruction_of(flat: Flat) -> Option<Instruction> {
    Instruction::try_from(&decode(flat)?).ok()
}

const COMPLETED: Step = Step {
    stop: stop::BUDGET_SPENT,
    detail: 0,
    completed: true,
    entered: None,
    read_outside: false,
    fenced: false,
    timed: false,
};

fn stopped(stop: u64, detail: u64) -> Step {
    Step { stop, detail, completed: false, ..COMPLETED }
}

fn stop_of(error: &ProcessorError) -> Step {
    match error {
        ProcessorError::Reset => stopped(stop::RESET, 0),
        ProcessorError::Exception(exception) => stopped(stop::NO_HANDLER, exception.code() as u64),
        ProcessorError::CellError(_) => stopped(stop::CELL_ERROR, 0),
        ProcessorError::Extract(_) => stopped(stop::EXTRACT, 0),
        ProcessorError::InvalidRegister { reg, .. } => {
            stopped(stop::INVALID_REGISTER, encoding::reg_number(*reg) as u64)
        }
    }
}

/// The exception of a code. The original makes a memory error only from a refused access.
fn exception(code: u64, memory: &Memory) -> Option<Exception> {
    Some(match code {
        HARDWARE_INTERRUPT => Exception::HardwareInterrupt,
        DIV_BY_ZERO => Exception::DivByZero,
        INVALID_INSTRUCTION => Exception::InvalidInstruction,
        PRIVILEGED_INSTRUCTION => Exception::PrivilegedInstruction,
        TRAP => Exception::Trap,
        INVALID_MEMORY_ACCESS => memory.get(MEMORY_SIZE).err()?.into(),
        _ => return None,
    })
}

fn put_cell(memory: &mut Memory, address: usize, cell: Flat) {
    let place = memory.get_mut(address as u32).expect("below the size");
    *place = decode(cell).expect(DAMAGED);
}
