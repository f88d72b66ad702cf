use layout::{Row, at, cell, limit, row};

use crate::{Cell, Exception, Journal, ROW_LENGTH, Ran, Refusal, Register, Stop, Timer, lent};

/// More cells, or bytes, than any machine has: enough to be refused.
const TOO_MANY: usize = limit::OUTPUT_MOST + 1;

/// A machine with its own cells, input queue, output record and registers.
///
/// ```
/// use z33::{Cell, Machine, Stop};
///
/// let mut machine = Machine::new(256, 1, 0)?;
/// machine.load(0, &[Cell::Instruction { tag: 202, first: 5, second: 0 }])?; // add 5,%a
/// let ran = machine.run(100)?;
///
/// // Behind it the cells are empty, and an empty cell is no instruction.
/// assert_eq!(ran.to_string(), "invalid instruction without a handler after 1 step");
/// # Ok::<(), z33::Refusal>(())
/// ```
#[derive(Clone, Debug, PartialEq, Eq)]
pub struct Machine {
    pub(crate) cells: Vec<i64>,
    pub(crate) queue: Vec<u8>,
    pub(crate) output: Vec<u8>,
    pub(crate) row: Row,
}

impl Machine {
    /// A machine of 256 to 10,000 cells, all empty, with an input queue of 1 to 4,096 bytes and an output record of up to 65,536. Its
    /// registers are 0, so it is in user mode, and its fence is 0, so it may write every cell.
    pub fn new(cells: usize, queue: usize, output: usize) -> Result<Self, Refusal> {
        let mut machine = Machine {
            cells: vec![0; cell::LENGTH * cells.min(TOO_MANY)],
            queue: vec![0; queue.min(TOO_MANY)],
            output: vec![0; output.min(TOO_MANY)],
            row: [0; ROW_LENGTH],
        };
        lent::fresh(&mut machine.cells, &mut machine.row)?;
        // A run of no step tests all of the lengths.
        machine.run(0)?;
        Ok(machine)
    }

    /// Puts an image over the cells from `start` on.
    pub fn load(&mut self, start: u64, image: &[Cell]) -> Result<(), Refusal> {
        lent::load(&mut self.cells, &numbers_of(image), start)
    }

    /// Sets a register to a word. sr is written as whoever boots the machine writes it: an instruction of a user program cannot.
    pub fn set_register(&mut self, register: Register, word: i64) -> Result<(), Refusal> {
        if register == Register::Sr {
            self.row[at::SR] = word;
            return Ok(());
        }
        lent::set_register(&mut self.row, register, word)
    }

    /// Puts bytes behind the unread ones in the input queue, all or none.
    pub fn deliver(&mut self, bytes: &[u8]) -> Result<(), Refusal> {
        lent::deliver(&mut self.queue, &mut self.row, bytes)
    }

    /// Takes steps until one does not complete, or `budget` of them have.
    pub fn run(&mut self, budget: u64) -> Result<Ran, Refusal> {
        lent::run(&mut self.cells, &mut self.queue, &mut self.output, &mut self.row, budget)
    }

    /// Enters an exception: `None`; or stops without a handler or with a full cycle count, and then nothing has changed.
    pub fn raise(&mut self, exception: Exception) -> Result<Option<Stop>, Refusal> {
        lent::raise(&mut self.cells, &mut self.row, exception)
    }

    /// Takes the bytes written since the last drain.
    pub fn drain(&mut self) -> Vec<u8> {
        let mut bytes = vec![0; self.row[at::OUTPUT_COUNT] as usize];
        lent::drain(&self.output, &mut self.row, &mut bytes).expect("the buffer has the output's count");
        bytes
    }

    /// [`run`](Machine::run), and the journal keeps each step that is begun: one that stops too, unless by a full output record or cycle count.
    pub fn run_journal(&mut self, journal: &mut Journal, budget: u64) -> Result<Ran, Refusal> {
        let Machine { cells, queue, output, row } = self;
        lent::run_journal(cells, queue, output, row, &mut journal.numbers, budget)
    }

    /// Goes back over the last step that the journal keeps: registers, cycles, cells, unread bytes and written bytes are those before it.
    pub fn step_back(&mut self, journal: &mut Journal) -> Result<(), Refusal> {
        lent::back(&mut self.cells, &mut self.row, &mut journal.numbers)
    }

    /// [`load`](Machine::load), and the journal is emptied.
    pub fn load_journal(&mut self, journal: &mut Journal, start: u64, image: &[Cell]) -> Result<(), Refusal> {
        lent::load_journal(&mut self.cells, &mut journal.numbers, &numbers_of(image), start)
    }

    /// [`set_register`](Machine::set_register), and the journal is emptied.
    pub fn set_register_journal(
        &mut self,
        journal: &mut Journal,
        register: Register,
        word: i64,
    ) -> Result<(), Refusal> {
        if register == Register::Sr {
            journal.clear();
            return self.set_register(register, word);
        }
        lent::set_register_journal(&mut self.row, &mut journal.numbers, register, word)
    }

    /// [`deliver`](Machine::deliver), and the journal is emptied.
    pub fn deliver_journal(&mut self, journal: &mut Journal, bytes: &[u8]) -> Result<(), Refusal> {
        lent::deliver_journal(&mut self.queue, &mut self.row, &mut journal.numbers, bytes)
    }

    /// [`raise`](Machine::raise), and the journal is emptied, where it stops too.
    pub fn raise_journal(
        &mut self,
        journal: &mut Journal,
        exception: Exception,
    ) -> Result<Option<Stop>, Refusal> {
        lent::raise_journal(&mut self.cells, &mut self.row, &mut journal.numbers, exception)
    }

    /// [`drain`](Machine::drain), and the journal is emptied.
    pub fn drain_journal(&mut self, journal: &mut Journal) -> Vec<u8> {
        let mut bytes = vec![0; self.row[at::OUTPUT_COUNT] as usize];
        lent::drain_journal(&self.output, &mut self.row, &mut journal.numbers, &mut bytes)
            .expect("the buffer has the output's count, and a journal is one");
        bytes
    }

    /// The cell at an address.
    pub fn cell(&self, address: u64) -> Result<Cell, Refusal> {
        lent::read_cell(&self.cells, address)
    }

    /// What a register holds; pc, sp and sr hold a word.
    pub fn register(&self, register: Register) -> Cell {
        let held = |place| Cell::from_numbers(row::cell(&self.row, place));
        match register {
            Register::A => held(at::A),
            Register::B => held(at::B),
            Register::Pc => Cell::Word(self.row[at::PC]),
            Register::Sp => Cell::Word(self.row[at::SP]),
            Register::Sr => Cell::Word(self.row[at::SR]),
        }
    }

    /// The fence: a program in user mode cannot write the cells below it.
    pub fn fence(&self) -> u64 {
        self.row[at::FENCE] as u64
    }

    /// Puts the fence at a cell, 0 to the count of cells, or leaves it where that is refused. Like sr, it is written by whoever boots the
    /// machine: no instruction can.
    ///
    /// ```
    /// use z33::{Cell, Exception, Machine, Stop};
    ///
    /// let mut machine = Machine::new(256, 1, 0)?;
    /// machine.load(0, &[Cell::Instruction { tag: 25577, first: 0, second: 201 }])?; // st %a,[201]
    /// machine.set_fence(202)?;
    ///
    /// // A new machine is in user mode.
    /// assert_eq!(machine.run(1)?.stop, Stop::NoHandler(Exception::InvalidMemoryAccess));
    /// assert_eq!(machine.cell(201)?, Cell::Empty);
    /// assert_eq!(machine.set_fence(257).unwrap_err().to_string(), "the row's number 17 is out of its range");
    /// # Ok::<(), z33::Refusal>(())
    /// ```
    pub fn set_fence(&mut self, fence: u64) -> Result<(), Refusal> {
        let before = std::mem::replace(&mut self.row[at::FENCE], i64::try_from(fence).unwrap_or(i64::MAX));
        // A run of no step tests the row.
        let tested = self.run(0);
        if tested.is_err() {
            self.row[at::FENCE] = before;
        }
        tested.map(drop)
    }

    /// The timer as it is.
    pub fn timer(&self) -> Timer {
        Timer {
            interval: self.row[at::TIMER_INTERVAL] as u64,
            remaining: self.row[at::TIMER_REMAINING] as u64,
            mark: self.row[at::TIMER_MARK] == 1,
        }
    }

    /// The cycles so far.
    pub fn cycles(&self) -> u64 {
        self.row[at::CYCLES] as u64
    }
}

fn numbers_of(image: &[Cell]) -> Vec<i64> {
    image.iter().flat_map(|cell| cell.numbers()).collect()
}
