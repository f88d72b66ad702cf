use layout::journal::{COUNT, RECORD, RING, length};
use layout::limit::RECORDS_MOST;

use crate::{ROW_LENGTH, Refusal, Register, lent};

/// What is kept of a machine's last steps, so that it can go back over them. It is lent to the calls of one [`Machine`](crate::Machine) whose
/// names end by `_journal`, and to `step_back`.
///
/// It keeps as many steps as it has room for, and forgets the oldest where there is no more. A call that changes the machine otherwise than by
/// steps empties it. What changes the machine without it, as a call that it is not lent to, is not gone back over: [`clear`](Journal::clear) it
/// then.
///
/// ```
/// use z33::{Cell, Exception, Journal, Machine, Refusal, Register, Stop};
///
/// let mut machine = Machine::new(256, 1, 0)?;
/// let mut journal = Journal::new(100)?;
///
/// // ld 7,%a; sub 7,%a; div %a,%b; and there is no handler
/// let image = [(12802, 7), (26302, 7), (3953, 0)];
/// machine.load(0, &image.map(|(tag, first)| Cell::Instruction { tag, first, second: 0 }))?;
/// let ran = machine.run_journal(&mut journal, 1000)?;
/// assert_eq!(ran.stop, Stop::NoHandler(Exception::DivByZero));
/// assert_eq!(journal.len(), 3);
///
/// // From the fault to its cause: where was a still 7?
/// while machine.register(Register::A) != Cell::Word(7) {
///     machine.step_back(&mut journal)?;
/// }
/// assert_eq!(machine.register(Register::Pc), Cell::Word(1));
///
/// // The first step is still kept; before that there is nothing.
/// machine.step_back(&mut journal)?;
/// assert_eq!(machine.step_back(&mut journal), Err(Refusal::NothingKept));
/// # Ok::<(), z33::Refusal>(())
/// ```
#[derive(Clone, Debug, PartialEq, Eq)]
pub struct Journal {
    pub(crate) numbers: Vec<i64>,
}

impl Journal {
    /// A journal with room for 1 to 4,096 steps, and nothing kept.
    pub fn new(records: usize) -> Result<Self, Refusal> {
        // One record too many is enough to be refused.
        let mut journal = Journal { numbers: vec![0; length(records.min(RECORDS_MOST + 1))] };
        // A call that is lent nothing else but a row tests the length.
        lent::set_register_journal(&mut [0; ROW_LENGTH], &mut journal.numbers, Register::A, 0)?;
        Ok(journal)
    }

    /// How many steps can be gone back over.
    pub fn len(&self) -> usize {
        self.numbers[COUNT] as usize
    }

    /// Whether there is nothing to go back to.
    pub fn is_empty(&self) -> bool {
        self.len() == 0
    }

    /// How many steps it has room for.
    pub fn capacity(&self) -> usize {
        (self.numbers.len() - RING) / RECORD
    }

    /// Forgets what is kept.
    pub fn clear(&mut self) {
        self.numbers[COUNT] = 0;
    }
}
