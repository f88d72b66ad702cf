//! The fence (document 02, Card 5): machines that have one, and what it stops and spares.

use std::collections::BTreeMap;

use judge::Step;
use layout::memory::INTERRUPT_EXCEPTION;
use layout::sr::SUPERVISOR;
use layout::{Cell, Row, at, cell};
use list::{CELLS, Case};

use crate::coverage::{Outcome, outcome, writes_memory};
use crate::forms::*;
use crate::rng::Rng;
use crate::{programs, single, taken};

/// How an instruction's write can meet a fence.
#[derive(Clone, Copy, Debug, PartialEq, Eq, PartialOrd, Ord)]
pub enum Met {
    /// Begun with S clear, at the last address below: code 5.
    Below,
    /// Begun with S clear, at the fence itself: written.
    On,
    /// Begun with S set, below: written.
    Supervisor,
    /// The same by an instruction that clears S: swap before it writes, fas behind.
    Cleared,
}

/// (form, way) pairs: 16 forms write, and six of them can clear S.
const PAIRS: usize = 3 * 16 + 6;

pub struct Coverage {
    forms: Vec<Form>,
    met: BTreeMap<(usize, Met), u64>,
    /// Entries into cells 100 to 102, all below the fence, from a step begun with S clear.
    entered: u64,
    /// Steps of machines with a fence.
    steps: u64,
    /// Those that it stopped.
    stopped: u64,
}

impl Default for Coverage {
    fn default() -> Self {
        let forms: Vec<Form> = writing();
        let mut met = BTreeMap::new();
        for form in &forms {
            for way in [Met::Below, Met::On, Met::Supervisor] {
                met.insert((form.entry(), way), 0);
            }
            if matches!(form.op, FAS | SWAP) {
                met.insert((form.entry(), Met::Cleared), 0);
            }
        }
        assert_eq!(met.len(), PAIRS);
        Self { forms, met, entered: 0, steps: 0, stopped: 0 }
    }
}

impl Coverage {
    /// Counts a step of a machine with a fence: the row before, the address that its instruction was to write, the step and the row after.
    pub fn count(
        &mut self,
        before: &Row,
        fetched: Option<Cell>,
        written: Option<i64>,
        step: &Step,
        after: &Row,
    ) {
        let user = before[at::SR] & SUPERVISOR == 0;
        self.steps += 1;
        self.stopped += u64::from(step.fenced);
        let saves = before[at::FENCE] > INTERRUPT_EXCEPTION.into();
        self.entered += u64::from(user && saves && step.entered.is_some());
        let (Some(cell), Some(address)) = (fetched, written) else { return };
        if let Some(met) = met(user, address - before[at::FENCE], step, after) {
            let count = self.met.get_mut(&(Form::of_tag(cell[0]).entry(), met));
            *count.expect("a form that writes") += 1;
        }
    }

    /// What was not met, by name.
    pub fn missing(&self) -> Vec<String> {
        let name = |entry: usize| {
            let form = self.forms.iter().find(|form| form.entry() == entry);
            form.expect("the forms are its keys").name()
        };
        let met = self.met.iter().filter(|(_, count)| **count == 0);
        let met = met.map(|((form, met), _)| format!("{} {met:?} the fence", name(*form)));
        met.chain((self.entered == 0).then(|| "an entry below the fence".into())).collect()
    }

    pub fn told(&self) -> String {
        let reached = self.met.values().filter(|count| **count > 0).count();
        format!(
            "{} steps of machines with a fence: it stopped {} of them, held to the original's own entry of code 5 where the write is due; \
             {reached} of {PAIRS} (form, way) pairs of writing at its edge and in supervisor mode; {} entries into cells below it",
            self.steps, self.stopped, self.entered
        )
    }
}

/// `from_fence` is the address less the fence.
fn met(user: bool, from_fence: i64, step: &Step, after: &Row) -> Option<Met> {
    let written = matches!(outcome(step), Outcome::Done | Outcome::Interrupt);
    match (user, from_fence) {
        (true, -1) if step.fenced => Some(Met::Below),
        (true, 0) if written => Some(Met::On),
        (false, ..0) if outcome(step) == Outcome::Done && after[at::SR] & SUPERVISOR == 0 => {
            Some(Met::Cleared)
        }
        (false, ..0) if written => Some(Met::Supervisor),
        _ => None,
    }
}

/// The forms that write a cell.
fn writing() -> Vec<Form> {
    all().into_iter().filter(|form| writes_memory(*form)).collect()
}

/// Single steps with a fence, three in four of the forms that write.
pub struct Singles {
    all: Vec<Form>,
    writing: Vec<Form>,
}

impl Default for Singles {
    fn default() -> Self {
        Self { all: all(), writing: writing() }
    }
}

impl Singles {
    pub fn draw(&self, rng: &mut Rng, turn: usize) -> Case {
        let forms = if turn % 4 == 0 { &self.all } else { &self.writing };
        let draw = if rng.once_in(2) { single::draw } else { single::draw_empty };
        let mut case = draw(rng, forms, turn / 4);
        case.row[at::FENCE] = near_written(rng, &case);
        case
    }
}

/// Just behind or on the address that the step writes; or any fence.
fn near_written(rng: &mut Rng, case: &Case) -> i64 {
    let (lent, pc) = (case.lent(), case.row[at::PC] as usize);
    let fetched = (pc < CELLS).then(|| lent.cell(pc)).filter(|held| cell::is_instruction(*held));
    let written = fetched.and_then(|held| taken::written(&lent.row, &lent.cells, held));
    match (written, rng.below(4)) {
        (Some(address), 0..=2) => (address + rng.between(0, 1)).min(CELLS as i64),
        _ => any(rng),
    }
}

fn any(rng: &mut Rng) -> i64 {
    if rng.once_in(2) {
        rng.pick(&[1, 100, 101, 102, 103, 200, 201, 9_999, 10_000])
    } else {
        rng.between(1, 10_000)
    }
}

/// A program under a fence, mostly one that leaves it cells to write.
pub fn program(rng: &mut Rng) -> Case {
    let mut case = programs::draw(rng);
    case.row[at::FENCE] = fence(rng);
    case
}

/// The fence of a program: around its data or its stack, or any.
pub fn fence(rng: &mut Rng) -> i64 {
    match rng.below(4) {
        0 => rng.pick(&[201, 300, 2_000]),
        1 => rng.pick(&[90, 700, 1_990, 9_900]) + rng.between(0, 15),
        _ => any(rng),
    }
}
