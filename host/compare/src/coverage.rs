//! Which (form, outcome) pairs are possible, and which were reached.

use judge::Step;
use layout::{Cell, code, stop};

use crate::forms::*;

/// How a step can come out.
#[derive(Clone, Copy, Debug, PartialEq, Eq)]
pub enum Outcome {
    Done,
    /// Completed, and code 0 entered after it.
    Interrupt,
    Entered(u64),
    /// Stop 2: the exception, of this code, has no handler.
    Unhandled(u64),
    /// Another stop with its detail.
    Stopped(u64, u64),
}

use Outcome::{Done, Entered, Interrupt, Stopped, Unhandled};

/// The registers of stop 5.
const ON_PC: Outcome = Stopped(stop::INVALID_REGISTER, PC as u64);
const ON_SP: Outcome = Stopped(stop::INVALID_REGISTER, SP as u64);
const ON_SR: Outcome = Stopped(stop::INVALID_REGISTER, SR as u64);

/// Kinds of steps: those that the original answers; those that read an operand outside the cells, where it has no answer (document 02,
/// Card 9); those that the fence stopped, which it has not (Card 5); and others in which the timer had a part, which it has not (Card 14).
#[derive(Clone, Copy, Debug, PartialEq, Eq)]
pub enum Kind {
    Own,
    ReadOutside,
    Fenced,
    Timed,
}

pub const KINDS: [Kind; 4] = [Kind::Own, Kind::ReadOutside, Kind::Fenced, Kind::Timed];
/// Those of machines without fence and timer.
pub const BASE_KINDS: [Kind; 2] = [Kind::Own, Kind::ReadOutside];

impl Kind {
    fn of(step: &Step) -> Self {
        match (step.read_outside, step.fenced) {
            (_, true) => Kind::Fenced,
            (true, _) => Kind::ReadOutside,
            _ if step.timed => Kind::Timed,
            _ => Kind::Own,
        }
    }

    fn told(self) -> &'static str {
        match self {
            Kind::Own => "",
            Kind::ReadOutside => " after a read outside",
            Kind::Fenced => " at the fence",
            Kind::Timed => " with the timer",
        }
    }
}

/// Every outcome with the count of forms (of the 124, and the fetch) that the original can come to it with, of those that come to it by
/// reading an operand outside the cells, and of those that come to it by the fence.
pub const OUTCOMES: [(Outcome, [usize; 3]); 21] = [
    (Done, [122, 0, 0]),
    (Interrupt, [122, 0, 0]),
    (Entered(code::DIV_BY_ZERO), [5, 0, 0]),
    (Entered(code::INVALID_INSTRUCTION), [11, 0, 0]),
    (Entered(code::PRIVILEGED_INSTRUCTION), [70, 0, 0]),
    (Entered(code::TRAP), [1, 0, 0]),
    (Entered(code::INVALID_MEMORY_ACCESS), [18, 60, 16]),
    (Unhandled(code::HARDWARE_INTERRUPT), [122, 0, 0]),
    (Unhandled(code::DIV_BY_ZERO), [5, 0, 0]),
    (Unhandled(code::INVALID_INSTRUCTION), [11, 0, 0]),
    (Unhandled(code::PRIVILEGED_INSTRUCTION), [70, 0, 0]),
    (Unhandled(code::TRAP), [1, 0, 0]),
    (Unhandled(code::INVALID_MEMORY_ACCESS), [18, 60, 16]),
    (Stopped(stop::RESET, 0), [1, 0, 0]),
    (Stopped(stop::CELL_ERROR, 0), [14, 0, 0]),
    (Stopped(stop::EXTRACT, 0), [104, 0, 0]),
    (ON_PC, [50, 0, 0]),
    (ON_SP, [50, 0, 0]),
    (ON_SR, [12, 0, 0]),
    (Stopped(stop::OUTPUT_FULL, 0), [6, 0, 0]),
    (Stopped(stop::CYCLES_FULL, 0), [124, 60, 16]),
];

/// (form, outcome) pairs: the original's, those of them that are no more, those that it cannot come to by a read outside and by the
/// timer's ports, and all that are possible. The fence brings no pair that is not among them.
const IN_THE_ORIGINAL: usize = 937;
const CEASED: usize = 2;
const NEW: usize = 110;
const BY_TIMER: usize = 6;
const PAIRS: usize = IN_THE_ORIGINAL - CEASED + NEW + BY_TIMER;

pub fn outcome(step: &Step) -> Outcome {
    match (step.completed, step.entered) {
        (true, None) => Done,
        (true, Some(code::HARDWARE_INTERRUPT)) => Interrupt,
        (true, Some(code)) => Entered(code),
        (false, _) if step.stop == stop::NO_HANDLER => Unhandled(step.detail),
        (false, _) => Stopped(step.stop, step.detail),
    }
}

/// An outcome's place in `OUTCOMES`.
pub fn column(outcome: Outcome) -> Result<usize, String> {
    let column = OUTCOMES.iter().position(|(known, ..)| *known == outcome);
    column.ok_or(format!("no such outcome: {outcome:?}"))
}

/// Whether a form can come out so in a step of this kind.
pub fn possible(form: Option<Form>, outcome: Outcome, kind: Kind) -> bool {
    match kind {
        Kind::Own => in_the_original(form, outcome) && !ceased(form, outcome),
        Kind::Timed => possible(form, outcome, Kind::Own) || by_timer(form, outcome),
        Kind::ReadOutside => traps(form, outcome),
        Kind::Fenced => fenced(form, outcome),
    }
}

/// What a step must reach: with the timer only what it alone brings, for its part in all others is told apart (`timer`).
fn required(form: Option<Form>, outcome: Outcome, kind: Kind) -> bool {
    if kind == Kind::Timed { by_timer(form, outcome) } else { possible(form, outcome, kind) }
}

/// The timer's ports read words that are no addresses.
fn by_timer(form: Option<Form>, outcome: Outcome) -> bool {
    form.is_some_and(|form| form.op == IN) && matches!(outcome, ON_PC | ON_SP)
}

/// Whether an operand of this form is a cell of memory that is read, and outside raises code 5.
fn traps(form: Option<Form>, outcome: Outcome) -> bool {
    form.is_some_and(reads_memory) && by_code_5(outcome)
}

/// Whether this form writes a cell of memory, and below the fence raises code 5.
fn fenced(form: Option<Form>, outcome: Outcome) -> bool {
    form.is_some_and(writes_memory) && by_code_5(outcome)
}

/// Where a full cycle count leaves no room for the entry, that is told first.
fn by_code_5(outcome: Outcome) -> bool {
    const CODE: u64 = code::INVALID_MEMORY_ACCESS;
    matches!(outcome, Entered(CODE) | Unhandled(CODE) | Stopped(stop::CYCLES_FULL, _))
}

fn reads_memory(form: Form) -> bool {
    form.m1 >= DIR && (matches!(form.op, CALL | JMP..=JGT | LD | SWAP) || TWO_WORDS.contains(&form.op))
}

/// st, swap, fas, push and call.
pub fn writes_memory(form: Form) -> bool {
    matches!(form.op, CALL | FAS | PUSH | ST) || form.op == SWAP && form.m1 >= DIR
}

/// The original's pairs that only a read outside came to: a direct operand is an address, and ld and swap carry any cell.
fn ceased(form: Option<Form>, outcome: Outcome) -> bool {
    outcome == Stopped(stop::EXTRACT, 0)
        && form.is_some_and(|form| matches!(form.op, LD | SWAP) && form.m1 == DIR)
}

/// Whether the original can come out so with a form; no form is the fetch of what is no instruction.
fn in_the_original(form: Option<Form>, outcome: Outcome) -> bool {
    match (form, outcome) {
        (None, Entered(code) | Unhandled(code)) => {
            code == code::INVALID_INSTRUCTION || code == code::INVALID_MEMORY_ACCESS
        }
        (None, outcome) => outcome == Stopped(stop::CYCLES_FULL, 0),
        (Some(form), Done | Interrupt | Unhandled(code::HARDWARE_INTERRUPT)) => {
            form.op != RESET && form.op != TRAP
        }
        (Some(form), Entered(code) | Unhandled(code)) => raises(form, code),
        (Some(form), Stopped(stop::RESET, _)) => form.op == RESET,
        (Some(form), Stopped(stop::CELL_ERROR, _)) => address_alone(form),
        (Some(form), Stopped(stop::EXTRACT, _)) => takes_operand(form),
        (Some(form), ON_SR) => carries_instruction(form),
        (Some(form), Stopped(stop::INVALID_REGISTER, _)) => leaves_addresses(form),
        (Some(form), Stopped(stop::OUTPUT_FULL, _)) => form.op == OUT,
        (Some(form), Stopped(_, _)) => form.op != RESET,
    }
}

fn raises(form: Form, code: u64) -> bool {
    match code {
        code::DIV_BY_ZERO => form.op == DIV,
        code::INVALID_INSTRUCTION => matches!(form.op, SHL | SHR),
        code::PRIVILEGED_INSTRUCTION => sets_register(form.op) || matches!(form.op, OUT | RTI),
        code::TRAP => form.op == TRAP,
        // swap [direct] reads the same address before it writes there
        _ => matches!(form.op, CALL | FAS | POP | PUSH | RTN | ST) || form.op == SWAP && form.m1 >= IND,
    }
}

fn sets_register(op: i64) -> bool {
    op != CMP && TWO_WORDS.contains(&op) || matches!(op, FAS | IN | LD | NEG | NOT | POP | SWAP)
}

/// Stop 3: rti and rtn, or an address taken for itself from a register.
fn address_alone(form: Form) -> bool {
    match form.op {
        RTI | RTN => true,
        ST | OUT => form.m2 >= IND,
        FAS | IN | SWAP => form.m1 >= IND,
        _ => false,
    }
}

/// Stop 4: a word, a jump target or a cell in memory is taken.
fn takes_operand(form: Form) -> bool {
    match form.op {
        CALL | JMP..=JGT | NEG | NOT | ST => true,
        LD | SWAP => form.m1 >= DIR,
        OUT => form.m1 == REG,
        op => TWO_WORDS.contains(&op),
    }
}

/// Stop 5 on sr: an instruction can come to it.
fn carries_instruction(form: Form) -> bool {
    matches!(form.op, FAS | POP | SWAP) || form.op == LD && form.m1 >= REG
}

/// Stop 5 on pc and sp: and, shr and in give addresses from addresses.
fn leaves_addresses(form: Form) -> bool {
    sets_register(form.op) && !matches!(form.op, AND | SHR | IN)
}

/// Counts of pairs, forms in order with the fetch last.
pub struct Coverage {
    forms: Vec<Option<Form>>,
    place: Vec<usize>,
    /// By the kind of step.
    counts: [Vec<[u64; OUTCOMES.len()]>; KINDS.len()],
}

impl Default for Coverage {
    fn default() -> Self {
        let forms: Vec<_> = all().into_iter().map(Some).chain([None]).collect();
        let mut place = vec![usize::MAX; FORMS];
        for (i, form) in all().iter().enumerate() {
            place[form.entry()] = i;
        }
        let counts = KINDS.map(|_| vec![[0; OUTCOMES.len()]; forms.len()]);
        let coverage = Self { forms, place, counts };
        coverage.totals_agree();
        coverage
    }
}

impl Coverage {
    /// The rules give the counts that are required.
    fn totals_agree(&self) {
        for (outcome, counts) in OUTCOMES {
            let total = |rule: fn(Option<Form>, Outcome) -> bool| {
                self.forms.iter().filter(|form| rule(**form, outcome)).count()
            };
            assert_eq!([total(in_the_original), total(traps), total(fenced)], counts, "{outcome:?}");
        }
        let total = |rule: fn(Option<Form>, Outcome) -> bool| {
            self.pairs().filter(|pair| rule(pair.0, pair.1)).count()
        };
        assert_eq!(total(in_the_original), IN_THE_ORIGINAL);
        assert_eq!(total(|form, outcome| in_the_original(form, outcome) && ceased(form, outcome)), CEASED);
        assert_eq!(total(|form, outcome| traps(form, outcome) && !in_the_original(form, outcome)), NEW);
        assert_eq!(
            total(|form, outcome| by_timer(form, outcome) && !in_the_original(form, outcome)),
            BY_TIMER
        );
        let known = |form, outcome| traps(form, outcome) || in_the_original(form, outcome);
        assert!(self.pairs().all(|(form, outcome)| known(form, outcome) || !fenced(form, outcome)));
    }

    /// Every form with every outcome, possible or not.
    fn pairs(&self) -> impl Iterator<Item = (Option<Form>, Outcome)> {
        self.forms.iter().flat_map(|form| OUTCOMES.map(|(outcome, ..)| (*form, outcome)))
    }

    /// Counts a step from the cell fetched; how often its pair was met so, or what is wrong with it.
    pub fn count(&mut self, fetched: Option<Cell>, step: &Step) -> Result<u64, String> {
        let (outcome, kind) = (outcome(step), Kind::of(step));
        let form = fetched.map(|cell| Form::of_tag(cell[0]).entry());
        let form = form.map_or(self.forms.len() - 1, |form| self.place[form]);
        let column = column(outcome)?;
        if !possible(self.forms[form], outcome, kind) {
            return Err(format!("{} came out as {outcome:?}{}", name(self.forms[form]), kind.told()));
        }
        let count = &mut self.counts[kind as usize][form][column];
        *count += 1;
        Ok(*count)
    }

    /// The possible pairs that were not reached so often in steps of these kinds, by name.
    pub fn missing(&self, kinds: &[Kind], times: u64) -> Vec<String> {
        let mut missing = Vec::new();
        for kind in kinds {
            let counts = self.counts[*kind as usize].iter().flatten();
            for ((form, outcome), count) in self.pairs().zip(counts) {
                if required(form, outcome, *kind) && *count < times {
                    missing.push(format!("{} {outcome:?}{}", name(form), kind.told()));
                }
            }
        }
        missing
    }

    /// How often a form came out so, in steps of every kind.
    fn times(&self, form: usize, column: usize) -> u64 {
        self.counts.iter().map(|of_kind| of_kind[form][column]).sum()
    }

    /// The pairs reached in a step of any kind, of all that are possible.
    pub fn reached(&self) -> (usize, usize) {
        let columns = |form: usize| (0..OUTCOMES.len()).filter(move |column| self.times(form, *column) > 0);
        ((0..self.forms.len()).map(|form| columns(form).count()).sum(), PAIRS)
    }

    /// The count of forms (the fetch apart) with any outcome, and how often the least of these was taken.
    pub fn forms_taken(&self) -> (usize, u64) {
        let times = |form: usize| (0..OUTCOMES.len()).map(|column| self.times(form, column)).sum();
        let taken: Vec<u64> = (0..self.forms.len() - 1).map(times).filter(|times| *times > 0).collect();
        (taken.len(), taken.iter().copied().min().unwrap_or(0))
    }

    /// What of the pairs the original could be asked, where all were reached.
    pub fn told(&self) -> Vec<String> {
        let reached =
            |kind: Kind| self.counts[kind as usize].iter().flatten().filter(|count| **count > 0).count();
        let names = |rule: fn(Option<Form>, Outcome) -> bool| -> Vec<String> {
            let those = self.pairs().filter(|(form, outcome)| rule(*form, *outcome));
            those.map(|(form, outcome)| format!("{} {outcome:?}", name(form))).collect()
        };
        let (all, of) = self.reached();
        vec![
            format!("{all} of {of} (form, outcome) pairs reached; {}", self.summary()),
            format!(
                "{} of these pairs by the original's own answers, {} in steps that read an operand outside the cells, {} in steps \
                 that the fence stopped, {} in steps with the timer; {NEW} and {BY_TIMER} that it cannot come to, and without {} of its {IN_THE_ORIGINAL}: {}",
                reached(Kind::Own),
                reached(Kind::ReadOutside),
                reached(Kind::Fenced),
                reached(Kind::Timed),
                CEASED,
                names(ceased).join(", ")
            ),
        ]
    }

    /// The count of forms reached, outcome by outcome.
    fn summary(&self) -> String {
        let reached =
            |column: usize| (0..self.forms.len()).filter(|form| self.times(*form, column) > 0).count();
        let r: Vec<usize> = (0..OUTCOMES.len()).map(reached).collect();
        format!(
            "forms reached: done {}, done with interrupt {}, codes 1 to 5 entered {}/{}/{}/{}/{}, \
             codes 0 to 5 without handler {}/{}/{}/{}/{}/{}, stop 1: {}, 3: {}, 4: {}, \
             5 on pc/sp/sr: {}/{}/{}, 6: {}, 7: {}",
            r[0],
            r[1],
            r[2],
            r[3],
            r[4],
            r[5],
            r[6],
            r[7],
            r[8],
            r[9],
            r[10],
            r[11],
            r[12],
            r[13],
            r[14],
            r[15],
            r[16],
            r[17],
            r[18],
            r[19],
            r[20]
        )
    }
}

fn name(form: Option<Form>) -> String {
    form.map_or("fetch".into(), Form::name)
}
