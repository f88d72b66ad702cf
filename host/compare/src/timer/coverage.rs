//! In which ways the timer went on, was polled, or stayed.

use std::collections::BTreeMap;

use judge::Step;
use layout::limit::CYCLES_MOST;
use layout::sr::INTERRUPT_ENABLE;
use layout::{Cell, Row, at, code, stop};

use super::{INTERVAL_PORT, REMAINING_PORT, numbers};
use crate::coverage::{Outcome, outcome};
use crate::forms::*;
use crate::taken::Port;

/// What happened to the timer in a step.
#[derive(Clone, Copy, Debug, PartialEq, Eq, PartialOrd, Ord)]
enum Way {
    /// By form: its cost was taken off, and something remains.
    Down(usize),
    /// By form: nothing remained, so the mark was set and the interval started afresh.
    Expired(usize),
    /// By form: the timer's mark was polled, and code 0 entered.
    Polled(usize),
    /// By form: it was polled, and there was no handler.
    Unhandled(usize),
    /// By form: it would have been polled, but for a full cycle count.
    Full(usize),
    /// By code: an exception step took its cycle off.
    ExceptionDown(u64),
    ExceptionExpired(u64),
    /// By code: there was no handler, and nothing was taken off.
    ExceptionUnhandled(u64),
    /// By stop: nothing was taken off.
    Stopped(u64),
    /// By port and form: read, written.
    Read(i64, usize),
    Written(i64, usize),
    /// By the register of stop 5: a port's word that it could not take.
    Refused(u64),
    /// By whether the timer was on before, is on after, and its mark was set: port 120 was written with I clear.
    Turned(bool, bool, bool),
    /// Port 120 was written, and the poll took the mark.
    TurnedAndPolled,
    /// The console's mark was taken, the timer's stayed.
    ConsoleFirst,
    /// The console's mark was taken, and the timer expired.
    ConsoleAndExpired,
    /// The same without a handler.
    ConsoleUnhandled,
    /// The mark that was polled had been set in this step.
    AtOnce,
    /// The mark was polled, and I set by this very instruction.
    EnabledAtOnce,
    /// The mark was polled with the timer off.
    PolledOff,
    /// A mark stayed while I was clear.
    Waiting,
    /// Nothing remained before the step.
    FromNothing,
    /// More was taken off than remained.
    Past,
    /// By interval: it expired.
    Interval(i64),
}

/// Intervals that must expire.
const INTERVALS: [i64; 6] = [1, 2, 3, 4, 5, i64::MAX];

/// How many ways there are: five for each of the 122 forms that complete; three for each of five codes; stops 1 and 3 to 7; two ports of
/// 3 forms read and 6 written, stop 5 on two registers; and the others.
const WAYS: usize = 5 * 122 + 3 * 5 + 6 + 2 * 9 + 2 + 8 + 10 + INTERVALS.len();

pub struct Coverage {
    forms: Vec<Form>,
    counts: BTreeMap<Way, u64>,
    steps: u64,
}

impl Default for Coverage {
    fn default() -> Self {
        let forms = all();
        let counts: BTreeMap<Way, u64> = ways(&forms).into_iter().map(|way| (way, 0)).collect();
        assert_eq!(counts.len(), WAYS);
        Self { forms, counts, steps: 0 }
    }
}

fn ways(forms: &[Form]) -> Vec<Way> {
    use Way::*;
    let mut ways = Vec::new();
    for form in forms {
        let entry = form.entry();
        if form.op != RESET && form.op != TRAP {
            ways.extend([Down(entry), Expired(entry), Polled(entry), Unhandled(entry), Full(entry)]);
        }
        for port in [INTERVAL_PORT, REMAINING_PORT] {
            ways.extend((form.op == IN).then_some(Read(port, entry)));
            ways.extend((form.op == OUT).then_some(Written(port, entry)));
        }
    }
    for code in code::DIV_BY_ZERO..code::CODES {
        ways.extend([ExceptionDown(code), ExceptionExpired(code), ExceptionUnhandled(code)]);
    }
    ways.push(Stopped(stop::RESET));
    ways.extend((stop::CELL_ERROR..=stop::CYCLES_FULL).map(Stopped));
    ways.extend([PC, SP].map(|register| Refused(register as u64)));
    for before in [false, true] {
        for after in [false, true] {
            ways.extend([false, true].map(|mark| Turned(before, after, mark)));
        }
    }
    ways.extend([TurnedAndPolled, ConsoleFirst, ConsoleAndExpired, ConsoleUnhandled, AtOnce, EnabledAtOnce]);
    ways.extend([PolledOff, Waiting, FromNothing, Past]);
    ways.extend(INTERVALS.map(Interval));
    ways
}

/// A step with what it began with.
pub struct Taken<'a> {
    pub before: &'a Row,
    pub fetched: Option<Cell>,
    pub port: Option<Port>,
    pub step: &'a Step,
    pub after: &'a Row,
}

impl Coverage {
    pub fn count(&mut self, taken: &Taken) {
        self.steps += 1;
        for way in met(taken) {
            *self.counts.get_mut(&way).unwrap_or_else(|| panic!("the timer met {way:?}")) += 1;
        }
    }

    /// What was not met, by name.
    pub fn missing(&self) -> Vec<String> {
        let name = |way: &Way| {
            let entry = match way {
                Way::Down(entry) | Way::Expired(entry) | Way::Polled(entry) => *entry,
                Way::Unhandled(entry) | Way::Full(entry) => *entry,
                Way::Read(_, entry) | Way::Written(_, entry) => *entry,
                _ => usize::MAX,
            };
            let form = self.forms.iter().find(|form| form.entry() == entry);
            format!("the timer's {way:?} {}", form.map_or(String::new(), |form| form.name()))
        };
        self.counts.iter().filter(|(_, count)| **count == 0).map(|(way, _)| name(way)).collect()
    }

    /// How many steps were counted.
    pub fn steps(&self) -> u64 {
        self.steps
    }

    pub fn told(&self) -> String {
        let reached = self.counts.values().filter(|count| **count > 0).count();
        let times = |which: fn(&Way) -> bool| -> u64 {
            self.counts.iter().filter(|(way, _)| which(way)).map(|(_, count)| count).sum()
        };
        format!(
            "{} steps with the timer on, its mark set or its ports used: {reached} of {WAYS} ways met; it went down {} times, expired {}, and \
             was polled {}, by the original's own entry of code 0",
            self.steps,
            times(|way| matches!(way, Way::Down(_) | Way::ExceptionDown(_))),
            times(|way| matches!(way, Way::Expired(_) | Way::ExceptionExpired(_))),
            times(|way| matches!(way, Way::Polled(_) | Way::Unhandled(_))),
        )
    }
}

/// Every way that a step is of.
fn met(taken: &Taken) -> Vec<Way> {
    let [interval, ..] = numbers(taken.before);
    let mut ways = at_port(taken);
    match outcome(taken.step) {
        Outcome::Done | Outcome::Interrupt | Outcome::Unhandled(code::HARDWARE_INTERRUPT) => {
            ways.extend(gone_on(taken));
            ways.extend(polled(taken));
        }
        Outcome::Stopped(stop::CYCLES_FULL, _) if taken.entry_does_not_fit() => {
            ways.push(Way::Full(taken.form()))
        }
        _ if interval == 0 => {}
        Outcome::Entered(code) if taken.before[at::TIMER_REMAINING] > 1 => {
            ways.push(Way::ExceptionDown(code))
        }
        Outcome::Entered(code) => ways.push(Way::ExceptionExpired(code)),
        Outcome::Unhandled(code) => ways.push(Way::ExceptionUnhandled(code)),
        Outcome::Stopped(stop, _) => ways.push(Way::Stopped(stop)),
    }
    ways
}

/// A completed step: what it took off.
fn gone_on(taken: &Taken) -> Vec<Way> {
    let [interval, remaining, mark] = numbers(taken.before);
    let form = taken.form();
    if taken.wrote_interval() {
        let on = taken.after[at::TIMER_INTERVAL] > 0;
        let done = outcome(taken.step) == Outcome::Done;
        return done.then_some(Way::Turned(interval > 0, on, mark == 1)).into_iter().collect();
    }
    if interval == 0 {
        return Vec::new();
    }
    if remaining > taken.cost() {
        return vec![Way::Down(form)];
    }
    let mut ways = vec![Way::Expired(form)];
    ways.extend(INTERVALS.contains(&interval).then_some(Way::Interval(interval)));
    ways.extend((remaining == 0).then_some(Way::FromNothing));
    ways.extend((0 < remaining && remaining < taken.cost()).then_some(Way::Past));
    ways
}

/// A completed step: whose mark the poll took, if any.
fn polled(taken: &Taken) -> Vec<Way> {
    let ([interval, _, mark], form) = (numbers(taken.before), taken.form());
    let set = mark == 1 || taken.expires();
    let mark_after = taken.after[at::TIMER_MARK] == 1;
    let entered = outcome(taken.step) == Outcome::Interrupt;
    if outcome(taken.step) == Outcome::Done {
        return (mark == 1 && mark_after).then_some(Way::Waiting).into_iter().collect();
    }
    if !set {
        return Vec::new();
    }
    if mark_after {
        let mut ways = vec![if entered { Way::ConsoleFirst } else { Way::ConsoleUnhandled }];
        ways.extend((mark == 0).then_some(Way::ConsoleAndExpired));
        return ways;
    }
    let mut ways = vec![if entered { Way::Polled(form) } else { Way::Unhandled(form) }];
    ways.extend((mark == 0).then_some(Way::AtOnce));
    ways.extend((taken.before[at::SR] & INTERRUPT_ENABLE == 0).then_some(Way::EnabledAtOnce));
    ways.extend((interval == 0).then_some(Way::PolledOff));
    ways.extend(taken.wrote_interval().then_some(Way::TurnedAndPolled));
    ways
}

fn at_port(taken: &Taken) -> Vec<Way> {
    let Some(Port { port, word }) = taken.port else { return Vec::new() };
    match (outcome(taken.step), word) {
        (Outcome::Done | Outcome::Interrupt | Outcome::Unhandled(_), None) => {
            vec![Way::Read(port, taken.form())]
        }
        (Outcome::Done | Outcome::Interrupt | Outcome::Unhandled(_), _) => {
            vec![Way::Written(port, taken.form())]
        }
        (Outcome::Stopped(stop::INVALID_REGISTER, register), _) => vec![Way::Refused(register)],
        _ => Vec::new(),
    }
}

impl Taken<'_> {
    fn cell(&self) -> Cell {
        self.fetched.expect("an instruction was fetched")
    }

    fn form(&self) -> usize {
        Form::of_tag(self.cell()[0]).entry()
    }

    fn cost(&self) -> i64 {
        judge::cost(self.cell()).expect("an instruction has a cost") as i64
    }

    fn wrote_interval(&self) -> bool {
        matches!(self.port, Some(Port { port: INTERVAL_PORT, word: Some(_) }))
    }

    /// Whether the cost of this completed step leaves nothing.
    fn expires(&self) -> bool {
        let [interval, remaining, _] = numbers(self.before);
        interval > 0 && remaining <= self.cost() && !self.wrote_interval()
    }

    /// Whether a stop 7 is for want of the cycle of an entry by the timer's mark: an exception's one cycle fits where the cost does.
    fn entry_does_not_fit(&self) -> bool {
        let fits = |cell: Cell| {
            judge::cost(cell).is_some_and(|cost| self.before[at::CYCLES] <= CYCLES_MOST - cost as i64)
        };
        self.fetched.is_some_and(fits) && self.before[at::PENDING] == 0
    }
}
