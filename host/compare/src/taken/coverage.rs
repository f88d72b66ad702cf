//! Which ways of taking a word from an empty cell, and of not taking it, were met.

use std::collections::BTreeMap;

use judge::Step;
use layout::Cell;

use super::possible::{comes_with, possible};
use super::{Event, Reason, Way, count};
use crate::coverage::{OUTCOMES, column, outcome};
use crate::forms::*;

/// (form, way) pairs of taking, and of not taking by its reason.
const TAKEN: usize = 224;
const LEFT: [(Reason, usize); 4] =
    [(Reason::JumpNotTaken, 36), (Reason::UserMode, 13), (Reason::Carried, 30), (Reason::Ended, 49)];

/// Forms by outcome, in the order of `OUTCOMES`, of steps that took a word from an empty cell.
const AFTER: [usize; OUTCOMES.len()] =
    [108, 108, 5, 10, 40, 0, 27, 108, 5, 10, 40, 0, 27, 0, 10, 58, 21, 21, 6, 4, 108];

type Counts<T> = BTreeMap<(usize, T), u64>;

pub struct Coverage {
    forms: Vec<Form>,
    /// In completed steps, by form.
    events: Counts<Event>,
    /// In any step that took such a word, by form and outcome.
    outcomes: Counts<usize>,
    /// How many such words were taken in steps that stopped.
    stopped: u64,
    /// Steps that fetched an empty cell, and entries that wrote over one.
    fetched: u64,
    entered: u64,
}

impl Default for Coverage {
    fn default() -> Self {
        let forms = all();
        let events =
            forms.iter().flat_map(|form| possible(*form).into_iter().map(|event| (form.entry(), event)));
        let events: Counts<Event> = events.map(|pair| (pair, 0)).collect();
        let mut outcomes = Counts::new();
        for form in &forms {
            for (column, (outcome, ..)) in OUTCOMES.iter().enumerate() {
                if comes_with(*form, *outcome) {
                    outcomes.insert((form.entry(), column), 0);
                }
            }
        }
        let coverage = Self { forms, events, outcomes, stopped: 0, fetched: 0, entered: 0 };
        coverage.totals_agree();
        coverage
    }
}

impl Coverage {
    /// The rules give the counts that are required.
    fn totals_agree(&self) {
        assert_eq!(self.of(|event| matches!(event, Event::Taken(_))).count(), TAKEN);
        for (reason, required) in LEFT {
            assert_eq!(self.of(|event| left_by(event, reason)).count(), required, "{reason:?}");
        }
        for (column, required) in AFTER.into_iter().enumerate() {
            let total = self.outcomes.keys().filter(|(_, outcome)| *outcome == column).count();
            assert_eq!(total, required, "{:?}", OUTCOMES[column].0);
        }
    }

    fn of(&self, which: impl Fn(Event) -> bool) -> impl Iterator<Item = u64> {
        self.events.iter().filter(move |((_, event), _)| which(*event)).map(|(_, count)| *count)
    }

    /// Counts a step; whether it was the first with one of its ways, or what is wrong with it.
    pub fn count(&mut self, fetched: Option<Cell>, events: &[Event], step: &Step) -> Result<bool, String> {
        let Some(cell) = fetched else { return Ok(false) };
        let form = Form::of_tag(cell[0]);
        let (taken, mut first) = (count(events), false);
        if taken > 0 {
            let column = column(outcome(step))?;
            let count = self.outcomes.get_mut(&(form.entry(), column));
            *count.ok_or(format!("{} took a word from an empty cell: {step:?}", form.name()))? += 1;
        }
        if !step.completed {
            self.stopped += taken;
            return Ok(false);
        }
        for event in events {
            let count = self.events.get_mut(&(form.entry(), *event));
            let count = count.ok_or(format!("{} came to {event:?}", form.name()))?;
            *count += 1;
            first |= *count == 1;
        }
        Ok(first)
    }

    /// Counts what meets empty cells beside the instruction: the fetch, and the entry of an exception.
    pub fn count_around(&mut self, fetched: bool, entered: bool) {
        self.fetched += u64::from(fetched);
        self.entered += u64::from(entered);
    }

    /// Whether every way of taking a word, and of not taking it, was met.
    pub fn every_way(&self) -> bool {
        self.events.values().all(|count| *count > 0)
    }

    /// What was not met, by name.
    pub fn missing(&self) -> Vec<String> {
        let name = |entry: usize| {
            let form = self.forms.iter().find(|form| form.entry() == entry);
            form.expect("the forms are its keys").name()
        };
        let events = self.events.iter().filter(|(_, count)| **count == 0);
        let events = events.map(|((form, event), _)| format!("{} {event:?}", name(*form)));
        let outcomes = self.outcomes.iter().filter(|(_, count)| **count == 0);
        let told = |column: usize| format!("{:?} after a word from an empty cell", OUTCOMES[column].0);
        let outcomes = outcomes.map(|((form, column), _)| format!("{} {}", name(*form), told(*column)));
        let around = [("an empty cell fetched", self.fetched), ("an entry over one", self.entered)];
        let around = around.into_iter().filter(|(_, count)| *count == 0).map(|(what, _)| what.to_string());
        events.chain(outcomes).chain(around).collect()
    }

    /// Forms and words, way by way.
    fn by_way(&self) -> String {
        let mut ways: BTreeMap<Way, (usize, u64)> = BTreeMap::new();
        for ((_, event), count) in &self.events {
            if let Event::Taken(way) = event {
                let (forms, words) = ways.entry(*way).or_default();
                *forms += usize::from(*count > 0);
                *words += count;
            }
        }
        let told = |(way, (forms, words)): (&Way, &(usize, u64))| format!("{way:?} {forms} ({words})");
        ways.iter().map(told).collect::<Vec<_>>().join(", ")
    }

    /// What it came to, where nothing is missing.
    pub fn told(&self) -> Vec<String> {
        let times = |which: &dyn Fn(Event) -> bool| -> (usize, u64) {
            (self.of(which).filter(|count| *count > 0).count(), self.of(which).sum())
        };
        let (ways, words) = times(&|event| matches!(event, Event::Taken(_)));
        let left = LEFT.map(|(reason, _)| {
            let (ways, cells) = times(&|event| left_by(event, reason));
            format!("{reason:?} {ways} ({cells})")
        });
        let after = self.outcomes.values().filter(|count| **count > 0).count();
        vec![
            format!(
                "words taken from empty cells: {words} counted, by {ways} of {TAKEN} (form, way) pairs, before {after} (form, outcome) \
                 pairs; {} in steps that stopped, not counted",
                self.stopped
            ),
            format!("forms by the way they take it, and words: {}", self.by_way()),
            format!(
                "empty cells whose word was not taken, (form, way) pairs and times: {}; {} fetched, {} entries over one",
                left.join(", "),
                self.fetched,
                self.entered
            ),
        ]
    }
}

fn left_by(event: Event, reason: Reason) -> bool {
    matches!(event, Event::Left(why, _) if why == reason)
}
