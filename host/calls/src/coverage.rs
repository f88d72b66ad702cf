//! Which refusals, with which places, which pairs of faults and which empty buffers were reached.

use std::collections::{BTreeMap, BTreeSet};

use layout::limit::CELLS_MOST;
use layout::refusal::{DAMAGED_CELL, NONE, ROW};
use layout::row::{RANGED, from_1};
use layout::stop;

use crate::faults::{Fault, causes, together};
use crate::journal;
use crate::trial::{Answer, Buffer, CALLS, Call, REST, Trial};

type Refusal = (u64, u64);

#[derive(Default)]
pub struct Coverage {
    pub trials: u64,
    refused: BTreeMap<(Call, Refusal), u64>,
    /// Done, by the stop where there is one.
    done: BTreeMap<(Call, u64), u64>,
    /// The stops of runs that took words from empty cells.
    took_empty: BTreeSet<(Call, u64)>,
    pairs: BTreeSet<(Call, Refusal, Refusal)>,
    /// Why a journal is none, each alone.
    causes: BTreeSet<(Call, String)>,
    /// What was kept before, and what the call did then.
    journals: BTreeSet<(Call, &'static str)>,
    /// An empty buffer, null or not.
    empty: BTreeSet<(Call, Buffer, bool)>,
}

impl Coverage {
    pub fn count(&mut self, trial: &Trial, answer: &Answer) {
        self.trials += 1;
        let call = trial.call;
        if answer.refusal != NONE {
            *self.refused.entry((call, (answer.refusal, answer.place))).or_default() += 1;
        } else {
            let stop = if matches!(call.own(), Call::Run | Call::Raise) { answer.rest[0] as u64 } else { 0 };
            *self.done.entry((call, stop)).or_default() += 1;
            if call.own() == Call::Run && answer.rest[REST - 1] > 0 {
                self.took_empty.insert((call, stop));
            }
        }
        if call.is_lent(Buffer::Journal) {
            self.journals.extend(journal::ways(trial, answer).into_iter().map(|way| (call, way)));
        }
        for buffer in call.lends() {
            if trial.length(*buffer) == 0 {
                self.empty.insert((call, *buffer, trial.null));
            }
        }
    }

    pub fn count_pair(&mut self, call: Call, one: Refusal, two: Refusal) {
        self.pairs.insert((call, one.min(two), one.max(two)));
    }

    pub fn count_cause(&mut self, call: Call, fault: Fault) {
        self.causes.extend(fault.cause().map(|cause| (call, cause)));
    }

    /// What it came to, or what was not reached.
    pub fn complete(&self) -> Result<String, String> {
        let mut missing = Vec::new();
        let mut reached = [0; 6];
        let mut need = |column: usize, there: bool, what: String| {
            reached[column] += 1;
            if !there {
                missing.push(what);
            }
        };
        for call in CALLS {
            for refusal in all_refusals(call) {
                let there = self.refused.contains_key(&(call, refusal));
                need(0, there, format!("{call:?} refused {refusal:?}"));
            }
            for (one, two) in all_pairs(call) {
                let there = self.pairs.contains(&(call, one, two));
                need(1, there, format!("{call:?} with both {one:?} and {two:?}"));
            }
            for stop in all_stops(call) {
                need(2, self.done.contains_key(&(call, stop)), format!("{call:?} done, stop {stop}"));
            }
            for cause in causes(call) {
                need(4, self.causes.contains(&(call, cause.clone())), format!("{call:?} refused by {cause}"));
            }
            for way in journal::all_ways(call) {
                need(5, self.journals.contains(&(call, way)), format!("{call:?} with a journal, {way}"));
            }
            for buffer in call.lends() {
                for null in [false, true] {
                    let there = self.empty.contains(&(call, *buffer, null));
                    need(3, there, format!("{call:?} with {buffer:?} empty, null {null}"));
                }
            }
        }
        for call in [Call::Run, Call::RunJournal] {
            for stop in all_stops(call) {
                let there = self.took_empty.contains(&(call, stop));
                need(2, there, format!("{call:?} done with words from empty cells, stop {stop}"));
            }
        }
        if !missing.is_empty() {
            return Err(format!("{} not reached: {}", missing.len(), missing.join("; ")));
        }
        let [refusals, pairs, stops, empty, causes, journals] = reached;
        Ok(format!(
            "{} calls on any lengths and contents as the model has them: {refusals} refusals by call and place, \
             {pairs} pairs of faults in checking order, {stops} ways to be done, {empty} empty buffers (null or not), {causes} causes of 20, \
             {journals} ways with a journal",
            self.trials
        ))
    }
}

/// Every number and place; a damaged cell at every address of the largest machine.
fn all_refusals(call: Call) -> Vec<Refusal> {
    let each = |number: &u64| match (number, call) {
        (&ROW, Call::Fresh | Call::FreshJournal) => vec![(ROW, 0)],
        (&ROW, _) => [0].into_iter().chain(RANGED.map(from_1)).map(|place| (ROW, place)).collect(),
        (&DAMAGED_CELL, _) => (0..CELLS_MOST as u64).map(|address| (DAMAGED_CELL, address)).collect(),
        (number, _) => vec![(*number, 0)],
    };
    call.refusals().iter().flat_map(each).collect()
}

/// Two different refusals that one trial can deserve; a damaged cell counts without its address.
pub fn all_pairs(call: Call) -> Vec<(Refusal, Refusal)> {
    let mut classes = all_refusals(call);
    classes.retain(|(number, place)| *number != DAMAGED_CELL || *place == 0);
    let mut pairs = Vec::new();
    for (i, one) in classes.iter().enumerate() {
        for two in &classes[i + 1..] {
            if together(call, *one, *two) {
                pairs.push((*one, *two));
            }
        }
    }
    pairs
}

fn all_stops(call: Call) -> Vec<u64> {
    match call.own() {
        Call::Run => (stop::BUDGET_SPENT..=stop::CYCLES_FULL).collect(),
        Call::Raise => vec![stop::ENTERED, stop::NO_HANDLER, stop::CYCLES_FULL],
        _ => vec![0],
    }
}
