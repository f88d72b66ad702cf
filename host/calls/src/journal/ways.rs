//! What a call does with a journal in which steps are kept: each way must be met by a call on any lengths and contents.

use layout::journal::{CELLS, COUNT, FIRST, START, WRITE};
use layout::refusal::NONE;
use layout::stop::BUDGET_SPENT;

use super::ring;
use crate::trial::{Answer, Call, Trial};

const EMPTIED: &str = "what was kept is forgotten";
const NOTHING_DONE: &str = "what was kept is forgotten though nothing else changes";
const KEPT: &str = "what was kept stays";
const REFUSED: &str = "what was kept stays, as it is refused";
const FULL: &str = "the oldest is forgotten";
const AROUND: &str = "the ring's end is passed";
const MADE: &str = "start and count were none";
const LAST: &str = "the only record is gone back to";
const OTHERS: &str = "others are left";
const UNUSED: &str = "unused places are not 0";

pub fn all_ways(call: Call) -> Vec<&'static str> {
    match call {
        Call::FreshJournal => vec![MADE, REFUSED],
        Call::RunJournal => vec![KEPT, REFUSED, FULL, AROUND],
        Call::SetRegisterJournal => vec![EMPTIED, REFUSED],
        Call::Back => vec![LAST, OTHERS, UNUSED, REFUSED],
        Call::DeliverJournal | Call::DrainJournal | Call::LoadJournal | Call::RaiseJournal => {
            vec![EMPTIED, NOTHING_DONE, REFUSED]
        }
        _ => Vec::new(),
    }
}

/// Of a call that was made, those that it shows.
pub fn ways(trial: &Trial, answer: &Answer) -> Vec<&'static str> {
    let journal = &trial.lent.journal;
    let kept = journal.get(COUNT).copied().unwrap_or(0);
    if answer.refusal != NONE {
        return if kept != 0 { vec![REFUSED] } else { Vec::new() };
    }
    match trial.call {
        Call::FreshJournal if journal[START] != 0 && kept != 0 => vec![MADE],
        _ if kept == 0 => Vec::new(),
        Call::RunJournal => run(trial, answer),
        Call::Back => back(journal),
        Call::SetRegisterJournal => vec![EMPTIED],
        Call::FreshJournal => Vec::new(),
        call => {
            let [first, ..] = answer.rest;
            let nothing = match call {
                Call::DrainJournal => first == 0,
                Call::RaiseJournal => first as u64 != BUDGET_SPENT,
                _ => trial.lent.bytes.is_empty() && trial.lent.image.is_empty(),
            };
            vec![if nothing { NOTHING_DONE } else { EMPTIED }]
        }
    }
}

/// As far as completed steps tell.
fn run(trial: &Trial, answer: &Answer) -> Vec<&'static str> {
    let journal = &trial.lent.journal;
    let (records, steps) = (ring::records(journal) as i64, answer.rest[2]);
    let behind = journal[COUNT] + steps;
    let met = [
        (trial.number == 0, KEPT),
        (behind > records, FULL),
        (journal[START] + behind.min(records) > records, AROUND),
    ];
    met.into_iter().filter_map(|(met, way)| met.then_some(way)).collect()
}

fn back(journal: &[i64]) -> Vec<&'static str> {
    let record = ring::newest(journal);
    let unused = &record[FIRST + WRITE * record[CELLS] as usize..];
    let left = if journal[COUNT] == 1 { LAST } else { OTHERS };
    let unused = unused.iter().any(|number| *number != 0).then_some(UNUSED);
    [left].into_iter().chain(unused).collect()
}
