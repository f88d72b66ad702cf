//! Which ways through a bench were met; each must be.

use std::collections::BTreeMap;
use std::sync::LazyLock;

use layout::limit::{SEATS_MOST, TURN_MOST};
use layout::refusal::{CELLS, DAMAGED_CELL, NONE, OUTPUT, QUEUE, ROW, SEATS};
use layout::row::{RANGED, from_1};
use layout::stop::{BUDGET_SPENT, CYCLES_FULL};
use z33::{Benched, Seat};

use super::asked::Held;
use super::causes::KINDS;
use super::class::Trial;
use super::is_own;
use super::model::{Turn, can_go_on};

/// Refusals by number and place that a seat can get; a damaged cell counts without its address.
pub static SEAT_CLASSES: LazyLock<Vec<(u64, u64)>> = LazyLock::new(|| {
    let ranged = RANGED.map(|place| (ROW, from_1(place)));
    [(CELLS, 0), (QUEUE, 0), (OUTPUT, 0), (ROW, 0)]
        .into_iter()
        .chain(ranged)
        .chain([(DAMAGED_CELL, 0)])
        .collect()
});

/// Around the steps of a turn.
const EDGES: [u64; 5] = [0, 1, 99, 100, 101];

pub struct Seen {
    /// How often each way was met.
    ways: BTreeMap<String, u64>,
    benches: u64,
    refused: u64,
    turns: u64,
    steps: u64,
}

impl Seen {
    pub fn new() -> Self {
        let ways = all_ways().into_iter().map(|way| (way, 0)).collect();
        Self { ways, benches: 0, refused: 0, turns: 0, steps: 0 }
    }

    pub fn met(&mut self, way: &str) {
        *self.ways.get_mut(way).unwrap_or_else(|| panic!("{way} is no way of a bench")) += 1;
    }

    fn met_if(&mut self, met: bool, way: &str) {
        if met {
            self.met(way);
        }
    }

    pub fn count(&mut self, trial: &Trial, held: &Held) {
        self.empty_buffers(trial);
        if held.answer.refusal == NONE {
            self.benches += 1;
            self.met(&format!("done, {} seats", trial.seats));
            self.given(trial);
            self.turns(trial, held);
            self.end(held);
        } else {
            self.refused += 1;
            self.refusal(trial, &held.answer);
        }
    }

    fn empty_buffers(&mut self, trial: &Trial) {
        let [cells, queues, outputs, rows] = trial.lent.lengths();
        for (name, length) in [
            ("list", trial.lent.list.len()),
            ("cells", cells),
            ("queues", queues),
            ("outputs", outputs),
            ("rows", rows),
        ] {
            self.met_if(length == 0, &format!("{name} empty, null {}", trial.null));
        }
    }

    /// Total and records of a bench that is done.
    fn given(&mut self, trial: &Trial) {
        for edge in EDGES {
            self.met_if(trial.total == edge, &format!("total {edge}"));
        }
        self.met_if(trial.total > u64::from(u32::MAX), "total past 32 bits");
        self.met_if(trial.total == u64::MAX, "total 2^64 - 1");
        for Seat { limit, used, stop } in trial.lent.list.iter().filter(|_| trial.total > 0) {
            for edge in EDGES {
                self.met_if(*stop == 0 && limit.checked_sub(*used) == Some(edge), &format!("rest {edge}"));
            }
            self.met_if(*stop == 0 && used > limit, "used over the limit");
            self.met_if(*stop == 0 && *limit == u64::MAX && *used == 0, "limit 2^64 - 1, none used");
            self.met_if(*limit == u64::MAX && *used == u64::MAX, "used 2^64 - 1");
            self.met_if(
                *stop == 0 && *used > u64::from(u32::MAX) && used < limit,
                "used past 32 bits, and goes on",
            );
            match *stop {
                0 => {}
                stop @ 1..=7 => self.met(&format!("stop {stop} before")),
                _ => self.met("stop over 7 before"),
            }
        }
    }

    fn turns(&mut self, trial: &Trial, held: &Held) {
        let turns = &held.turns;
        self.turns += turns.len() as u64;
        for (i, Turn { at, seat, left, ran }) in turns.iter().enumerate() {
            let rest = seat.limit - seat.used;
            self.steps += ran.steps;
            self.met(&format!("a turn that stops by {}", ran.stop));
            self.met_if(TURN_MOST < rest.min(*left), "a turn on 100");
            self.met_if(rest < TURN_MOST.min(*left), "a turn on the limit's rest");
            self.met_if(*left < TURN_MOST.min(rest), "a turn on the total's rest");
            let behind = &turns[i + 1..];
            if ran.stop != BUDGET_SPENT {
                self.met_if(ran.steps == 0, "stopped at the turn's first step");
                self.met_if(ran.steps == TURN_MOST - 1, "stopped at the turn's hundredth step");
                self.met_if(0 < ran.steps && ran.steps < TURN_MOST - 1, "stopped within the turn");
                self.met_if(
                    behind.first().is_some_and(|next| next.at > *at),
                    "stopped, and the next seat goes on",
                );
                self.met_if(behind.iter().any(|next| next.at < *at), "stopped, and another round follows");
                self.met_if(seat.used > trial.lent.list[*at].used, "stopped in a later turn");
            } else if seat.used + ran.steps == seat.limit {
                self.met_if(
                    behind.iter().any(|next| next.at < *at),
                    "limit reached, and another round follows",
                );
            }
        }
    }

    fn end(&mut self, held: &Held) {
        let Some(last) = held.turns.last() else {
            self.met("no turn");
            return;
        };
        let goes_on = held.list.iter().any(can_go_on);
        let waiting = held.list[last.at + 1..].iter().any(can_go_on);
        match (held.answer.left, goes_on) {
            (0, true) if waiting => self.met("the total spent within a round"),
            (0, true) => self.met("the total spent at a round's end"),
            (0, false) => self.met("the total spent where nobody can go on"),
            _ => self.met("nobody can go on, and some of the total is left"),
        }
    }

    fn refusal(&mut self, trial: &Trial, answer: &Benched) {
        let Benched { refusal, place, seat, .. } = *answer;
        if refusal == SEATS {
            return;
        }
        let place = if refusal == DAMAGED_CELL { 0 } else { place };
        self.met(&format!("{:?} of seat {seat}", (refusal, place)));
        let record = trial.lent.list[seat as usize - 1];
        self.met_if(record.stop != 0, "refused, a seat that had stopped");
        self.met_if(record.stop == 0 && record.used >= record.limit, "refused, a seat at its limit");
        self.met(if trial.total == 0 { "refused, total 0" } else { "refused, a total" });
    }

    /// What it came to, or what was not met.
    pub fn complete(&self) -> Result<String, String> {
        let missing: Vec<&str> =
            self.ways.iter().filter(|(_, times)| **times == 0).map(|(way, _)| way.as_str()).collect();
        if !missing.is_empty() {
            return Err(format!("benches: {} ways not met: {}", missing.len(), missing.join("; ")));
        }
        let Self { ways, benches, refused, turns, steps } = self;
        Ok(format!(
            "{benches} benches of 1 to {SEATS_MOST} seats, {turns} turns and {steps} steps, as rounds of single runs leave them; {refused} refused \
             as they are due; {} ways, each met",
            ways.len()
        ))
    }
}

fn all_ways() -> Vec<String> {
    let mut ways: Vec<String> = [
        "total past 32 bits",
        "total 2^64 - 1",
        "used over the limit",
        "limit 2^64 - 1, none used",
        "used 2^64 - 1",
        "used past 32 bits, and goes on",
        "stop over 7 before",
        "a turn on 100",
        "a turn on the limit's rest",
        "a turn on the total's rest",
        "stopped at the turn's first step",
        "stopped at the turn's hundredth step",
        "stopped within the turn",
        "stopped, and the next seat goes on",
        "stopped, and another round follows",
        "stopped in a later turn",
        "limit reached, and another round follows",
        "no turn",
        "the total spent within a round",
        "the total spent at a round's end",
        "the total spent where nobody can go on",
        "nobody can go on, and some of the total is left",
        "refused, a seat that had stopped",
        "refused, a seat at its limit",
        "refused, total 0",
        "refused, a total",
    ]
    .map(String::from)
    .into();
    ways.extend((1..=SEATS_MOST).map(|seats| format!("done, {seats} seats")));
    ways.extend(EDGES.iter().flat_map(|edge| [format!("total {edge}"), format!("rest {edge}")]));
    ways.extend((1..=CYCLES_FULL).map(|stop| format!("stop {stop} before")));
    ways.extend((BUDGET_SPENT..=CYCLES_FULL).map(|stop| format!("a turn that stops by {stop}")));
    for name in ["list", "cells", "queues", "outputs", "rows"] {
        ways.extend([false, true].map(|null| format!("{name} empty, null {null}")));
    }
    for class in SEAT_CLASSES.iter() {
        let seats = if is_own(*class) { SEATS_MOST } else { 1 };
        ways.extend((1..=seats).map(|seat| format!("{class:?} of seat {seat}")));
        ways.extend(KINDS.map(|kind| format!("19 by {kind} before {class:?}")));
    }
    ways.extend(KINDS.map(|kind| format!("19 by {kind}")));
    for (i, low) in SEAT_CLASSES.iter().enumerate() {
        ways.extend(
            SEAT_CLASSES[i + 1..].iter().map(|high| format!("{low:?} of a seat before its {high:?}")),
        );
        let own = SEAT_CLASSES.iter().filter(|high| is_own(**high) && is_own(*low));
        ways.extend(own.map(|high| format!("{low:?} of a lower seat before {high:?}")));
    }
    ways
}
