//! Which ways of keeping steps and going back over them were met; each must be.

use std::collections::BTreeMap;

use layout::code::{CODES, INVALID_MEMORY_ACCESS};
use layout::journal::{CELLS, COUNT, START, WRITES_MOST};
use layout::limit::{CELLS_MOST, RECORDS_MOST};
use layout::memory::{INTERRUPT_EXCEPTION, SAVES};
use layout::sr::SUPERVISOR;
use layout::stop::{BUDGET_SPENT, CYCLES_FULL, INVALID_REGISTER, RESET};
use layout::{at, cell};

use super::ring;
use crate::trial::Lent;

/// How many records journals have.
pub const SIZES: [usize; 4] = [1, 2, 3, RECORDS_MOST];

/// A step that is gone back over: the machine before and behind it, why it stopped, and its record.
pub struct Kept<'a> {
    pub before: &'a Lent,
    pub after: &'a Lent,
    pub stop: u64,
    pub record: &'a [i64],
}

pub struct Seen {
    /// How often each way was met.
    ways: BTreeMap<String, u64>,
    journals: u64,
    runs: u64,
    steps: u64,
    gone_back: u64,
}

impl Seen {
    pub fn new() -> Self {
        let ways = all_ways().into_iter().map(|way| (way, 0)).collect();
        Self { ways, journals: 0, runs: 0, steps: 0, gone_back: 0 }
    }

    fn met(&mut self, way: &str) {
        *self.ways.get_mut(way).unwrap_or_else(|| panic!("{way} is no way of a journal")) += 1;
    }

    fn met_if(&mut self, met: bool, way: &str) {
        if met {
            self.met(way);
        }
    }

    pub fn ran(&mut self, records: usize, budget: u64, ran: &z33::Ran) {
        self.runs += 1;
        self.steps += ran.steps;
        self.met(&format!("a run with {records} records that ends by {}", ran.stop));
        self.met_if(budget == 0, "a run on budget 0");
        self.met_if(ran.empty > 0, "a run that took words from empty cells");
    }

    pub fn refused(&mut self, which: usize, refusal: u64) {
        self.met(&format!("call {which} refused by {refusal} between runs"));
    }

    pub fn emptied(&mut self, which: usize, kept: bool) {
        self.met_if(kept, &format!("call {which} empties it"));
    }

    pub fn damaged(&mut self) {
        self.met("a kept record damaged");
    }

    /// All runs on one journal are made, of so many steps begun.
    pub fn course(&mut self, machine: &Lent, records: usize, start: usize, journal: &[i64], begun: usize) {
        self.journals += 1;
        let room = match begun {
            0 => "nothing kept",
            _ if begun < records => "some room left",
            _ if begun == records => "just full",
            _ => "the oldest forgotten",
        };
        let way = format!("{records} records, {room}");
        self.met_if(self.ways.contains_key(&way), &way);
        self.met_if(start > 0, "a start behind the first place");
        self.met_if((journal[START] + journal[COUNT]) as usize > records, "records around the ring's end");
        self.met_if(begun > RECORDS_MOST, "more steps begun than the most records");
        self.met_if(machine.cells.len() == cell::LENGTH * CELLS_MOST, "the most cells");
    }

    pub fn kept(&mut self, kept: &Kept) {
        let Kept { before, after, stop, record } = kept;
        self.gone_back += 1;
        let written = record[CELLS] as usize;
        let cells: Vec<[i64; 4]> = (0..written.min(WRITES_MOST)).map(|i| ring::written(record, i)).collect();
        self.met(&format!("a step back over {written} cells"));
        self.met(&format!("a step back over stop {stop}"));
        self.met_if(*stop > RESET && written > 0, "a step back over one that wrote and stopped");
        let mode = if before.row[at::SR] & SUPERVISOR != 0 { "supervisor" } else { "user" };
        self.met(&format!("a step back from {mode} mode"));
        let twice = written == WRITES_MOST && SAVES.iter().any(|save| cells[0][0] == i64::from(*save));
        self.met_if(twice, "a step back over a cell written twice");
        if let [[address, tag, first, second]] = cells[..] {
            let same = cell::get(&after.cells, address as usize) == [tag, first, second];
            self.met_if(same, "a step back over a cell written with what it held");
        }
        let entered = written >= SAVES.len();
        if entered {
            let [_, code, _] = cell::get(&after.cells, INTERRUPT_EXCEPTION as usize);
            self.met(&format!("a step back over an entry by code {code}"));
            let fenced = code as u64 == INVALID_MEMORY_ACCESS && before.row[at::FENCE] > 0 && mode == "user";
            self.met_if(fenced, "a step back over an entry by code 5 from behind a fence");
        }
        self.changed(&before.row, &after.row);
    }

    fn changed(&mut self, before: &[i64], after: &[i64]) {
        for (place, what) in CHANGES {
            self.met_if(before[place] != after[place], &format!("a step back over a change of {what}"));
        }
        let round = before[at::QUEUE_COUNT] > after[at::QUEUE_COUNT] && after[at::QUEUE_START] == 0;
        self.met_if(round, "a step back over a byte read at the queue's end");
    }

    /// What it came to, or what was not met.
    pub fn complete(&self) -> Result<String, String> {
        let missing: Vec<&str> =
            self.ways.iter().filter(|(_, times)| **times == 0).map(|(way, _)| way.as_str()).collect();
        if !missing.is_empty() {
            return Err(format!("journals: {} ways not met: {}", missing.len(), missing.join("; ")));
        }
        let Self { ways, journals, runs, steps, gone_back } = self;
        Ok(format!(
            "{journals} journals of 1, 2, 3 and {RECORDS_MOST} records, {runs} runs of {steps} steps as without them, {gone_back} steps gone back \
             over to the copies kept before them, and taken again; {} ways, each met",
            ways.len()
        ))
    }
}

/// What a step changes in the row.
const CHANGES: [(usize, &str); 17] = [
    (at::A, "a's tag"),
    (at::A + 1, "a's word"),
    (at::B, "b's tag"),
    (at::B + 1, "b's word"),
    (at::PC, "pc"),
    (at::SP, "sp"),
    (at::SR, "sr"),
    (at::CYCLES, "cycles"),
    (at::ENABLE, "enable"),
    (at::FLAG, "the flag"),
    (at::PENDING, "the pending mark"),
    (at::QUEUE_START, "the queue's start"),
    (at::QUEUE_COUNT, "the queue's count"),
    (at::OUTPUT_COUNT, "the output count"),
    (at::TIMER_INTERVAL, "the interval"),
    (at::TIMER_REMAINING, "what remains"),
    (at::TIMER_MARK, "the timer's mark"),
];

fn all_ways() -> Vec<String> {
    let mut ways: Vec<String> = [
        "a run on budget 0",
        "a run that took words from empty cells",
        "a kept record damaged",
        "a start behind the first place",
        "records around the ring's end",
        "more steps begun than the most records",
        "the most cells",
        "a step back over one that wrote and stopped",
        "a step back from supervisor mode",
        "a step back from user mode",
        "a step back over a cell written twice",
        "a step back over a cell written with what it held",
        "a step back over an entry by code 5 from behind a fence",
        "a step back over a byte read at the queue's end",
    ]
    .map(String::from)
    .into();
    for records in SIZES {
        ways.extend(
            (BUDGET_SPENT..=CYCLES_FULL)
                .map(|stop| format!("a run with {records} records that ends by {stop}")),
        );
        ways.extend(
            ["nothing kept", "the oldest forgotten"].map(|room| format!("{records} records, {room}")),
        );
    }
    ways.extend(SIZES[1..].iter().map(|records| format!("{records} records, some room left")));
    ways.extend(SIZES[..3].iter().map(|records| format!("{records} records, just full")));
    // an instruction writes one cell at most, and an entry three
    ways.extend([0, 1, 3, 4].map(|written| format!("a step back over {written} cells")));
    ways.extend((BUDGET_SPENT..=INVALID_REGISTER).map(|stop| format!("a step back over stop {stop}")));
    ways.extend((0..CODES).map(|code| format!("a step back over an entry by code {code}")));
    ways.extend(CHANGES.map(|(_, what)| format!("a step back over a change of {what}")));
    // fresh, deliver, drain, load, set register, raise and run, in this order
    ways.extend(
        REFUSED.iter().map(|(which, refusal)| format!("call {which} refused by {refusal} between runs")),
    );
    ways.extend((0..6).map(|which| format!("call {which} empties it")));
    ways
}

const REFUSED: [(usize, u64); 8] = [(0, 4), (1, 6), (2, 4), (2, 7), (3, 8), (4, 10), (5, 11), (6, 5)];
