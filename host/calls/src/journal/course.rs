//! Runs on one journal with copies kept on the way by single steps, all the way back, and the same way again.

use draws::rng::Rng;
use layout::at;
use layout::journal::{CELLS, COUNT, FIRST, RING, START};
use layout::refusal::{JOURNAL, NOTHING_KEPT};
use layout::stop::{BUDGET_SPENT, CYCLES_FULL, OUTPUT_FULL};

use super::seen::{Kept, Seen};
use super::{draw, machines, ring};
use crate::trial::Lent;

/// Runs on one journal, at most.
const RUNS: i64 = 4;
/// A damaged record is tried once in so many.
const DAMAGED_ONCE_IN: usize = 8;

pub struct Course {
    machine: Lent,
    journal: Vec<i64>,
    records: usize,
    /// The start that the journal had.
    start: usize,
    budgets: Vec<u64>,
    /// The machine before each step that was begun, and that step's stop.
    begun: Vec<(Lent, u64)>,
    told: String,
}

impl Course {
    /// With nothing kept yet, though start and ring are any.
    pub fn draw(rng: &mut Rng, records: usize, cells: usize, most: i64) -> Self {
        let trial = machines::draw(rng, cells, most);
        let mut journal = draw::of_any_numbers(rng, records);
        let start = rng.below(records);
        (journal[START], journal[COUNT]) = (start as i64, 0);
        let budgets: Vec<u64> = (0..rng.between(1, RUNS)).map(|_| budget(rng, most)).collect();
        let told = format!("{records} records from {start}, runs on {budgets:?}: {}", trial.told());
        Self { machine: trial.lent, journal, records, start, budgets, begun: Vec::new(), told }
    }

    pub fn hold(mut self, rng: &mut Rng, seen: &mut Seen) -> Result<(), String> {
        self.held(rng, seen).map_err(|why| format!("{}: {why}", self.told))
    }

    fn held(&mut self, rng: &mut Rng, seen: &mut Seen) -> Result<(), String> {
        for budget in self.budgets.clone() {
            let ran = self.run(budget)?;
            seen.ran(self.records, budget, &ran);
            if rng.once_in(3) {
                self.refused(rng, seen)?;
            }
        }
        seen.course(&self.machine, self.records, self.start, &self.journal, self.begun.len());
        let (end, journal) = (self.machine.clone(), self.journal.clone());
        self.back(rng, &end, seen)?;
        self.forth(&end)?;
        if self.journal != journal {
            return Err("gone back over and taken again, the steps are kept otherwise".into());
        }
        self.emptied(rng, seen)
    }

    /// A run with the journal, on what a run without it answers and leaves.
    fn run(&mut self, budget: u64) -> Result<z33::Ran, String> {
        let before = (budget == 0).then(|| self.journal.clone());
        let mut whole = self.machine.clone();
        let due = run(&mut whole, budget);
        let mut stepped = self.machine.clone();
        let mut steps = 0;
        while steps < budget {
            let before = stepped.clone();
            let ran = run(&mut stepped, 1);
            if !matches!(ran.stop, OUTPUT_FULL | CYCLES_FULL) {
                self.begun.push((before, ran.stop));
            }
            if ran.stop != BUDGET_SPENT {
                break;
            }
            steps += 1;
        }
        let ran = run_journal(&mut self.machine, &mut self.journal, budget);
        if ran != due || self.machine != whole {
            return Err(format!("with the journal {ran:?}, without {due:?}, or something is left otherwise"));
        }
        if stepped != whole || steps != due.steps {
            return Err("single steps leave another machine".into());
        }
        if before.is_some_and(|before| before != self.journal) {
            return Err("a run on budget 0 changed the journal".into());
        }
        let begun = self.begun.len();
        let start = (self.start + begun.saturating_sub(self.records)) % self.records;
        let due = [start as i64, begun.min(self.records) as i64];
        if self.journal[..RING] != due {
            return Err(format!("start and count are {:?}, due {due:?}", &self.journal[..RING]));
        }
        Ok(ran)
    }

    /// A call that is refused leaves machine and journal as they were.
    fn refused(&mut self, rng: &mut Rng, seen: &mut Seen) -> Result<(), String> {
        let (machine, journal) = (self.machine.clone(), self.journal.clone());
        let Lent { cells, queue, output, row, .. } = &mut self.machine;
        let (cells, row, kept) = (&mut cells[..], &mut row[..], &mut self.journal[..]);
        let which = rng.below(7);
        let refusal = match which {
            0 => z33::fresh_journal(cells, &mut row[1..], kept).refusal,
            1 => z33::deliver_journal(&mut queue[..], row, kept, &[7; 5_000][..]).refusal,
            2 => {
                row[at::OUTPUT_COUNT] += 1;
                let refusal = z33::drain_journal(&output[..], &mut *row, kept, None).refusal;
                row[at::OUTPUT_COUNT] -= 1;
                refusal
            }
            3 => z33::load_journal(cells, kept, None, u64::MAX).refusal,
            4 => z33::set_register_journal(row, kept, 4, 0).refusal,
            5 => z33::raise_journal(cells, row, kept, 6).refusal,
            _ => {
                let first = cells[0];
                cells[0] = -1;
                let refusal =
                    z33::run_journal(&mut *cells, &mut queue[..], &mut output[..], row, kept, 9).refusal;
                cells[0] = first;
                refusal
            }
        };
        seen.refused(which, refusal);
        if refusal != 0 && self.machine == machine && self.journal == journal {
            Ok(())
        } else {
            Err(format!("between runs call {which} answered {refusal}, or changed something"))
        }
    }

    /// "Going back over n kept steps, stopping ones included, restores row, cells, unread queue and counted output from before them exactly."
    fn back(&mut self, rng: &mut Rng, end: &Lent, seen: &mut Seen) -> Result<(), String> {
        let journal = self.journal.clone();
        let kept = self.begun.len().min(self.records);
        for i in 1..=kept {
            let at = self.begun.len() - i;
            if rng.once_in(DAMAGED_ONCE_IN) {
                self.damaged(rng, seen)?;
            }
            let record = ring::newest(&self.journal).to_vec();
            let (before, stop) = &self.begun[at];
            let after = self.begun.get(at + 1).map_or(end, |(after, _)| after);
            seen.kept(&Kept { before, after, stop: *stop, record: &record });
            let answer = back(&mut self.machine, &mut self.journal);
            if (answer.refusal, answer.place) != (0, 0) {
                return Err(format!("going back over the step {i} from the last: {answer:?}"));
            }
            same(&self.machine, before)
                .map_err(|what| format!("the step {i} from the last gone back over: {what}"))?;
            if self.journal[..RING] != [journal[START], (kept - i) as i64] {
                return Err(format!("behind {i} steps start and count are {:?}", &self.journal[..RING]));
            }
        }
        let (machine, before) = (self.machine.clone(), self.journal.clone());
        let answer = back(&mut self.machine, &mut self.journal);
        if (answer.refusal, answer.place) != (NOTHING_KEPT, 0) {
            return Err(format!("with nothing kept: {answer:?}"));
        }
        if self.machine != machine || self.journal != before || before[RING..] != journal[RING..] {
            return Err("going back changed the ring, or with nothing kept anything".into());
        }
        Ok(())
    }

    /// The newest record with a number that none has is 20, and with the old one again it is a record.
    fn damaged(&mut self, rng: &mut Rng, seen: &mut Seen) -> Result<(), String> {
        let record = ring::newest(&self.journal).to_vec();
        let last = FIRST + 4 * (record[CELLS] as usize).saturating_sub(1);
        let damage: &[(usize, i64)] = &[
            (CELLS, 5),
            (CELLS, -1),
            (at::PC, -1),
            (at::A, -1),
            (at::FENCE, self.machine.cells.len() as i64 / 3 + 1),
            (last, self.machine.cells.len() as i64 / 3),
            (last + 1, -1),
        ];
        let of_row_and_count = if record[CELLS] > 0 { damage.len() } else { damage.len() - 2 };
        let (place, number) = damage[rng.below(of_row_and_count)];
        ring::newest_mut(&mut self.journal)[place] = number;
        let (machine, journal) = (self.machine.clone(), self.journal.clone());
        let answer = back(&mut self.machine, &mut self.journal);
        if (answer.refusal, answer.place) != (JOURNAL, 0)
            || self.machine != machine
            || self.journal != journal
        {
            return Err(format!("a record with {number} at {place}: {answer:?}, or something has changed"));
        }
        ring::newest_mut(&mut self.journal)[place] = record[place];
        seen.damaged();
        Ok(())
    }

    /// "Lent to fresh, deliver, drain, load, set register or raise, it gets count 0 unless refused and keeps the rest; fresh [...] sets start 0
    /// too": behind each of these, nothing done or not, there is nothing to go back to.
    fn emptied(&mut self, rng: &mut Rng, seen: &mut Seen) -> Result<(), String> {
        let before = self.journal.clone();
        let Lent { cells, queue, output, row, .. } = &mut self.machine;
        let (cells, row, kept) = (&mut cells[..], &mut row[..], &mut self.journal[..]);
        let which = rng.below(6);
        let refusal = match which {
            0 => z33::fresh_journal(cells, row, kept).refusal,
            1 => z33::deliver_journal(&mut queue[..], row, kept, None).refusal,
            2 => z33::drain_journal(&output[..], row, kept, &mut vec![0; output.len()][..]).refusal,
            3 => z33::load_journal(cells, kept, None, 0).refusal,
            4 => z33::set_register_journal(row, kept, 0, 7).refusal,
            _ => z33::raise_journal(cells, row, kept, 4).refusal,
        };
        seen.emptied(which, before[COUNT] > 0);
        let start = if which == 0 { 0 } else { before[START] };
        if refusal != 0 || self.journal[..RING] != [start, 0] || self.journal[RING..] != before[RING..] {
            return Err(format!("call {which} answered {refusal}, or does not leave an emptied journal"));
        }
        let answer = back(&mut self.machine, &mut self.journal);
        if answer.refusal == NOTHING_KEPT { Ok(()) } else { Err(format!("behind call {which}: {answer:?}")) }
    }

    /// The steps that were gone back over, taken again one by one.
    fn forth(&mut self, end: &Lent) -> Result<(), String> {
        let first = self.begun.len() - self.begun.len().min(self.records);
        for at in first..self.begun.len() {
            run_journal(&mut self.machine, &mut self.journal, 1);
            let after = self.begun.get(at + 1).map_or(end, |(after, _)| after);
            same(&self.machine, after).map_err(|what| format!("step {at} taken again: {what}"))?;
        }
        Ok(())
    }
}

/// On few steps mostly, and now and then on none.
fn budget(rng: &mut Rng, most: i64) -> u64 {
    match rng.below(6) {
        0 => 0,
        1 => rng.between(1, 3) as u64,
        _ => rng.between(1, most) as u64,
    }
}

fn run(lent: &mut Lent, budget: u64) -> z33::Ran {
    let Lent { cells, queue, output, row, .. } = lent;
    z33::run(&mut cells[..], &mut queue[..], &mut output[..], &mut row[..], budget)
}

fn run_journal(lent: &mut Lent, journal: &mut [i64], budget: u64) -> z33::Ran {
    let Lent { cells, queue, output, row, .. } = lent;
    z33::run_journal(&mut cells[..], &mut queue[..], &mut output[..], &mut row[..], journal, budget)
}

fn back(lent: &mut Lent, journal: &mut [i64]) -> z33::Done {
    z33::back(&mut lent.cells[..], &mut lent.row[..], journal)
}

/// "row, cells, unread queue and counted output"
fn same(is: &Lent, due: &Lent) -> Result<(), &'static str> {
    if is.row != due.row {
        return Err("another row");
    }
    if is.cells != due.cells {
        return Err("other cells");
    }
    if !unread(is).eq(unread(due)) {
        return Err("another unread queue");
    }
    if counted(is) != counted(due) {
        return Err("another counted output");
    }
    Ok(())
}

fn unread(lent: &Lent) -> impl Iterator<Item = u8> {
    let [start, count] = [at::QUEUE_START, at::QUEUE_COUNT].map(|place| lent.row[place] as usize);
    (start..start + count).map(|place| lent.queue[place % lent.queue.len()])
}

fn counted(lent: &Lent) -> &[u8] {
    &lent.output[..lent.row[at::OUTPUT_COUNT] as usize]
}
