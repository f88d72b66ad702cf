//! The library held to the model, one kind of trial after another.

use draws::rng::Rng;
use layout::limit::CELLS_MOST;
use layout::refusal::{DAMAGED_CELL, JOURNAL};
use layout::stop::BUDGET_SPENT;

use crate::asked::Asked;
use crate::coverage::{Coverage, all_pairs};
use crate::faults::{self, Fault};
use crate::trial::{Answer, CALLS, Call, Lent, Trial};
use crate::{accepted, anything, bench, cuts, damaged, exercise, huge, journal, tags};

/// How often each fault, and each pair of faults, is put into another accepted trial.
const EACH_FAULT: usize = 6;
const EACH_PAIR: usize = 12;
/// For each of the sixteen calls.
const ACCEPTED: usize = 25_000;
const ANYTHING: usize = 25_000;
/// Runs that end by themselves, each on budgets that 32 bits do not hold.
const LONG: usize = 3_000;
const LONG_CALLS: [Call; 2] = [Call::Run, Call::RunJournal];
const LONG_BUDGETS: [u64; 4] = [1 << 32, (1 << 32) + 1, 1 << 63, u64::MAX];

/// Lines that say what was looked at, or the first difference.
pub fn check(seed: u64) -> Result<Vec<String>, String> {
    damaged::verify()?;
    let mut check =
        Check { rng: Rng::new(seed), asked: Asked::default(), coverage: Coverage::default(), runs_beside: 0 };
    for call in CALLS {
        check.each_fault(call)?;
        check.each_pair(call)?;
        check.every_address(call)?;
        check.without_fault(call)?;
        check.anything(call)?;
    }
    for call in LONG_CALLS {
        check.long_budgets(call)?;
    }
    let cuts = cuts::check(seed)?;
    let tags = tags::check()?;
    let huge = huge::check()?;
    let exercise = exercise::check(seed)?;
    let benches = bench::check(seed)?;
    let journals = journal::check(seed)?;
    let mut lines = vec![
        check.coverage.complete()?,
        format!(
            "{} runs with a journal answer and leave what the same runs do without it",
            check.runs_beside
        ),
        format!("{tags} cells, each read, loaded and in register a: sound or refused as document 01 has it"),
        format!(
            "{} runs that end by themselves, half of them with a journal, each on {} budgets of 2^32 to 2^64 - 1",
            LONG * LONG_CALLS.len(),
            LONG_BUDGETS.len()
        ),
        cuts,
        huge,
        exercise,
    ];
    lines.extend(benches);
    lines.push(journals);
    Ok(lines)
}

struct Check {
    rng: Rng,
    asked: Asked,
    coverage: Coverage,
    /// Runs with a journal, made without it too.
    runs_beside: u64,
}

impl Check {
    /// The trial with these faults; the refusal that they name is due.
    fn due(&mut self, mut trial: Trial, faults: &[Fault]) -> Result<(), String> {
        let due = faults::apply(&mut trial, faults);
        let answer = self.asked.check(&trial)?;
        if (answer.refusal, answer.place) != due {
            return Err(format!("{} with {faults:?}: {answer:?}, due {due:?}", trial.told()));
        }
        self.coverage.count(&trial, &answer);
        self.as_without(&trial, &answer)?;
        if let [fault] = faults {
            self.coverage.count_cause(trial.call, *fault);
        }
        Ok(())
    }

    /// A run with a journal that is one answers and leaves what the same run does without it.
    fn as_without(&mut self, trial: &Trial, answer: &Answer) -> Result<(), String> {
        if trial.call != Call::RunJournal || answer.refusal == JOURNAL {
            return Ok(());
        }
        let left = Lent { journal: Vec::new(), ..self.asked.left().clone() };
        let lent = Lent { journal: Vec::new(), ..trial.lent.clone() };
        let due = self.asked.check(&Trial { call: Call::Run, lent, ..*trial })?;
        self.runs_beside += 1;
        if *answer == due && left == *self.asked.left() {
            Ok(())
        } else {
            Err(format!(
                "{}: {answer:?}, without the journal {due:?}, or something is left otherwise",
                trial.told()
            ))
        }
    }

    fn each_fault(&mut self, call: Call) -> Result<(), String> {
        for _ in 0..EACH_FAULT {
            let trial = accepted::draw(&mut self.rng, call);
            for fault in faults::of(&mut self.rng, &trial) {
                self.due(trial.clone(), &[fault])?;
                self.due(Trial { null: !trial.null, ..trial.clone() }, &[fault])?;
            }
        }
        Ok(())
    }

    fn each_pair(&mut self, call: Call) -> Result<(), String> {
        for (one, two) in all_pairs(call) {
            for _ in 0..EACH_PAIR {
                let (trial, both) = self.with_both(call, one, two);
                self.due(trial, &both)?;
            }
            self.coverage.count_pair(call, one, two);
        }
        Ok(())
    }

    /// Draws until the trial can be given a fault of each class.
    fn with_both(&mut self, call: Call, one: (u64, u64), two: (u64, u64)) -> (Trial, [Fault; 2]) {
        loop {
            let trial = accepted::draw(&mut self.rng, call);
            let faults = faults::of(&mut self.rng, &trial);
            let both = (self.pick(&faults, one), self.pick(&faults, two));
            if let (Some(one), Some(two)) = both
                && !one.clashes(two)
            {
                return (trial, [one, two]);
            }
        }
    }

    fn pick(&mut self, faults: &[Fault], class: (u64, u64)) -> Option<Fault> {
        let of_class: Vec<Fault> = faults.iter().copied().filter(|fault| fault.class() == class).collect();
        (!of_class.is_empty()).then(|| self.rng.pick(&of_class))
    }

    /// One damaged cell at each address of the largest machine, and by half another one behind it.
    fn every_address(&mut self, call: Call) -> Result<(), String> {
        if !call.refusals().contains(&DAMAGED_CELL) {
            return Ok(());
        }
        let trial = accepted::draw_with(&mut self.rng, call, CELLS_MOST);
        for address in 0..CELLS_MOST {
            let mut faults = vec![Fault::Damaged(address, self.rng.pick(&damaged::DAMAGED))];
            if call != Call::ReadCell && self.rng.once_in(2) {
                let behind = self.rng.between(address as i64, CELLS_MOST as i64 - 1) as usize;
                faults.insert(0, Fault::Damaged(behind, self.rng.pick(&damaged::DAMAGED)));
            }
            self.due(trial.clone(), &faults)?;
        }
        Ok(())
    }

    fn without_fault(&mut self, call: Call) -> Result<(), String> {
        for _ in 0..ACCEPTED {
            let trial = accepted::draw(&mut self.rng, call);
            self.due(trial, &[])?;
        }
        Ok(())
    }

    fn long_budgets(&mut self, call: Call) -> Result<(), String> {
        let mut ended = 0;
        while ended < LONG {
            let mut trial = accepted::draw(&mut self.rng, call);
            let answer = self.asked.check(&trial)?;
            if answer.rest[0] as u64 == BUDGET_SPENT {
                continue;
            }
            ended += 1;
            for budget in LONG_BUDGETS {
                trial.number = budget;
                if self.asked.check(&trial)? != answer {
                    return Err(format!("{}: another answer than on fewer steps, {answer:?}", trial.told()));
                }
            }
        }
        Ok(())
    }

    fn anything(&mut self, call: Call) -> Result<(), String> {
        for _ in 0..ANYTHING {
            let trial = anything::draw(&mut self.rng, call);
            let answer = self.asked.check(&trial)?;
            self.coverage.count(&trial, &answer);
            self.as_without(&trial, &answer)?;
        }
        Ok(())
    }
}
