//! A bench made on the library, in guarded buffers, and held to the model and to what holds of every bench.

use z33::{Benched, Seat};

use super::class::{Class, Trial};
use super::laws;
use super::model::{self, Turn};
use crate::guarded::{Guard, Guarded};

#[derive(Default)]
pub struct Asked {
    list: Guarded<Seat>,
    cells: Guarded<i64>,
    queues: Guarded<u8>,
    outputs: Guarded<u8>,
    rows: Guarded<i64>,
    /// The model's copy.
    due: Class,
}

impl Guard for Seat {
    fn guard(place: usize) -> Self {
        Seat {
            limit: i64::guard(place) as u64,
            used: i64::guard(place + 1) as u64,
            stop: i64::guard(place + 2) as u32,
        }
    }
}

/// What model and library agree on.
pub struct Held {
    pub answer: Benched,
    pub turns: Vec<Turn>,
    pub list: Vec<Seat>,
}

impl Asked {
    pub fn check(&mut self, trial: &Trial) -> Result<Held, String> {
        let answer = self.library(trial);
        self.due.clone_from(&trial.lent);
        let (due, turns) = model::answer(trial, &mut self.due);
        if due.refusal != 0 && self.due != trial.lent {
            return Err(format!("{}: the model changed something on a refusal", trial.told()));
        }
        if answer != due {
            return Err(format!("{}: answered {answer:?}, due {due:?}", trial.told()));
        }
        if let Some(what) = self.difference() {
            return Err(format!("{}, answered {answer:?}: {what}", trial.told()));
        }
        if answer.refusal == 0 {
            laws::hold(trial, &mut self.due, answer.left)
                .map_err(|why| format!("{}, answered {answer:?}: {why}", trial.told()))?;
        }
        Ok(Held { answer, turns, list: self.due.list.clone() })
    }

    fn library(&mut self, trial: &Trial) -> Benched {
        let Trial { lent, seats, total, null } = trial;
        self.list.put(&lent.list);
        self.cells.put(&lent.cells);
        self.queues.put(&lent.queues);
        self.outputs.put(&lent.outputs);
        self.rows.put(&lent.rows);
        z33::bench(
            self.list.lend(*null),
            self.cells.lend(*null),
            self.queues.lend(*null),
            self.outputs.lend(*null),
            self.rows.lend(*null),
            *seats,
            *total,
        )
    }

    fn difference(&self) -> Option<String> {
        let due = &self.due;
        let buffers = [
            ("list", self.list.content() == due.list, self.list.is_intact()),
            ("cells", self.cells.content() == due.cells, self.cells.is_intact()),
            ("queues", self.queues.content() == due.queues, self.queues.is_intact()),
            ("outputs", self.outputs.content() == due.outputs, self.outputs.is_intact()),
            ("rows", self.rows.content() == due.rows, self.rows.is_intact()),
        ];
        buffers.iter().find_map(|(name, same, intact)| match (same, intact) {
            (_, false) => Some(format!("a number outside the {name} was written")),
            (false, _) => Some(format!("the {name} are not as they are due")),
            _ => None,
        })
    }
}
