//! A trial made on the library, in guarded buffers, and held to the model.

use layout::refusal::NONE;

use crate::guarded::Guarded;
use crate::model;
use crate::trial::{Answer, Call, Lent, REST, Trial};

#[derive(Default)]
pub struct Asked {
    cells: Guarded<i64>,
    queue: Guarded<u8>,
    output: Guarded<u8>,
    row: Guarded<i64>,
    bytes: Guarded<u8>,
    image: Guarded<i64>,
    journal: Guarded<i64>,
    /// The model's copy.
    due: Lent,
}

impl Asked {
    /// The answer that model and library agree on, or how they differ.
    pub fn check(&mut self, trial: &Trial) -> Result<Answer, String> {
        self.put(&trial.lent);
        let answer = self.library(trial);
        self.due.clone_from(&trial.lent);
        let due = model::answer(trial, &mut self.due);
        if due.refusal != NONE && self.due != trial.lent {
            return Err(format!("{}: the model changed something on a refusal", trial.told()));
        }
        if answer != due {
            return Err(format!("{}: answered {answer:?}, due {due:?}", trial.told()));
        }
        match self.difference() {
            Some(what) => Err(format!("{}, answered {answer:?}: {what}", trial.told())),
            None => Ok(answer),
        }
    }

    /// What the last call left.
    pub fn left(&self) -> &Lent {
        &self.due
    }

    fn put(&mut self, lent: &Lent) {
        self.cells.put(&lent.cells);
        self.queue.put(&lent.queue);
        self.output.put(&lent.output);
        self.row.put(&lent.row);
        self.bytes.put(&lent.bytes);
        self.image.put(&lent.image);
        self.journal.put(&lent.journal);
    }

    fn library(&mut self, trial: &Trial) -> Answer {
        let (null, number) = (trial.null, trial.number);
        let Self { cells, queue, output, row, bytes, image, journal, .. } = self;
        match trial.call {
            Call::Fresh => z33::fresh(cells.lend(null), row.lend(null)).into(),
            Call::Run => {
                let (queue, output) = (queue.lend(null), output.lend(null));
                z33::run(cells.lend(null), queue, output, row.lend(null), number).into()
            }
            Call::Deliver => z33::deliver(queue.lend(null), row.lend(null), bytes.show(null)).into(),
            Call::Drain => z33::drain(output.show(null), row.lend(null), bytes.lend(null)).into(),
            Call::ReadCell => z33::read_cell(cells.show(null), number).into(),
            Call::Load => z33::load(cells.lend(null), image.show(null), number).into(),
            Call::SetRegister => z33::set_register(row.lend(null), number, trial.word).into(),
            Call::Raise => z33::raise(cells.lend(null), row.lend(null), number).into(),
            Call::FreshJournal => {
                z33::fresh_journal(cells.lend(null), row.lend(null), journal.lend(null)).into()
            }
            Call::RunJournal => {
                let (cells, queue, output) = (cells.lend(null), queue.lend(null), output.lend(null));
                z33::run_journal(cells, queue, output, row.lend(null), journal.lend(null), number).into()
            }
            Call::DeliverJournal => {
                z33::deliver_journal(queue.lend(null), row.lend(null), journal.lend(null), bytes.show(null))
                    .into()
            }
            Call::DrainJournal => {
                z33::drain_journal(output.show(null), row.lend(null), journal.lend(null), bytes.lend(null))
                    .into()
            }
            Call::LoadJournal => {
                z33::load_journal(cells.lend(null), journal.lend(null), image.show(null), number).into()
            }
            Call::SetRegisterJournal => {
                z33::set_register_journal(row.lend(null), journal.lend(null), number, trial.word).into()
            }
            Call::RaiseJournal => {
                z33::raise_journal(cells.lend(null), row.lend(null), journal.lend(null), number).into()
            }
            Call::Back => z33::back(cells.lend(null), row.lend(null), journal.lend(null)).into(),
        }
    }

    fn difference(&self) -> Option<String> {
        let due = &self.due;
        let buffers = [
            ("cells", self.cells.content() == due.cells, self.cells.is_intact()),
            ("queue", self.queue.content() == due.queue, self.queue.is_intact()),
            ("output", self.output.content() == due.output, self.output.is_intact()),
            ("row", self.row.content() == due.row, self.row.is_intact()),
            ("bytes", self.bytes.content() == due.bytes, self.bytes.is_intact()),
            ("image", self.image.content() == due.image, self.image.is_intact()),
            ("journal", self.journal.content() == due.journal, self.journal.is_intact()),
        ];
        buffers.iter().find_map(|(name, same, intact)| match (same, intact) {
            (_, false) => Some(format!("a number outside the {name} was written")),
            (false, _) => Some(format!("the {name} are not as they are due")),
            _ => None,
        })
    }
}

impl From<z33::Done> for Answer {
    fn from(z33::Done { refusal, place }: z33::Done) -> Self {
        Self { refusal, place, rest: [0; REST] }
    }
}

impl From<z33::Ran> for Answer {
    fn from(z33::Ran { refusal, place, stop, detail, steps, empty }: z33::Ran) -> Self {
        Self { refusal, place, rest: [stop, detail, steps, empty].map(|number| number as i64) }
    }
}

impl From<z33::Drained> for Answer {
    fn from(z33::Drained { refusal, place, count }: z33::Drained) -> Self {
        Self { refusal, place, rest: [count as i64, 0, 0, 0] }
    }
}

impl From<z33::Cell> for Answer {
    fn from(z33::Cell { refusal, place, tag, first, second }: z33::Cell) -> Self {
        Self { refusal, place, rest: [tag, first, second, 0] }
    }
}

impl From<z33::Raised> for Answer {
    fn from(z33::Raised { refusal, place, stop, detail }: z33::Raised) -> Self {
        Self { refusal, place, rest: [stop as i64, detail as i64, 0, 0] }
    }
}
