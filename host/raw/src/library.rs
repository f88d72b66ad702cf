//! The library as a machine to compare.

use list::{Answer, Lent, Machine};

use crate::{Drained, Raised, Ran, calls};

/// An `Answer` has no room for a refusal's place; crate `calls` compares places.
pub struct Library;

impl Machine for Library {
    fn run(&mut self, lent: &mut Lent, budget: u64) -> Answer {
        let Lent { cells, queue, output, row } = lent;
        let ran = calls::run(&mut cells[..], &mut queue[..], &mut output[..], &mut row[..], budget);
        let Ran { refusal, stop, detail, steps, empty, .. } = ran;
        Answer { refusal, stop, detail, count: steps, empty }
    }

    fn deliver(&mut self, lent: &mut Lent, bytes: &[u8]) -> Answer {
        Answer::refused(calls::deliver(&mut lent.queue[..], &mut lent.row[..], bytes).refusal)
    }

    fn drain(&mut self, lent: &mut Lent, buffer: &mut [u8]) -> Answer {
        let Drained { refusal, count, .. } = calls::drain(&lent.output[..], &mut lent.row[..], buffer);
        Answer { refusal, count, ..Answer::DONE }
    }

    fn raise(&mut self, lent: &mut Lent, code: u64) -> Answer {
        let raised = calls::raise(&mut lent.cells[..], &mut lent.row[..], code);
        let Raised { refusal, stop, detail, .. } = raised;
        Answer { refusal, stop, detail, ..Answer::DONE }
    }

    fn set_register(&mut self, lent: &mut Lent, reg: u64, word: i64) -> Answer {
        Answer::refused(calls::set_register(&mut lent.row[..], reg, word).refusal)
    }
}
