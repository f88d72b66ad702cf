//! Writes the recorded list: lines of five numbers, see recorded/FORMAT.md.

use std::fmt::Write;

use layout::cell::TAG_EMPTY;
use layout::{ROW, row};

use crate::case::{Answer, Call, Case, Recorded};
use crate::lent::{CELLS, Lent};

/// What a replaying program has to have room for; FORMAT.md names these.
const MOST_QUEUE: usize = 256;
const MOST_OUTPUT: usize = 4_096;
const MOST_DELIVERED: usize = 8;
const MOST_DRAINED: usize = 128;

pub struct Writer {
    text: String,
    cases: usize,
}

impl Default for Writer {
    fn default() -> Self {
        let mut text = String::new();
        line(&mut text, [0, 1, CELLS as i64, 0, 0]);
        Self { text, cases: 0 }
    }
}

impl Writer {
    pub fn case(&mut self, case: &Case, calls: &[Recorded]) {
        assert!(case.queue.len() <= MOST_QUEUE && case.output.len() <= MOST_OUTPUT);
        self.cases += 1;
        self.text += &case_lines(self.cases, case);
        for recorded in calls {
            self.call(recorded);
        }
    }

    pub fn finish(mut self) -> String {
        line(&mut self.text, [99, self.cases as i64, 0, 0, 0]);
        self.text
    }

    fn call(&mut self, recorded: &Recorded) {
        let Answer { refusal, stop, detail, count, empty } = recorded.answer;
        let [refusal, stop, detail, count, empty] = [refusal, stop, detail, count, empty].map(|n| n as i64);
        let text = &mut self.text;
        match &recorded.call {
            Call::Run(budget) => {
                if empty > 0 {
                    line(text, [7, empty, 0, 0, 0]);
                }
                line(text, [10, *budget as i64, stop, detail, count]);
            }
            Call::Deliver(bytes) => {
                assert!(bytes.len() <= MOST_DELIVERED);
                for (i, byte) in bytes.iter().enumerate() {
                    line(text, [6, i as i64, (*byte).into(), 0, 0]);
                }
                line(text, [11, bytes.len() as i64, refusal, 0, 0]);
            }
            Call::Drain(length) => {
                assert!(*length <= MOST_DRAINED);
                line(text, [12, *length as i64, refusal, count, 0]);
            }
            Call::Raise(code) => line(text, [13, *code as i64, refusal, stop, detail]),
            Call::SetRegister(reg, word) => line(text, [14, *reg as i64, *word, refusal, 0]),
        }
        changes(text, &recorded.before, &recorded.after);
        bytes(text, 24, &vec![0; recorded.buffer.len()], &recorded.buffer);
        line(text, [29, 0, 0, 0, 0]);
    }
}

/// The lines of a case up to its first call.
pub fn case_lines(number: usize, case: &Case) -> String {
    let mut text = String::new();
    let (queue, output) = (case.queue.len(), case.output.len());
    let opening = [1, number as i64, queue as i64, output as i64, case.for_runner.into()];
    line(&mut text, opening);
    let mut cells = case.cells.clone();
    cells.sort_unstable();
    for (address, [tag, first, second]) in cells {
        if tag != TAG_EMPTY {
            line(&mut text, [2, address as i64, tag, first, second]);
        }
    }
    row(&mut text, 3, &[0; ROW], &case.row);
    bytes(&mut text, 4, &vec![0; queue], &case.queue);
    bytes(&mut text, 5, &vec![0; output], &case.output);
    text
}

fn changes(text: &mut String, before: &Lent, after: &Lent) {
    for address in 0..CELLS {
        let [tag, first, second] = after.cell(address);
        if before.cell(address) != [tag, first, second] {
            line(text, [20, address as i64, tag, first, second]);
        }
    }
    row(text, 21, &before.row, &after.row);
    bytes(text, 22, &before.queue, &after.queue);
    bytes(text, 23, &before.output, &after.output);
}

fn row(text: &mut String, kind: i64, before: &[i64], after: &[i64]) {
    for (i, (old, new)) in before.iter().zip(after).enumerate() {
        if old != new {
            line(text, [kind, row::from_1(i) as i64, *new, 0, 0]);
        }
    }
}

fn bytes(text: &mut String, kind: i64, before: &[u8], after: &[u8]) {
    for (i, (old, new)) in before.iter().zip(after).enumerate() {
        if old != new {
            line(text, [kind, i as i64, (*new).into(), 0, 0]);
        }
    }
}

fn line(text: &mut String, [kind, a, b, c, d]: [i64; 5]) {
    writeln!(text, "{kind},{a},{b},{c},{d}").expect("a string takes every text");
}
