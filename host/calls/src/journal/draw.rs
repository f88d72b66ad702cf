//! Draws of journals that no call refuses.

use draws::edges;
use draws::rng::Rng;
use layout::journal::{self, COUNT, START};
use layout::limit::{RECORDS_LEAST, RECORDS_MOST};
use layout::{ROW, cell};

use super::ring;
use crate::accepted::{lengths, row_within, up_to};
use crate::trial::{Call, Trial};

/// Once in so many draws a longest journal is lent: comparing it takes long.
const LONGEST_ONCE_IN: usize = 400;

/// A journal for this trial of so many cells. What going back looks at is sound there, and nothing else of a ring need be.
pub fn draw(rng: &mut Rng, trial: &Trial, cells: usize) -> Vec<i64> {
    let records = if rng.once_in(LONGEST_ONCE_IN) {
        rng.pick(&[RECORDS_MOST - 1, RECORDS_MOST])
    } else {
        rng.pick(&[RECORDS_LEAST, RECORDS_LEAST, 2, 3, 5])
    };
    let mut numbers = of_any_numbers(rng, records);
    numbers[START] = up_to(rng, records as i64 - 1);
    numbers[COUNT] = up_to(rng, records as i64);
    match trial.call {
        // "fresh tests its length only"
        Call::FreshJournal => {
            numbers[START] = edges::word(rng);
            numbers[COUNT] = edges::word(rng);
        }
        Call::Back => {
            numbers[COUNT] = numbers[COUNT].max(1);
            sound_record(rng, trial, cells, &mut numbers);
        }
        _ => {}
    }
    numbers
}

/// So many records of any numbers, and any start and count.
pub fn of_any_numbers(rng: &mut Rng, records: usize) -> Vec<i64> {
    let mut numbers = vec![0; journal::length(records)];
    if rng.once_in(2) {
        let number = edges::word(rng);
        numbers.fill(number);
        for _ in 0..rng.below(40) {
            let place = rng.below(numbers.len());
            numbers[place] = edges::word(rng);
        }
    }
    numbers
}

/// The newest record made one that can be gone back to; its unused places stay.
fn sound_record(rng: &mut Rng, trial: &Trial, cells: usize, numbers: &mut [i64]) {
    let row = row_within(rng, lengths(trial, cells), cells);
    let record = ring::newest_mut(numbers);
    record[..ROW].copy_from_slice(&row);
    let written = rng.below(journal::WRITES_MOST + 1);
    record[journal::CELLS] = written as i64;
    for i in 0..written {
        let from = journal::FIRST + journal::WRITE * i;
        let last = record[from.saturating_sub(journal::WRITE)];
        record[from] = match rng.below(4) {
            0 => up_to(rng, cells as i64 - 1),
            // a cell that was written twice
            1 if i > 0 => last,
            _ => rng.below(cells) as i64,
        };
        record[from + 1..][..cell::LENGTH].copy_from_slice(&edges::cell(rng));
    }
}
