//! Trials of any lengths and any numbers; nothing is known of them before.

use draws::edges;
use draws::rng::Rng;
use layout::form::TAGS_END;
use layout::{cell, journal};

use crate::accepted;
use crate::damaged::DAMAGED;
use crate::trial::{Call, Trial};

const NUMBERS: [u64; 12] = [0, 1, 2, 3, 4, 5, 6, 255, 256, 10_000, 4_294_967_296, 18_446_744_073_709_551_615];

/// An accepted trial with some of it drawn anew.
pub fn draw(rng: &mut Rng, call: Call) -> Trial {
    let mut trial = accepted::draw(rng, call);
    for place in 0..trial.lent.row.len() {
        if rng.once_in(40) {
            trial.lent.row[place] = edges::word(rng);
        }
    }
    if rng.once_in(8) {
        damage(rng, &mut trial);
    }
    if rng.once_in(4) {
        scribble(rng, &mut trial.lent.journal);
    }
    if rng.once_in(8) {
        trial.number = if rng.once_in(2) { rng.pick(&NUMBERS) } else { rng.below(400) as u64 };
        trial.number %= if call.own() == Call::Run { 50 } else { u64::MAX };
    }
    if rng.once_in(8) {
        trial.word = edges::word(rng);
    }
    if rng.once_in(8) {
        lengths(rng, &mut trial);
    }
    trial
}

/// Any numbers in a cell of the cells or the image.
fn damage(rng: &mut Rng, trial: &mut Trial) {
    let cell = if rng.once_in(2) {
        rng.pick(&DAMAGED)
    } else {
        [rng.between(-2, TAGS_END + 8), edges::word(rng), edges::word(rng)]
    };
    let cells = if rng.once_in(2) { &mut trial.lent.cells } else { &mut trial.lent.image };
    if !cells.is_empty() {
        let address = rng.below(cells.len() / cell::LENGTH);
        cell::put(cells, address, cell);
    }
}

/// Some numbers of a journal drawn anew, its first two more often.
fn scribble(rng: &mut Rng, journal: &mut [i64]) {
    for _ in 0..rng.between(1, 4) {
        let most = if rng.once_in(3) { journal::RING } else { journal.len() };
        if most > 0 && most <= journal.len() {
            journal[rng.below(most)] = if rng.once_in(2) { rng.between(-1, 5) } else { edges::word(rng) };
        }
    }
}

/// One buffer a little shorter or longer.
fn lengths(rng: &mut Rng, trial: &mut Trial) {
    let lent = &mut trial.lent;
    match rng.below(7) {
        0 => resize(rng, &mut lent.cells),
        1 => resize(rng, &mut lent.queue),
        2 => resize(rng, &mut lent.output),
        3 => resize(rng, &mut lent.row),
        4 => resize(rng, &mut lent.bytes),
        5 => resize(rng, &mut lent.image),
        _ => resize(rng, &mut lent.journal),
    }
}

fn resize<T: Clone + Default>(rng: &mut Rng, buffer: &mut Vec<T>) {
    let by = rng.below(7);
    let length = if rng.once_in(2) { buffer.len().saturating_sub(by) } else { buffer.len() + by };
    buffer.resize(length, T::default());
}
