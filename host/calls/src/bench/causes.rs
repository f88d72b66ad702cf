//! The causes of refusal 19, put into a bench of so many seats.

use layout::limit::SEATS_MOST;
use z33::Seat;

use super::class::Trial;

#[derive(Clone, Copy, Debug)]
pub enum Cause {
    /// So many seats are told.
    Seats(u64),
    /// The list has so many records.
    List(usize),
    /// So many numbers or bytes more.
    Cells(usize),
    Queues(usize),
    Outputs(usize),
    Rows(usize),
}

pub const KINDS: [&str; 9] = [
    "no seats",
    "over 16 seats",
    "seats past 32 bits",
    "another number of seats",
    "the list",
    "cells",
    "queues",
    "outputs",
    "rows",
];

impl Cause {
    pub fn kind(self) -> &'static str {
        match self {
            Cause::Seats(0) => "no seats",
            Cause::Seats(seats) if seats > u64::from(u32::MAX) => "seats past 32 bits",
            Cause::Seats(seats) if seats > SEATS_MOST => "over 16 seats",
            Cause::Seats(_) => "another number of seats",
            Cause::List(_) => "the list",
            Cause::Cells(_) => "cells",
            Cause::Queues(_) => "queues",
            Cause::Outputs(_) => "outputs",
            Cause::Rows(_) => "rows",
        }
    }

    pub fn apply(self, trial: &mut Trial) {
        fn more<T: Clone + Default>(buffer: &mut Vec<T>, more: usize) {
            buffer.resize(buffer.len() + more, T::default());
        }
        let lent = &mut trial.lent;
        match self {
            Cause::Seats(seats) => trial.seats = seats,
            Cause::List(length) => lent.list.resize(length, Seat { limit: 5, used: 0, stop: 0 }),
            Cause::Cells(numbers) => more(&mut lent.cells, numbers),
            Cause::Queues(bytes) => more(&mut lent.queues, bytes),
            Cause::Outputs(bytes) => more(&mut lent.outputs, bytes),
            Cause::Rows(numbers) => more(&mut lent.rows, numbers),
        }
    }
}

/// Every cause that a bench of so many seats can be given. With one seat every length is divisible.
pub fn of(seats: usize) -> Vec<Cause> {
    let number = seats as u64;
    let mut causes: Vec<Cause> =
        [0, SEATS_MOST + 1, 32, 256 + number, (1 << 32) + number, 1 << 63, u64::MAX].map(Cause::Seats).into();
    // The machines of so many seats are taken for those of another number.
    causes.extend((1..=SEATS_MOST).filter(|other| *other != number).map(Cause::Seats));
    causes.extend([0, seats - 1, seats + 1, 2 * seats, 256 + seats].map(Cause::List));
    for more in [1, seats - 1].into_iter().filter(|more| *more > 0 && seats > 1) {
        causes.extend([Cause::Cells(more), Cause::Queues(more), Cause::Outputs(more), Cause::Rows(more)]);
    }
    causes
}
