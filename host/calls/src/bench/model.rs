//! Document 02, Card 8, sentence by sentence. A turn is a run of the library.

use layout::limit::{SEATS_LEAST, SEATS_MOST, TURN_MOST};
use layout::refusal;
use z33::{Benched, Seat};

use super::class::{Class, Machine, Trial, machine_of};
use crate::model::run_tested;

/// A turn that a seat took, at a place from 0.
pub struct Turn {
    pub at: usize,
    /// Its record before.
    pub seat: Seat,
    /// What was left of the total before it.
    pub left: u64,
    pub ran: z33::Ran,
}

/// The answer and the turns; `lent` is what the trial lends, and becomes what the call leaves.
pub fn answer(trial: &Trial, lent: &mut Class) -> (Benched, Vec<Turn>) {
    let mut turns = Vec::new();
    let answer = match refused(trial, lent) {
        Some(answer) => answer,
        None => Benched { left: rounds(lent, trial.total, &mut turns), ..Benched::default() },
    };
    (answer, turns)
}

/// "19 seats not 1 to 16, the list not one record a seat, or a buffer not divisible by seats; before 1. The others are then checked seat by
/// seat, lowest first, places within the seat."
fn refused(trial: &Trial, lent: &mut Class) -> Option<Benched> {
    let seats = trial.seats;
    let fits = (SEATS_LEAST..=SEATS_MOST).contains(&seats)
        && lent.list.len() as u64 == seats
        && lent.lengths().iter().all(|length| (*length as u64).is_multiple_of(seats));
    if !fits {
        return Some(Benched { refusal: refusal::SEATS, ..Benched::default() });
    }
    (1..=seats).find_map(|seat| {
        let Machine { cells, queue, output, row } = machine_of(lent, seats as usize, seat as usize - 1);
        let (refusal, place) = run_tested(cells, queue, output, row).err()?;
        Some(Benched { refusal, place, seat, left: 0 })
    })
}

/// "Turns go round from seat 1, [...] until the total is spent or nobody can go on." What is left of the total.
fn rounds(lent: &mut Class, total: u64, turns: &mut Vec<Turn>) -> u64 {
    let mut left = total;
    while left > 0 && lent.list.iter().any(can_go_on) {
        for at in 0..lent.list.len() {
            // "passing over seats that stopped other than by 0 or reached their limit"
            if left > 0 && can_go_on(&lent.list[at]) {
                left -= turn(lent, at, left, turns);
            }
        }
    }
    left
}

pub fn can_go_on(seat: &Seat) -> bool {
    seat.stop == 0 && seat.used < seat.limit
}

/// "each a run on the least of 100, its limit's rest and the total's". How many steps it took.
fn turn(lent: &mut Class, at: usize, left: u64, turns: &mut Vec<Turn>) -> u64 {
    let seat = lent.list[at];
    let budget = [TURN_MOST, seat.limit - seat.used, left].into_iter().min().expect("three numbers");
    let Machine { cells, queue, output, row } = machine_of(lent, lent.list.len(), at);
    let ran = z33::run(cells, queue, output, row, budget);
    assert_eq!(ran.refusal, refusal::NONE, "the run of a seat that was tested");
    lent.list[at] = Seat { used: seat.used + ran.steps, stop: ran.stop as u32, ..seat };
    turns.push(Turn { at, seat, left, ran });
    ran.steps
}
