//! "One bench, sixteen seats" (document 02, Card 8): `z33_bench` held to the rounds and turns of the request, each turn a single run of the
//! library, and to what the request says of every bench. Faults name their refusal, so the model is not believed alone.

mod asked;
mod causes;
mod class;
mod draw;
mod laws;
mod model;
mod seen;
mod take_over;

use draws::rng::Rng;
use layout::limit::SEATS_MOST;

use crate::faults::{self, Fault};
use asked::Asked;
use causes::{Cause, KINDS};
use class::{Seated, Trial};
use seen::{SEAT_CLASSES, Seen};

pub use draw::stops_after;

const MOST: usize = SEATS_MOST as usize;
/// Benches that are not refused, for each number of seats.
const ACCEPTED: usize = 400;
/// Each pair of faults is put into so many benches.
const EACH_PAIR: usize = 2;
/// Benches with some of it drawn anew, for each number of seats.
const ANYTHING: usize = 100;

/// Lines on what was looked at, or the first difference.
pub fn check(seed: u64) -> Result<Vec<String>, String> {
    let mut check = Check { rng: Rng::new(seed), asked: Asked::default(), seen: Seen::new() };
    for seats in 1..=MOST {
        check.without_fault(seats)?;
        check.each_cause(seats)?;
        check.each_fault(seats)?;
        check.anything(seats)?;
    }
    check.no_seats()?;
    check.causes_before_faults()?;
    check.faults_of_two_seats()?;
    check.faults_of_one_seat()?;
    Ok(vec![check.seen.complete()?, take_over::check(seed)?])
}

struct Check {
    rng: Rng,
    asked: Asked,
    seen: Seen,
}

impl Check {
    fn held(&mut self, trial: &Trial) -> Result<z33::Benched, String> {
        let held = self.asked.check(trial)?;
        self.seen.count(trial, &held);
        Ok(held.answer)
    }

    /// The refusal of this number and place, at this seat, is due.
    fn due(
        &mut self,
        trial: &Trial,
        (refusal, place, seat): (u64, u64, u64),
        why: &str,
    ) -> Result<(), String> {
        let answer = self.held(trial)?;
        let due = z33::Benched { refusal, place, seat, left: 0 };
        if answer == due {
            Ok(())
        } else {
            Err(format!("{} with {why}: {answer:?}, due {due:?}", trial.told()))
        }
    }

    fn without_fault(&mut self, seats: usize) -> Result<(), String> {
        for _ in 0..ACCEPTED {
            let trial = draw::draw(&mut self.rng, seats).0;
            let answer = self.held(&trial)?;
            if answer.refusal != 0 {
                return Err(format!("{}: {answer:?}, and nothing is wrong with it", trial.told()));
            }
            if answer.left > 0 && self.rng.once_in(4) {
                self.exactly(Trial { total: trial.total - answer.left, ..trial })?;
            }
        }
        Ok(())
    }

    /// On as much as its seats take, all of it is spent.
    fn exactly(&mut self, trial: Trial) -> Result<(), String> {
        let answer = self.held(&trial)?;
        if answer == z33::Benched::default() { Ok(()) } else { Err(format!("{}: {answer:?}", trial.told())) }
    }

    /// Each cause of 19 in a bench that is otherwise not refused.
    fn each_cause(&mut self, seats: usize) -> Result<(), String> {
        let (trial, _) = draw::draw(&mut self.rng, seats);
        for cause in causes::of(seats) {
            self.cause(&trial, cause)?;
        }
        Ok(())
    }

    fn cause(&mut self, trial: &Trial, cause: Cause) -> Result<(), String> {
        let mut trial = trial.clone();
        cause.apply(&mut trial);
        trial.null = self.rng.once_in(2);
        self.due(&trial, (19, 0, 0), &format!("{cause:?}"))?;
        self.seen.met(&format!("19 by {}", cause.kind()));
        Ok(())
    }

    /// 17 whole seats; and no seat, with nothing lent.
    fn no_seats(&mut self) -> Result<(), String> {
        let (trial, _) = draw::draw(&mut self.rng, MOST + 1);
        self.due(&trial, (19, 0, 0), "17 whole seats")?;
        for null in [false, true] {
            let trial = Trial { null, total: 1, ..Trial::default() };
            self.due(&trial, (19, 0, 0), "nothing")?;
        }
        Ok(())
    }

    /// Every fault of a machine, of each seat of a full bench and of two seats of the others; a length is every seat's.
    fn each_fault(&mut self, seats: usize) -> Result<(), String> {
        let chosen =
            if seats == MOST { (1..=MOST).collect() } else { vec![self.rng.below(seats) + 1, seats] };
        for (round, seat) in chosen.into_iter().enumerate() {
            let (trial, seated) = draw::draw(&mut self.rng, seats);
            for fault in faults::of(&mut self.rng, &seated[seat - 1].machine) {
                if round == 0 || !is_length(fault) {
                    self.faults(&trial, &seated, &[(seat, fault)])?;
                }
            }
        }
        Ok(())
    }

    /// The faults put into their seats: the lowest seat's lowest refusal is due.
    fn faults(&mut self, trial: &Trial, seated: &[Seated], faults: &[(usize, Fault)]) -> Result<(), String> {
        let mut seated = seated.to_vec();
        let mut due = None;
        for seat in 1..=seated.len() {
            let own: Vec<Fault> = faults
                .iter()
                .filter(|(at, fault)| *at == seat || is_length(*fault))
                .map(|(_, fault)| *fault)
                .collect();
            let (refusal, place) = faults::apply(&mut seated[seat - 1].machine, &own);
            if refusal != 0 && due.is_none() {
                due = Some((refusal, place, seat as u64));
            }
        }
        let total = if self.rng.once_in(8) { 0 } else { trial.total };
        let trial = Trial { null: self.rng.once_in(2), ..Trial::of(&seated, total) };
        self.due(&trial, due.expect("a fault"), &format!("{faults:?}"))
    }

    /// "19 [...]; before 1": each cause beside each class of fault.
    fn causes_before_faults(&mut self) -> Result<(), String> {
        for kind in KINDS {
            for class in SEAT_CLASSES.iter() {
                for _ in 0..EACH_PAIR {
                    let seats = self.rng.between(2, MOST as i64) as usize;
                    let (trial, mut seated) = draw::draw(&mut self.rng, seats);
                    let (seat, fault) = self.fault_of(&seated, *class);
                    for (at, seated) in seated.iter_mut().enumerate() {
                        if at == seat - 1 || is_length(fault) {
                            faults::apply(&mut seated.machine, &[fault]);
                        }
                    }
                    let of_kind: Vec<Cause> =
                        causes::of(seats).into_iter().filter(|cause| cause.kind() == kind).collect();
                    let (trial, cause) = (Trial::of(&seated, trial.total), self.rng.pick(&of_kind));
                    self.cause(&trial, cause)?;
                    self.seen.met(&format!("19 by {kind} before {class:?}"));
                }
            }
        }
        Ok(())
    }

    /// Two seats with a fault each: the lower seat's is due, whichever its number.
    fn faults_of_two_seats(&mut self) -> Result<(), String> {
        for low in SEAT_CLASSES.iter().filter(|class| is_own(**class)) {
            for high in SEAT_CLASSES.iter().filter(|class| is_own(**class)) {
                for _ in 0..EACH_PAIR {
                    let seats = self.rng.between(2, MOST as i64) as usize;
                    let (trial, seated) = draw::draw(&mut self.rng, seats);
                    let lower = self.rng.between(1, seats as i64 - 1) as usize;
                    let higher = self.rng.between(lower as i64 + 1, seats as i64) as usize;
                    let (one, two) =
                        (self.of_class(&seated[lower - 1], *low), self.of_class(&seated[higher - 1], *high));
                    self.faults(&trial, &seated, &[(higher, two), (lower, one)])?;
                    self.seen.met(&format!("{low:?} of a lower seat before {high:?}"));
                }
            }
        }
        Ok(())
    }

    /// Two faults of one seat: the lower refusal is due, as for a run.
    fn faults_of_one_seat(&mut self) -> Result<(), String> {
        for (i, low) in SEAT_CLASSES.iter().enumerate() {
            for high in &SEAT_CLASSES[i + 1..] {
                let seats = self.rng.between(1, MOST as i64) as usize;
                let (trial, seated) = draw::draw(&mut self.rng, seats);
                let (seat, one) = self.fault_of(&seated, *low);
                let two = self.of_class(&seated[seat - 1], *high);
                self.faults(&trial, &seated, &[(seat, two), (seat, one)])?;
                self.seen.met(&format!("{low:?} of a seat before its {high:?}"));
            }
        }
        Ok(())
    }

    /// A seat, from 1, and a fault of this class that it can be given.
    fn fault_of(&mut self, seated: &[Seated], class: (u64, u64)) -> (usize, Fault) {
        let at = self.rng.below(seated.len());
        (at + 1, self.of_class(&seated[at], class))
    }

    fn of_class(&mut self, seated: &Seated, class: (u64, u64)) -> Fault {
        let all = faults::of(&mut self.rng, &seated.machine);
        let of_class: Vec<Fault> = all.into_iter().filter(|fault| fault.class() == class).collect();
        self.rng.pick(&of_class)
    }

    fn anything(&mut self, seats: usize) -> Result<(), String> {
        for _ in 0..ANYTHING {
            let trial = draw::anything(&mut self.rng, seats);
            self.held(&trial)?;
        }
        Ok(())
    }
}

/// Parts are equally long, so that such a fault is every seat's.
fn is_length(fault: Fault) -> bool {
    matches!(
        fault,
        Fault::CellsLength(_) | Fault::QueueLength(_) | Fault::OutputLength(_) | Fault::RowLength(_)
    )
}

/// Whether one seat can have it without the others.
fn is_own((number, place): (u64, u64)) -> bool {
    number == layout::refusal::DAMAGED_CELL || place > 0
}
