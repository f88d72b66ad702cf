//! Sixteen machines with one program: on a bench, in turns, and in a single run each of the same steps.

use layout::ROW;
use layout::limit::{SEATS_MOST, TURN_MOST};
use z33::Seat;

use crate::programs::Program;
use crate::{OUTPUT, QUEUE, best_and_median, clock};

const SEATS: usize = SEATS_MOST as usize;

#[derive(PartialEq)]
pub struct Class {
    cells: Vec<i64>,
    queues: Vec<u8>,
    outputs: Vec<u8>,
    rows: Vec<i64>,
}

fn class(program: &Program) -> Class {
    Class {
        cells: program.cells.repeat(SEATS),
        queues: vec![0; SEATS * QUEUE],
        outputs: vec![0; SEATS * OUTPUT],
        rows: program.row.repeat(SEATS),
    }
}

/// A whole number of rounds.
fn whole(steps: u64) -> u64 {
    steps - steps % (SEATS_MOST * TURN_MOST)
}

/// Nanoseconds that so many steps of all take, and what they leave.
pub fn bench(program: &Program, steps: u64) -> (u64, Class) {
    let mut class = class(program);
    let mut list = [Seat { limit: u64::MAX, used: 0, stop: 0 }; SEATS];
    let total = whole(steps);
    let Class { cells, queues, outputs, rows } = &mut class;
    let spent = clock::time(|| {
        let answer = z33::bench(
            &mut list[..],
            &mut cells[..],
            &mut queues[..],
            &mut outputs[..],
            &mut rows[..],
            SEATS_MOST,
            total,
        );
        assert_eq!((answer.refusal, answer.left), (0, 0), "{}: the bench", program.name);
    });
    assert!(list.iter().all(|seat| seat.used == total / SEATS_MOST), "{}: a seat's steps", program.name);
    (spent, class)
}

pub fn singles(program: &Program, steps: u64) -> (u64, Class) {
    let mut class = class(program);
    let budget = whole(steps) / SEATS_MOST;
    let Class { cells, queues, outputs, rows } = &mut class;
    let spent = clock::time(|| {
        let cells = cells.chunks_exact_mut(program.cells.len());
        let parts = cells
            .zip(queues.chunks_exact_mut(QUEUE))
            .zip(outputs.chunks_exact_mut(OUTPUT))
            .zip(rows.chunks_exact_mut(ROW));
        for (((cells, queue), output), row) in parts {
            let ran = z33::run(cells, queue, output, row, budget);
            assert_eq!((ran.refusal, ran.steps), (0, budget), "{}: a single run", program.name);
        }
    });
    (spent, class)
}

/// One line: nanoseconds a step of both, and how much longer the bench takes.
pub fn compare(program: &Program, steps: u64, rounds: usize) {
    let mut times = [const { Vec::new() }; 2];
    for _ in 0..rounds {
        let ends = [bench(program, steps), singles(program, steps)];
        assert!(ends[0].1 == ends[1].1, "{}: the final machines differ", program.name);
        for (all, end) in times.iter_mut().zip(ends) {
            all.push(end.0);
        }
    }
    let [bench, singles] = times.map(|mut all| best_and_median(&mut all, whole(steps)));
    println!(
        "{:34} {:6.2} {:6.2}   {:6.2} {:6.2}   {:+.1} %",
        program.name,
        bench.0,
        bench.1,
        singles.0,
        singles.1,
        100.0 * (bench.0 / singles.0 - 1.0)
    );
}
