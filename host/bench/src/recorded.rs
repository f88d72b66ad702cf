//! A run with a journal: what a step costs that is kept.

use layout::journal;
use layout::limit::RECORDS_MOST;

use crate::programs::Program;
use crate::{Machine, OUTPUT, QUEUE, best_and_median, clock, library};

/// Nanoseconds that so many steps take with the longest journal, and what they leave.
pub fn recorded(program: &Program, steps: u64) -> (u64, Machine) {
    let (mut cells, mut row) = (program.cells.clone(), program.row);
    let mut kept = vec![0; journal::length(RECORDS_MOST)];
    let spent = clock::time(|| {
        let (queue, output) = (&mut [0; QUEUE][..], &mut [0; OUTPUT][..]);
        let ran = z33::run_journal(&mut cells[..], queue, output, &mut row[..], &mut kept[..], steps);
        assert_eq!((ran.refusal, ran.steps), (0, steps), "{}: the run with a journal", program.name);
    });
    assert_eq!(
        kept[journal::COUNT] as u64,
        steps.min(RECORDS_MOST as u64),
        "{}: the steps kept",
        program.name
    );
    (spent, (cells, row))
}

/// One line: nanoseconds a step with a journal and without, and how many times longer the first takes.
pub fn compare(program: &Program, steps: u64, rounds: usize) {
    let mut times = [const { Vec::new() }; 2];
    for _ in 0..rounds {
        let ends = [recorded(program, steps), library(program, steps)];
        assert!(ends[0].1 == ends[1].1, "{}: the final machines differ", program.name);
        for (all, end) in times.iter_mut().zip(ends) {
            all.push(end.0);
        }
    }
    let [recorded, library] = times.map(|mut all| best_and_median(&mut all, steps));
    println!(
        "{:34} {:6.2} {:6.2}   {:6.2} {:6.2}   {:5.2}",
        program.name,
        recorded.0,
        recorded.1,
        library.0,
        library.1,
        recorded.0 / library.0
    );
}
