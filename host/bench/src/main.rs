//! bench [STEPS [ROUNDS]]: the unchanged original, the plain interpreter and the proved library on the same loops, in one
//! process and in turn; CPU time of the thread, best and median, and the library's ratio to the others.
//! Then sixteen machines on a bench against single runs of the same steps, and a run with a journal against one without.
//! bench alone MACHINE LOOP STEPS: one of the three, `recorded`, `class` or `singles` on one loop and nothing else, for whoever counts
//! instructions.

mod class;
mod clock;
mod programs;
mod recorded;

use judge::Judge;
use layout::Row;
use programs::Program;

type Machine = (Vec<i64>, Row);

const QUEUE: usize = 256;
const OUTPUT: usize = 4_096;

fn original(program: &Program, steps: u64) -> (u64, Machine) {
    let mut judge = Judge::new(&program.cells, &[0; QUEUE], &[0; OUTPUT], &program.row);
    let spent = clock::time(|| judge.steps_alone(steps));
    judge.refresh();
    (spent, (judge.cells().to_vec(), *judge.row()))
}

fn plain(program: &Program, steps: u64) -> (u64, Machine) {
    let (mut cells, mut row) = (program.cells.clone(), program.row);
    let spent = clock::time(|| {
        plain::run(&mut cells, &mut [0; QUEUE], &mut [0; OUTPUT], &mut row, steps);
    });
    (spent, (cells, row))
}

fn library(program: &Program, steps: u64) -> (u64, Machine) {
    let (mut cells, mut row) = (program.cells.clone(), program.row);
    let spent = clock::time(|| {
        z33::run(&mut cells[..], &mut [0; QUEUE][..], &mut [0; OUTPUT][..], &mut row[..], steps);
    });
    (spent, (cells, row))
}

fn best_and_median(times: &mut [u64], steps: u64) -> (f64, f64) {
    times.sort_unstable();
    let a_step = |t: u64| t as f64 / steps as f64;
    (a_step(times[0]), a_step(times[times.len() / 2]))
}

type Run = fn(&Program, u64) -> (u64, Machine);

const MACHINES: [(&str, Run); 3] = [("original", original), ("plain", plain), ("library", library)];

/// One line: nanoseconds a step of the three, and how many times faster the library is.
fn compare(program: &Program, steps: u64, rounds: usize) {
    let mut times = [const { Vec::new() }; 3];
    for _ in 0..rounds {
        let ends = MACHINES.map(|(_, run)| run(program, steps));
        let alike = if program.is_timed() { &ends[1..] } else { &ends };
        assert!(alike.iter().all(|end| end.1 == ends[2].1), "{}: the final machines differ", program.name);
        for (all, end) in times.iter_mut().zip(ends) {
            all.push(end.0);
        }
    }
    let [first, second, third] = times.map(|mut all| best_and_median(&mut all, steps));
    println!(
        "{:34} {:6.2} {:6.2}   {:6.2} {:6.2}   {:6.2} {:6.2}   {:5.2} {:5.2}",
        program.name,
        first.0,
        first.1,
        second.0,
        second.1,
        third.0,
        third.1,
        first.0 / third.0,
        second.0 / third.0
    );
}

/// What a call costs before its first step, at its best of 500.
fn acceptance(program: &Program, budget: u64) {
    let (mut cells, mut row) = (program.cells.clone(), program.row);
    let (mut queue, mut output) = ([0; QUEUE], [0; OUTPUT]);
    let spent = (0..500).map(|_| {
        clock::time(|| {
            z33::run(&mut cells[..], &mut queue[..], &mut output[..], &mut row[..], budget);
        })
    });
    let best = spent.min().expect("500 calls");
    println!("a call on 10,000 {}, budget {budget}: {:.1} us", program.name, best as f64 / 1e3);
}

fn growth(program: &Program, most: u64) {
    for steps in (3..=8).map(|power| 10_u64.pow(power)).filter(|&steps| steps <= most) {
        let (spent, _) = library(program, steps);
        println!("{steps:>9} steps of {}: {:.2} ns a step", program.name, spent as f64 / steps as f64);
    }
}

/// What `z33_exercise` takes a cell, at its best of so many rounds.
fn exercise(cells: usize, rounds: usize) {
    let mut image = vec![0; 3 * cells];
    let spent = (0..rounds as u64).map(|seed| {
        clock::time(|| {
            z33::exercise(&mut image[..], seed);
        })
    });
    let a_cell = spent.min().expect("a round") as f64 / cells as f64;
    println!(
        "an exercise load of {cells} cells: {a_cell:.2} ns a cell, {:.0} million cells a second",
        1e3 / a_cell
    );
}

fn alone(machine: &str, name: &str, steps: u64) {
    let programs = programs::all();
    let program = programs
        .iter()
        .find(|p| p.name.split(' ').next() == Some(name))
        .expect("a loop: a, a', b, c, d or e");
    match machine {
        "class" => drop(class::bench(program, steps)),
        "singles" => drop(class::singles(program, steps)),
        "recorded" => drop(recorded::recorded(program, steps)),
        _ => {
            let (_, run) = MACHINES
                .iter()
                .find(|m| m.0 == machine)
                .expect("original, plain, library, recorded, class or singles");
            run(program, steps);
        }
    }
}

fn measure(steps: u64, rounds: usize) {
    println!("ns a step, best and median of {rounds} rounds of {steps} steps");
    println!("{:34} {:13}   {:13}   {:13}   library is faster than", "", "original", "plain", "library");
    println!("{:34} {:13}   {:13}   {:13}   original, plain", "", "", "", "");
    let programs = programs::all();
    programs.iter().for_each(|program| compare(program, steps, rounds));
    println!("{:34} {:13}   {:13}   the bench takes longer by", "sixteen seats", "bench", "single runs");
    programs.iter().for_each(|program| class::compare(program, steps, rounds));
    println!("{:34} {:13}   {:13}   the first takes so many times as long", "", "with a journal", "without");
    programs.iter().for_each(|program| recorded::compare(program, steps, rounds));
    for kind in &programs::kinds() {
        acceptance(kind, 0);
        acceptance(kind, 1);
    }
    exercise(10_000, 100 * rounds);
    exercise(1_000_000, 5 * rounds);
    growth(&programs[0], steps.saturating_mul(5));
}

fn number(word: &str) -> u64 {
    word.parse().expect("a number")
}

fn main() {
    let words: Vec<String> = std::env::args().skip(1).collect();
    match words.iter().map(String::as_str).collect::<Vec<_>>()[..] {
        ["alone", machine, name, steps] => alone(machine, name, number(steps)),
        [] => measure(20_000_000, 5),
        [steps] => measure(number(steps), 5),
        [steps, rounds] => measure(number(steps), number(rounds) as usize),
        _ => panic!("bench [STEPS [ROUNDS]] or bench alone MACHINE LOOP STEPS"),
    }
}
