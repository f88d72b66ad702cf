//! The recorded list: the judge's answers to a fixed choice of cases, with the plain interpreter's count of words taken from empty cells.
//! Cases in which a step reads an operand outside the cells, where the original has no answer, stand last, with its answers.

use judge::Judge;
use layout::at;
use layout::stop::{BUDGET_SPENT, OUTPUT_FULL};
use list::{Call, Case, Lent, Plain, Recorded, Writer};

use crate::coverage::{BASE_KINDS, Coverage};
use crate::driver::{Driver, fetched};
use crate::forms::*;
use crate::rng::Rng;
use crate::taken;
use crate::{directed, programs, runner, single, words};

/// So many single steps for each (form, outcome) pair.
const EACH_PAIR: u64 = 3;
const MOST_DRAWS: usize = 2_000_000;
/// Every so many of the pairs of edge words.
const WORDS_STRIDE: usize = 331;
const PROGRAMS: usize = 60;
/// How many of the runner's programs end with stops 0 to 6, and after how many steps at least.
const FOR_RUNNER: [(usize, u64); 7] = [(12, 0), (170, 20), (90, 10), (20, 5), (80, 10), (60, 10), (3, 0)];
/// How many more of them read an operand outside, and after how many steps they end at least.
const OUTSIDE_FOR_RUNNER: (usize, u64) = (40, 10);
/// A program that is to end by itself does so within so many steps.
const LIMIT: u64 = 5_000;
const SEED: u64 = 33;

pub struct List {
    pub text: String,
    pub cases: usize,
    pub for_runner: usize,
    /// The last so many have the plain interpreter's answers.
    pub of_plain: usize,
    pub steps: u64,
}

/// The whole list; an error where a possible pair does not stand in it.
pub fn list() -> Result<List, String> {
    let mut recorder = Recorder::default();
    for directed in directed::cases() {
        recorder.case(&directed.case)?;
    }
    recorder.singles()?;
    recorder.empty()?;
    recorder.words()?;
    recorder.programs()?;
    recorder.worked_runs()?;
    recorder.for_runner()?;
    let of_plain = recorder.of_plain()?;
    let missing = recorder.coverage.missing(&BASE_KINDS, EACH_PAIR);
    if !missing.is_empty() {
        return Err(format!("{} (form, outcome) pairs are not recorded: {missing:?}", missing.len()));
    }
    Ok(List {
        text: recorder.writer.finish(),
        cases: recorder.cases,
        for_runner: recorder.runner_cases,
        of_plain,
        steps: recorder.steps,
    })
}

#[derive(Default)]
struct Recorder {
    driver: Driver,
    writer: Writer,
    coverage: Coverage,
    taken: taken::Coverage,
    /// Cases for the plain interpreter.
    outside: Vec<Case>,
    cases: usize,
    runner_cases: usize,
    steps: u64,
}

impl Recorder {
    /// Makes the case's calls and writes them down; or keeps the case, where the original has not all of the answers.
    fn case(&mut self, case: &Case) -> Result<(), String> {
        let calls = self.calls(case)?;
        if self.driver.not_its_own > 0 {
            self.outside.push(case.clone());
        } else {
            self.write(case, &calls);
        }
        Ok(())
    }

    /// Writes the cases that were kept; their count.
    fn of_plain(&mut self) -> Result<usize, String> {
        let cases = std::mem::take(&mut self.outside);
        for case in &cases {
            let calls = self.calls(case)?;
            self.write(case, &calls);
        }
        Ok(cases.len())
    }

    /// The case's calls on the plain interpreter, each answered as by the judge but for the count of words taken from empty cells.
    fn calls(&mut self, case: &Case) -> Result<Vec<Recorded>, String> {
        self.driver.start(case);
        let judged: Vec<Recorded> = case.calls.iter().map(|call| recorded(&mut self.driver, call)).collect();
        self.driver.judge.verify()?;
        let calls = on_plain(case);
        if !calls.iter().zip(&judged).all(|(call, due)| is_same(call, due)) {
            return Err(format!("plain interpreter and judge differ on\n{}", list::case_lines(1, case)));
        }
        Ok(calls)
    }

    fn write(&mut self, case: &Case, calls: &[Recorded]) {
        self.writer.case(case, calls);
        self.cases += 1;
        self.runner_cases += usize::from(case.for_runner);
        let runs = calls.iter().filter(|made| matches!(made.call, Call::Run(_)));
        self.steps += runs.map(|made| made.answer.count).sum::<u64>();
    }

    /// Draws until each pair was met so often; only the first of each are recorded.
    fn singles(&mut self) -> Result<(), String> {
        let (mut rng, forms) = (Rng::new(SEED), all());
        for turn in 0..MOST_DRAWS {
            let case = single::draw(&mut rng, &forms, turn);
            if case.queue.len() > 8 || case.output.len() > 8 {
                continue;
            }
            self.driver.start(&case);
            let cell = fetched(&self.driver.judge);
            let step = self.driver.step();
            // a use of the timer's ports, which the list has not
            if !step.timed && self.coverage.count(cell, &step)? <= EACH_PAIR {
                self.case(&case)?;
            }
            if turn % 100_000 == 0 && self.coverage.missing(&BASE_KINDS, EACH_PAIR).is_empty() {
                return Ok(());
            }
        }
        Ok(())
    }

    /// Draws until each way of taking a word from an empty cell, and of not taking it, was met; the first of each are recorded.
    fn empty(&mut self) -> Result<(), String> {
        let (mut rng, forms) = (Rng::new(SEED + 3), all());
        for turn in 0..MOST_DRAWS {
            let case = single::draw_empty(&mut rng, &forms, turn);
            if case.queue.len() > 8 || case.output.len() > 8 {
                continue;
            }
            self.driver.start(&case);
            let (cell, judge) = (fetched(&self.driver.judge), &self.driver.judge);
            let events = cell.map_or(Vec::new(), |cell| taken::events(judge.row(), judge.cells(), cell));
            let step = self.driver.step();
            if self.taken.count(cell, &events, &step)? {
                self.case(&case)?;
            }
            if turn % 10_000 == 0 && self.taken.every_way() {
                return Ok(());
            }
        }
        Err(format!("empty cells are not met in every way: {:?}", self.taken.missing()))
    }

    fn words(&mut self) -> Result<(), String> {
        let mut count = 0;
        words::each(|case| {
            count += 1;
            if count % WORDS_STRIDE == 0 { self.case(case) } else { Ok(()) }
        })
    }

    /// Programs with other calls between their runs.
    fn programs(&mut self) -> Result<(), String> {
        let mut rng = Rng::new(SEED + 1);
        for _ in 0..PROGRAMS {
            self.case(&programs::draw(&mut rng))?;
        }
        Ok(())
    }

    /// Programs written by hand for the runner: document 01's own, and one that fills the output record.
    fn worked_runs(&mut self) -> Result<(), String> {
        let mut worked = runner::start();
        worked.put(0, [202, 5, 0]);
        worked.put(1, [20_702, 0, 0]);
        let mut full = runner::start();
        full.row[at::SR] = directed::S;
        full.put(0, instruction(ADD, imm(3), reg(A)));
        full.put(1, instruction(OUT, reg(A), dir(111)));
        full.put(2, instruction(JMP, imm(0), NONE));
        for case in [worked, full] {
            let mut judge = Judge::empty();
            let same = runner::same_in_the_runner(&mut judge, &case, runner::BUDGET);
            same.ok_or("a program by hand is none for the runner")?;
            self.case(&case)?;
        }
        Ok(())
    }

    /// Drawn programs for the runner, so many for each stop, and so many that read an operand outside.
    fn for_runner(&mut self) -> Result<(), String> {
        let mut rng = Rng::new(SEED + 2);
        let mut judge = Judge::empty();
        let (mut open, mut outside) = (FOR_RUNNER, OUTSIDE_FOR_RUNNER);
        for _ in 0..MOST_DRAWS {
            if open.iter().chain([&outside]).all(|(left, _)| *left == 0) {
                return Ok(());
            }
            let limit = if open[BUDGET_SPENT as usize].0 + open[OUTPUT_FULL as usize].0 > 0 {
                runner::BUDGET
            } else {
                LIMIT
            };
            let Some((case, ended)) = runner::draw(&mut rng, &mut judge, limit) else { continue };
            let of_stop = if ended.read_outside {
                Some(&mut outside)
            } else {
                open.get_mut(ended.answer.stop as usize)
            };
            let Some((left, least)) = of_stop else { continue };
            if *left > 0 && ended.answer.count >= *least {
                *left -= 1;
                self.case(&case)?;
            }
        }
        Err(format!("programs for the runner missing by stop: {open:?}; and that read outside: {outside:?}"))
    }
}

fn on_plain(case: &Case) -> Vec<Recorded> {
    let mut lent = case.lent();
    let mut made = |call: &Call| {
        let before = lent.clone();
        let (answer, buffer) = call.make(&mut Plain, &mut lent);
        Recorded { call: call.clone(), answer, before, after: lent.clone(), buffer }
    };
    case.calls.iter().map(&mut made).collect()
}

fn is_same(call: &Recorded, due: &Recorded) -> bool {
    call.answer.without_empty() == due.answer && call.after == due.after && call.buffer == due.buffer
}

fn recorded(driver: &mut Driver, call: &Call) -> Recorded {
    let before = lent(&driver.judge);
    let (answer, buffer) = driver.call(call);
    Recorded { call: call.clone(), answer, before, after: lent(&driver.judge), buffer }
}

fn lent(judge: &Judge) -> Lent {
    Lent {
        cells: judge.cells().to_vec(),
        queue: judge.queue().to_vec(),
        output: judge.output().to_vec(),
        row: *judge.row(),
    }
}
