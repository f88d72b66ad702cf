//! Runs on large budgets: judge and library each take the whole budget at once and are compared at its end, and the library's count of
//! words taken from empty cells with the plain interpreter's.

use compare::driver::Driver;
use compare::rng::Rng;
use compare::{fence, programs, timer};
use layout::stop::BUDGET_SPENT;
use list::{Answer, Call, Case, Lent, Machine, Plain};
use z33::Library;

/// A program is long that takes so many steps; most draws stop before.
const LONG: u64 = 20_000;
const MOST: u64 = 300_000;
const PROGRAMS: usize = 60;
const MOST_DRAWS: usize = 200_000;

/// A line on what was compared, or the first difference: so many programs, and more until one has ended by itself.
pub fn check(seed: u64) -> Result<String, String> {
    let (mut rng, mut driver) = (Rng::new(seed), Driver::default());
    let (mut programs, mut steps, mut empty, mut ended) = (0, 0, 0, 0);
    for _ in 0..MOST_DRAWS {
        // one in three with a fence, one with the timer
        let draw = [programs::draw, fence::program, timer::program][programs % 3];
        let mut case = draw(&mut rng);
        if programs >= PROGRAMS && ended > 0 {
            break;
        }
        let Some(answer) = long_on_plain(&case) else { continue };
        case.calls = vec![Call::Run(budget(&mut rng, &answer)), Call::Run(0)];
        let ran = same(&mut driver, &case)?;
        steps += ran.count;
        empty += ran.empty;
        programs += 1;
        ended += usize::from(answer.stop != BUDGET_SPENT);
    }
    if programs < PROGRAMS || ended == 0 || empty == 0 {
        return Err(format!(
            "only {programs} long programs, {ended} that end, {empty} empty cells, in {MOST_DRAWS} draws"
        ));
    }
    Ok(format!(
        "{steps} steps in {programs} runs on large budgets compared at their end, {empty} words from empty cells; {ended} ended by themselves"
    ))
}

/// The plain interpreter's answer, where it takes long enough; it is only asked which draws are worth a run.
fn long_on_plain(case: &Case) -> Option<Answer> {
    let answer = Plain.run(&mut case.lent(), MOST);
    (answer.count >= LONG).then_some(answer)
}

/// A run that ends by itself is given the largest budget there is.
fn budget(rng: &mut Rng, answer: &Answer) -> u64 {
    if answer.stop != BUDGET_SPENT { u64::MAX } else { rng.between(LONG as i64, MOST as i64) as u64 }
}

/// The steps that both took, and the words from empty cells.
fn same(driver: &mut Driver, case: &Case) -> Result<Answer, String> {
    driver.start(case);
    let (mut lent, mut plain, mut ran) = (case.lent(), case.lent(), Answer::DONE);
    for call in &case.calls {
        let (answer, _) = call.make(&mut Library, &mut lent);
        let empty = call.make(&mut Plain, &mut plain).0.empty;
        let due = Answer { empty, ..driver.call(call).0 };
        driver.judge.verify()?;
        if answer != due || left(driver) != lent {
            let case = list::case_lines(1, case);
            return Err(format!(
                "{call:?}: answered {answer:?}, the judge {due:?}, or something is left otherwise\n{case}"
            ));
        }
        ran.count += due.count;
        ran.empty += due.empty;
    }
    Ok(ran)
}

fn left(driver: &Driver) -> Lent {
    let judge = &driver.judge;
    Lent {
        cells: judge.cells().to_vec(),
        queue: judge.queue().to_vec(),
        output: judge.output().to_vec(),
        row: *judge.row(),
    }
}
