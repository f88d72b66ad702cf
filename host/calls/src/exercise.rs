//! `z33_exercise` held to the plain load on many seeds and lengths: the answer, every number of the image, and what lies
//! around it. What an image held before is anything, damaged cells too.

use draws::edges::word;
use draws::exercise;
use draws::forms::{Form, IDX, IND, REG, all};
use draws::rng::Rng;
use z33::Counted;

use crate::guarded::Guarded;

const EDGE_SEEDS: [u64; 8] = [0, 1, 2, (1 << 32) - 1, 1 << 32, 1 << 63, u64::MAX - 1, u64::MAX];
/// Each with every length up to this one.
const SHORT: usize = 100;
const SEEDS: usize = 400;
const MOST_CELLS: usize = 10_000;
/// More cells than any machine has.
const LARGE: usize = 100_000;

/// A line on what was compared, or the first difference.
pub fn check(seed: u64) -> Result<String, String> {
    let (mut rng, mut loads) = (Rng::new(seed), Loads::default());
    for seed in EDGE_SEEDS {
        for length in 0..=SHORT {
            loads.compare(&mut rng, length, seed, false)?;
        }
        loads.compare(&mut rng, 3 * MOST_CELLS, seed, false)?;
    }
    loads.compare(&mut rng, 0, seed, true)?;
    for _ in 0..SEEDS {
        let (length, seed) = (rng.below(3 * MOST_CELLS + 4), rng.draw());
        loads.compare(&mut rng, length, seed, false)?;
    }
    loads.compare(&mut rng, 3 * LARGE, seed, false)?;
    loads.told()
}

#[derive(Default)]
struct Loads {
    image: Guarded<i64>,
    done: usize,
    refused: usize,
    cells: u64,
    seen: Seen,
}

impl Loads {
    fn compare(&mut self, rng: &mut Rng, length: usize, seed: u64, null: bool) -> Result<(), String> {
        let before: Vec<i64> = (0..length).map(|_| word(rng)).collect();
        self.image.put(&before);
        let answer = z33::exercise(self.image.lend(null), seed);
        let mut due = before;
        let whole = length % 3 == 0;
        if whole {
            exercise::fill(&mut due, seed);
        }
        let due_answer = if whole {
            Counted { refusal: 0, place: 0, count: length as u64 / 3 }
        } else {
            Counted { refusal: 9, place: 0, count: 0 }
        };
        if answer != due_answer || self.image.content() != due || !self.image.is_intact() {
            return Err(format!(
                "exercise of {length} numbers from seed {seed}: {answer:?}, due {due_answer:?}, or numbers differ"
            ));
        }
        if whole {
            self.done += 1;
            self.cells += answer.count;
            due.chunks_exact(3).try_for_each(|cell| self.seen.count([cell[0], cell[1], cell[2]]))
        } else {
            self.refused += 1;
            Ok(())
        }
    }

    fn told(&self) -> Result<String, String> {
        Ok(format!(
            "exercise load: {} images and {} refused as they are due, {} sound cells; {}",
            self.done,
            self.refused,
            self.cells,
            self.seen.complete()?
        ))
    }
}

/// How often each form was made, and which of its registers.
struct Seen {
    forms: Vec<(Form, u64, [[bool; 5]; 2])>,
    place: Vec<usize>,
}

impl Default for Seen {
    fn default() -> Self {
        let mut place = vec![usize::MAX; 33 * 36];
        for (i, form) in all().iter().enumerate() {
            place[((form.tag(0, 0) - 2) / 25) as usize] = i;
        }
        Self { forms: all().into_iter().map(|form| (form, 0, [[false; 5]; 2])).collect(), place }
    }
}

impl Seen {
    fn count(&mut self, cell: [i64; 3]) -> Result<(), String> {
        if !plain::sound(cell) {
            return Err(format!("exercise made a damaged cell: {cell:?}"));
        }
        let (entry, registers) = ((cell[0] - 2) / 25, (cell[0] - 2) % 25);
        let (_, times, used) = &mut self.forms[self.place[entry as usize]];
        *times += 1;
        used[0][(registers / 5) as usize] = true;
        used[1][(registers % 5) as usize] = true;
        Ok(())
    }

    /// Every form, and with it every register where it has one and only register 0 where it has none.
    fn complete(&self) -> Result<String, String> {
        for (form, times, used) in &self.forms {
            for (mode, used) in [form.m1, form.m2].into_iter().zip(used) {
                let due = if matches!(mode, REG | IND | IDX) { 5 } else { 1 };
                let is = used.iter().filter(|used| **used).count();
                if *times == 0 || is != due {
                    return Err(format!(
                        "{} was made {times} times with {is} registers, due {due}",
                        form.name()
                    ));
                }
            }
        }
        let least = self.forms.iter().map(|(_, times, _)| *times).min().unwrap_or(0);
        Ok(format!("{} forms, each with every register, {least} times or more", self.forms.len()))
    }
}
