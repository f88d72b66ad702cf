//! "Step back" (document 02, Card 11): runs with a journal held to runs without one, and going back held to copies that were kept on the way.
//! `ring` is the request's journal, by which the calls on any lengths and contents are judged.

mod course;
mod draw;
mod machines;
pub mod ring;
mod seen;
mod ways;

use draws::rng::Rng;
use layout::limit::{CELLS_LEAST, CELLS_MOST, RECORDS_MOST};

use course::Course;
use seen::{SIZES, Seen};

pub use draw::draw;
pub use ways::{all_ways, ways};

/// For each number of records.
const SHORT: usize = 1_500;
/// Of these, so many with a journal of the most records.
const SHORT_OF_MOST: usize = 300;
const SHORT_BUDGET: i64 = 40;
/// Runs that fill a journal of the most records, or most of it.
const LONG: usize = 50;
const LONG_BUDGET: i64 = 6_000;
/// On machines of the most cells.
const LARGE: usize = 20;

/// A line on what was gone back over, or the first difference.
pub fn check(seed: u64) -> Result<String, String> {
    let (mut rng, mut seen) = (Rng::new(seed), Seen::new());
    for records in SIZES {
        let machines = if records == RECORDS_MOST { SHORT_OF_MOST } else { SHORT };
        for _ in 0..machines {
            let cells = CELLS_LEAST + rng.below(40);
            Course::draw(&mut rng, records, cells, SHORT_BUDGET).hold(&mut rng, &mut seen)?;
        }
    }
    for _ in 0..LONG {
        Course::draw(&mut rng, RECORDS_MOST, CELLS_LEAST, LONG_BUDGET).hold(&mut rng, &mut seen)?;
    }
    for _ in 0..LARGE {
        let records = rng.pick(&SIZES);
        Course::draw(&mut rng, records, CELLS_MOST, SHORT_BUDGET).hold(&mut rng, &mut seen)?;
    }
    seen.complete()
}
