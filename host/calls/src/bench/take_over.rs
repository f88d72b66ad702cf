//! "A bench record stored in 32 bits is taken over with every number equal" (document 02, Card 10).

use draws::rng::Rng;
use z33::Seat;

const EDGES: [u32; 10] = [0, 1, 2, 7, 255, 65_536, (1 << 31) - 1, 1 << 31, u32::MAX - 1, u32::MAX];
const DRAWN: usize = 1_000;

/// A line on what was taken over, or the first difference.
pub fn check(seed: u64) -> Result<String, String> {
    let mut records = Vec::new();
    for limit in EDGES {
        for used in EDGES {
            records.extend(EDGES.map(|stop| (limit, used, stop)));
        }
    }
    let mut rng = Rng::new(seed);
    records.extend((0..DRAWN).map(|_| (rng.draw() as u32, rng.draw() as u32, rng.draw() as u32)));
    for &(limit, used, stop) in &records {
        let taken = z33::take_over(limit, used, stop);
        let due = Seat { limit: limit.into(), used: used.into(), stop };
        if taken != due {
            return Err(format!("{limit}, {used}, {stop} in 32 bits: taken over as {taken:?}"));
        }
    }
    Ok(format!("{} records of 32 bits taken over, every number equal", records.len()))
}
