use crate::{Machine, ROW_LENGTH, Refusal, Seat, SeatRefusal, lent};

/// Up to sixteen machines of one size that run in turns under one step total.
///
/// ```
/// use z33::{Bench, Machine, lent};
///
/// // Every seat begins with this machine, and may take 1,000 steps.
/// let machine = Machine::new(256, 1, 0)?;
/// let mut bench = Bench::new(3, &machine, 1000)?;
///
/// // What each candidate handed in: jmp 0, reset, and nothing, which is no instruction.
/// lent::load(bench.part(1).cells, &[6452, 0, 0], 0)?;
/// lent::load(bench.part(2).cells, &[20702, 0, 0], 0)?;
///
/// // Seats 2 and 3 stop in their first turn; seat 1 has the others until its limit is reached.
/// assert_eq!(bench.run(5000)?, 4000);
/// let told: Vec<(u64, u32)> = bench.list().iter().map(|seat| (seat.used, seat.stop)).collect();
/// assert_eq!(told, [(1000, 0), (0, 1), (0, 2)]);
/// assert_eq!(bench.machine(1)?.cycles(), 1000);
///
/// // A refusal tells the seat too.
/// bench.part(3).cells[3 * 7] = -1;
/// assert_eq!(bench.run(1).unwrap_err().to_string(), "seat 3: the cell at 7 is damaged");
/// # Ok::<(), Box<dyn std::error::Error>>(())
/// ```
#[derive(Clone, Debug, PartialEq, Eq)]
pub struct Bench {
    list: Vec<Seat>,
    cells: Vec<i64>,
    queues: Vec<u8>,
    outputs: Vec<u8>,
    rows: Vec<i64>,
}

/// A seat's record and its part of each buffer, for the calls of [`lent`].
#[derive(Debug)]
pub struct Part<'a> {
    /// Limit, steps used and last stop.
    pub seat: &'a mut Seat,
    /// Its cells, three numbers each.
    pub cells: &'a mut [i64],
    /// Its input queue.
    pub queue: &'a mut [u8],
    /// Its output record.
    pub output: &'a mut [u8],
    /// Its row.
    pub row: &'a mut [i64],
}

impl Bench {
    /// A bench of so many seats, each with a copy of this machine and with this step limit.
    pub fn new(seats: usize, machine: &Machine, limit: u64) -> Result<Self, SeatRefusal> {
        // One seat too many is enough to be refused.
        let kept = seats.min(layout::limit::SEATS_MOST as usize + 1);
        let mut bench = Bench {
            list: vec![Seat::new(limit); kept],
            cells: machine.cells.repeat(kept),
            queues: machine.queue.repeat(kept),
            outputs: machine.output.repeat(kept),
            rows: machine.row.repeat(kept),
        };
        // With no step to take, all of it is tested.
        bench.run(0)?;
        Ok(bench)
    }

    /// Takes turns until the total is spent or no seat can go on, and tells what is left of the total. A turn is a run on the least of 100
    /// steps, what is left of the seat's limit and what is left of the total; they go round from seat 1 and pass over who cannot go on.
    pub fn run(&mut self, total: u64) -> Result<u64, SeatRefusal> {
        let seats = self.list.len() as u64;
        lent::bench(
            &mut self.list,
            &mut self.cells,
            &mut self.queues,
            &mut self.outputs,
            &mut self.rows,
            seats,
            total,
        )
    }

    /// The records, seat 1 first.
    pub fn list(&self) -> &[Seat] {
        &self.list
    }

    /// What a seat has, from 1; there is no seat but those that the bench was made with. Whatever is written there is tested by the next run.
    pub fn part(&mut self, seat: usize) -> Part<'_> {
        let (at, seats) = (self.place(seat), self.list.len());
        Part {
            seat: &mut self.list[at],
            cells: part(&mut self.cells, at, seats),
            queue: part(&mut self.queues, at, seats),
            output: part(&mut self.outputs, at, seats),
            row: part(&mut self.rows, at, seats),
        }
    }

    /// A copy of a seat's machine, from 1; refused where something was written to its part that a run refuses.
    pub fn machine(&self, seat: usize) -> Result<Machine, Refusal> {
        let (at, seats) = (self.place(seat), self.list.len());
        let mut row = [0; ROW_LENGTH];
        row.copy_from_slice(&copy(&self.rows, at, seats));
        let mut machine = Machine {
            cells: copy(&self.cells, at, seats),
            queue: copy(&self.queues, at, seats),
            output: copy(&self.outputs, at, seats),
            row,
        };
        machine.run(0)?;
        Ok(machine)
    }

    fn place(&self, seat: usize) -> usize {
        assert!((1..=self.list.len()).contains(&seat), "there is no seat {seat}");
        seat - 1
    }
}

/// The part at a place, from 0.
fn part<T>(buffer: &mut [T], at: usize, seats: usize) -> &mut [T] {
    let length = buffer.len() / seats;
    &mut buffer[at * length..][..length]
}

fn copy<T: Clone>(buffer: &[T], at: usize, seats: usize) -> Vec<T> {
    let length = buffer.len() / seats;
    buffer[at * length..][..length].to_vec()
}
