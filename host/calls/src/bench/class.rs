//! What a bench is lent: the machines of its seats, one behind the other, and the list.

use z33::Seat;

use crate::trial;

/// A seat's record and its machine, which a run accepts unless faults are put into it.
#[derive(Clone)]
pub struct Seated {
    pub seat: Seat,
    pub machine: trial::Trial,
}

#[derive(Clone, Default, PartialEq)]
pub struct Class {
    pub list: Vec<Seat>,
    pub cells: Vec<i64>,
    pub queues: Vec<u8>,
    pub outputs: Vec<u8>,
    pub rows: Vec<i64>,
}

/// A seat's part of each buffer.
pub struct Machine<'a> {
    pub cells: &'a mut [i64],
    pub queue: &'a mut [u8],
    pub output: &'a mut [u8],
    pub row: &'a mut [i64],
}

#[derive(Clone, Default)]
pub struct Trial {
    pub lent: Class,
    pub seats: u64,
    pub total: u64,
    /// Whether empty buffers come as null pointers.
    pub null: bool,
}

impl Trial {
    pub fn of(seated: &[Seated], total: u64) -> Self {
        let mut lent = Class::default();
        for Seated { seat, machine } in seated {
            lent.list.push(*seat);
            lent.cells.extend_from_slice(&machine.lent.cells);
            lent.queues.extend_from_slice(&machine.lent.queue);
            lent.outputs.extend_from_slice(&machine.lent.output);
            lent.rows.extend_from_slice(&machine.lent.row);
        }
        Self { lent, seats: seated.len() as u64, total, null: false }
    }

    /// For a message.
    pub fn told(&self) -> String {
        let Self { lent, seats, total, null } = self;
        format!(
            "bench of {seats} seats, total {total}, lengths {:?}, null {null}, list {:?}",
            lent.lengths(),
            lent.list.iter().map(|seat| (seat.limit, seat.used, seat.stop)).collect::<Vec<_>>()
        )
    }
}

impl Class {
    pub fn lengths(&self) -> [usize; 4] {
        [self.cells.len(), self.queues.len(), self.outputs.len(), self.rows.len()]
    }

    /// The seat at a place from 0, as a bench of its own.
    pub fn copy_of(&self, at: usize) -> Class {
        fn copy<T: Clone>(buffer: &[T], seats: usize, at: usize) -> Vec<T> {
            let length = buffer.len() / seats;
            buffer[at * length..(at + 1) * length].to_vec()
        }
        let seats = self.list.len();
        Class {
            list: vec![self.list[at]],
            cells: copy(&self.cells, seats, at),
            queues: copy(&self.queues, seats, at),
            outputs: copy(&self.outputs, seats, at),
            rows: copy(&self.rows, seats, at),
        }
    }
}

/// "each in equal parts, seat 1 first": that of the seat at a place from 0.
pub fn machine_of(class: &mut Class, seats: usize, at: usize) -> Machine<'_> {
    fn part<T>(buffer: &mut [T], seats: usize, at: usize) -> &mut [T] {
        let length = buffer.len() / seats;
        &mut buffer[at * length..(at + 1) * length]
    }
    Machine {
        cells: part(&mut class.cells, seats, at),
        queue: part(&mut class.queues, seats, at),
        output: part(&mut class.outputs, seats, at),
        row: part(&mut class.rows, seats, at),
    }
}
