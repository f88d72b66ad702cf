//! The journal as document 02 has it (Card 11): "start (the oldest record, from 0), count, then a ring of records, each the row, the number of
//! cells and four times address and cell in order of writing, unused ones 0".

use layout::journal::{self, COUNT, RECORD, RING, START, WRITE};
use layout::{ROW, cell};
use plain::{Begun, Held};

/// How many records the ring has room for.
pub fn records(numbers: &[i64]) -> usize {
    (numbers.len() - RING) / RECORD
}

/// Where the record begins that is so many places behind the oldest one.
fn place(numbers: &[i64], behind: usize) -> usize {
    RING + RECORD * ((numbers[START] as usize + behind) % records(numbers))
}

/// "the newest record", where one is kept.
pub fn newest(numbers: &[i64]) -> &[i64] {
    &numbers[place(numbers, numbers[COUNT] as usize - 1)..][..RECORD]
}

pub fn newest_mut(numbers: &mut [i64]) -> &mut [i64] {
    let from = place(numbers, numbers[COUNT] as usize - 1);
    &mut numbers[from..from + RECORD]
}

/// A record's cell by its number in order of writing, from 0: address, tag, first, second.
pub fn written(record: &[i64], i: usize) -> [i64; WRITE] {
    record[journal::FIRST + WRITE * i..][..WRITE].try_into().expect("an address and a cell")
}

/// "it gets count 0 [...] and keeps the rest"
pub fn empty(numbers: &mut [i64]) {
    numbers[COUNT] = 0;
}

/// "fresh [...] sets start 0 too"
pub fn make(numbers: &mut [i64]) {
    empty(numbers);
    numbers[START] = 0;
}

/// A record more. "A full journal forgets its oldest step."
pub fn keep(numbers: &mut [i64], begun: &Begun) {
    if numbers[COUNT] as usize == records(numbers) {
        numbers[START] = (numbers[START] + 1) % records(numbers) as i64;
        numbers[COUNT] -= 1;
    }
    numbers[COUNT] += 1;
    let record = newest_mut(numbers);
    record.fill(0);
    record[..ROW].copy_from_slice(&begun.row);
    record[journal::CELLS] = begun.held.len() as i64;
    for (i, Held { address, cell: [tag, first, second] }) in begun.held.iter().enumerate() {
        let numbers = [i64::from(*address), *tag, *first, *second];
        record[journal::FIRST + WRITE * i..][..WRITE].copy_from_slice(&numbers);
    }
}

/// "puts the newest record back, last written cell first, and takes one off the count"
pub fn go_back(cells: &mut [i64], row: &mut [i64], numbers: &mut [i64]) {
    let record = newest(numbers);
    for i in (0..record[journal::CELLS] as usize).rev() {
        let [address, tag, first, second] = written(record, i);
        cell::put(cells, address as usize, [tag, first, second]);
    }
    row.copy_from_slice(&record[..ROW]);
    numbers[COUNT] -= 1;
}
