//! "Turned back, in checking order", one function for each test.

use layout::limit::{
    ADDRESS_LAST, CELLS_LEAST, CELLS_MOST, CYCLES_MOST, OUTPUT_MOST, QUEUE_LEAST, QUEUE_MOST,
};
use layout::limit::{RECORDS_LEAST, RECORDS_MOST};
use layout::row::from_1;
use layout::{ROW, at, cell, code, journal, refusal, reg, row};
use plain::sound;

use crate::journal::ring;

/// A refusal's number and place where a test fails.
pub type Tested = Result<(), (u64, u64)>;

fn test(passed: bool, number: u64, place: u64) -> Tested {
    if passed { Ok(()) } else { Err((number, place)) }
}

/// "The cells are not 3 numbers each for 256 to 10,000 cells."
pub fn cells(length: usize) -> Tested {
    let whole = length.is_multiple_of(cell::LENGTH);
    test(whole && (CELLS_LEAST..=CELLS_MOST).contains(&(length / cell::LENGTH)), refusal::CELLS, 0)
}

/// "The queue is not 1 to 4,096 bytes."
pub fn queue(length: usize) -> Tested {
    test((QUEUE_LEAST..=QUEUE_MOST).contains(&length), refusal::QUEUE, 0)
}

/// "The output record is over 65,536 bytes."
pub fn output(length: usize) -> Tested {
    test(length <= OUTPUT_MOST, refusal::OUTPUT, 0)
}

/// "The row gains interval (0 or more), remaining (0 to the interval) and mark (0 or 1), [...] 20 numbers"
pub fn row_length(length: usize) -> Tested {
    test(length == ROW, refusal::ROW, 0)
}

/// "or its number at this place (from 1, the lowest such) is out of range". sr is any word.
pub fn row(row: &[i64], queue: usize, output: usize, cells: usize) -> Tested {
    row_length(row.len())?;
    for place in [at::A, at::B] {
        test(sound(row::cell(row, place)), refusal::ROW, from_1(place))?;
    }
    let (queue, output, cells) = (queue as i64, output as i64, cells as i64);
    let most = [
        (at::PC, ADDRESS_LAST),
        (at::SP, ADDRESS_LAST),
        (at::CYCLES, CYCLES_MOST),
        (at::ENABLE, 1),
        (at::FLAG, 1),
        (at::PENDING, 1),
        (at::QUEUE_START, queue - 1),
        (at::QUEUE_COUNT, queue),
        (at::OUTPUT_COUNT, output),
        (at::FENCE, cells),
        (at::TIMER_INTERVAL, i64::MAX),
        (at::TIMER_REMAINING, row[at::TIMER_INTERVAL]),
        (at::TIMER_MARK, 1),
    ];
    for (place, most) in most {
        test((0..=most).contains(&row[place]), refusal::ROW, from_1(place))?;
    }
    Ok(())
}

/// "The cell at this lowest address is damaged"
pub fn every_cell(cells: &[i64]) -> Tested {
    let count = cells.len() / cell::LENGTH;
    match (0..count).find(|address| !sound(cell::get(cells, *address))) {
        Some(address) => Err((refusal::DAMAGED_CELL, address as u64)),
        None => Ok(()),
    }
}

/// A cell's own damage, for one that is there.
pub fn own_cell(cells: &[i64], address: u64) -> Tested {
    let Some(own) = inside(cells.len(), address) else { return Ok(()) };
    test(sound(cell::get(cells, own)), refusal::DAMAGED_CELL, address)
}

/// "Delivered bytes exceed the queue's free places."
pub fn delivered(bytes: usize, queue: usize, count: i64) -> Tested {
    test(bytes as u128 + count as u128 <= queue as u128, refusal::DELIVERY, 0)
}

/// "The drain buffer is shorter than the output count."
pub fn buffer(length: usize, count: i64) -> Tested {
    test(length as u128 >= count as u128, refusal::DRAIN, 0)
}

/// "The cell address or image start is outside the cells."
pub fn address(cells: usize, address: u64) -> Tested {
    test(inside(cells, address).is_some(), refusal::ADDRESS, 0)
}

/// "The image is no whole number of cells, runs past the end, or holds a damaged cell."
pub fn image(cells: usize, image: &[i64], start: u64) -> Tested {
    let room = cells - cell::LENGTH * start as usize;
    let whole = image.len().is_multiple_of(cell::LENGTH);
    test(whole && image.len() <= room && every_cell(image).is_ok(), refusal::IMAGE, 0)
}

/// "The register is not a, b, pc or sp, or pc or sp would be no address."
pub fn register(number: u64, word: i64) -> Tested {
    let taken = match number as i64 {
        reg::A | reg::B => true,
        reg::PC | reg::SP => (0..=ADDRESS_LAST).contains(&word),
        _ => false,
    };
    test(taken, refusal::REGISTER, 0)
}

/// "The raised code is not 0 to 5."
pub fn code(code: u64) -> Tested {
    test(code < code::CODES, refusal::CODE, 0)
}

/// "the journal is no whole number of records, 1 to 4,096, after its start and count"
pub fn journal_length(length: usize) -> Tested {
    let lengths = (RECORDS_LEAST..=RECORDS_MOST).map(journal::length);
    test(lengths.into_iter().any(|whole| whole == length), refusal::JOURNAL, 0)
}

/// "start is no record's place, count is not 0 to the records"
pub fn journal(numbers: &[i64]) -> Tested {
    journal_length(numbers.len())?;
    let records = ring::records(numbers) as i64;
    test((0..records).contains(&numbers[journal::START]), refusal::JOURNAL, 0)?;
    test((0..=records).contains(&numbers[journal::COUNT]), refusal::JOURNAL, 0)
}

/// "or the record gone back to holds not 0 to 4 cells, or a row or cell that 4, 5 or 8 would refuse", where there is one.
pub fn kept_record(numbers: &[i64], cells: usize) -> Tested {
    if kept(numbers).is_err() {
        return Ok(());
    }
    let record = ring::newest(numbers);
    let refused = |_| (refusal::JOURNAL, 0);
    row(&record[..ROW], QUEUE_MOST, OUTPUT_MOST, cells).map_err(refused)?;
    test((0..=journal::WRITES_MOST as i64).contains(&record[journal::CELLS]), refusal::JOURNAL, 0)?;
    for i in 0..record[journal::CELLS] as usize {
        let [at, tag, first, second] = ring::written(record, i);
        test((0..cells as i64).contains(&at) && sound([tag, first, second]), refusal::JOURNAL, 0)?;
    }
    Ok(())
}

/// "nothing kept to go back to"
pub fn kept(numbers: &[i64]) -> Tested {
    test(numbers[journal::COUNT] > 0, refusal::NOTHING_KEPT, 0)
}

/// The address, if it is of one of the cells.
fn inside(cells: usize, address: u64) -> Option<usize> {
    (address < (cells / cell::LENGTH) as u64).then_some(address as usize)
}
