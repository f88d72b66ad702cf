//! The calls over slices. `None` lends a null pointer with length 0, as a C caller may.
//!
//! Each is safe: the library takes any length and any contents, and a slice's memory is its own for the call.

use std::ptr::{null, null_mut};

use z33_sys as c;

use crate::{Benched, Cell, Counted, Done, Drained, Raised, Ran, Seat};

pub fn fresh<'a>(cells: impl Into<Option<&'a mut [i64]>>, row: impl Into<Option<&'a mut [i64]>>) -> Done {
    let ((cells, cells_len), (row, row_len)) = (lend(cells), lend(row));
    unsafe { c::z33_fresh(cells, cells_len, row, row_len) }
}

pub fn run<'a>(
    cells: impl Into<Option<&'a mut [i64]>>,
    queue: impl Into<Option<&'a mut [u8]>>,
    output: impl Into<Option<&'a mut [u8]>>,
    row: impl Into<Option<&'a mut [i64]>>,
    budget: u64,
) -> Ran {
    let ((cells, cells_len), (queue, queue_len)) = (lend(cells), lend(queue));
    let ((output, output_len), (row, row_len)) = (lend(output), lend(row));
    unsafe { c::z33_run(cells, cells_len, queue, queue_len, output, output_len, row, row_len, budget) }
}

pub fn deliver<'a>(
    queue: impl Into<Option<&'a mut [u8]>>,
    row: impl Into<Option<&'a mut [i64]>>,
    bytes: impl Into<Option<&'a [u8]>>,
) -> Done {
    let ((queue, queue_len), (row, row_len)) = (lend(queue), lend(row));
    let (bytes, bytes_len) = show(bytes);
    unsafe { c::z33_deliver(queue, queue_len, row, row_len, bytes, bytes_len) }
}

pub fn drain<'a>(
    output: impl Into<Option<&'a [u8]>>,
    row: impl Into<Option<&'a mut [i64]>>,
    buffer: impl Into<Option<&'a mut [u8]>>,
) -> Drained {
    let (output, output_len) = show(output);
    let ((row, row_len), (buffer, buffer_len)) = (lend(row), lend(buffer));
    unsafe { c::z33_drain(output, output_len, row, row_len, buffer, buffer_len) }
}

pub fn read_cell<'a>(cells: impl Into<Option<&'a [i64]>>, address: u64) -> Cell {
    let (cells, cells_len) = show(cells);
    unsafe { c::z33_read_cell(cells, cells_len, address) }
}

pub fn load<'a>(
    cells: impl Into<Option<&'a mut [i64]>>,
    image: impl Into<Option<&'a [i64]>>,
    start: u64,
) -> Done {
    let ((cells, cells_len), (image, image_len)) = (lend(cells), show(image));
    unsafe { c::z33_load(cells, cells_len, image, image_len, start) }
}

pub fn set_register<'a>(row: impl Into<Option<&'a mut [i64]>>, reg: u64, word: i64) -> Done {
    let (row, row_len) = lend(row);
    unsafe { c::z33_set_register(row, row_len, reg, word) }
}

pub fn raise<'a>(
    cells: impl Into<Option<&'a mut [i64]>>,
    row: impl Into<Option<&'a mut [i64]>>,
    code: u64,
) -> Raised {
    let ((cells, cells_len), (row, row_len)) = (lend(cells), lend(row));
    unsafe { c::z33_raise(cells, cells_len, row, row_len, code) }
}

pub fn assemble<'a>(text: impl Into<Option<&'a [u8]>>, image: impl Into<Option<&'a mut [i64]>>) -> Counted {
    let ((text, text_len), (image, image_len)) = (show(text), lend(image));
    unsafe { c::z33_assemble(text, text_len, image, image_len) }
}

pub fn list<'a>(
    image: impl Into<Option<&'a [i64]>>,
    text: impl Into<Option<&'a mut [u8]>>,
    allow_empty: u64,
) -> Counted {
    let ((image, image_len), (text, text_len)) = (show(image), lend(text));
    unsafe { c::z33_list(image, image_len, text, text_len, allow_empty) }
}

pub fn exercise<'a>(image: impl Into<Option<&'a mut [i64]>>, seed: u64) -> Counted {
    let (image, image_len) = lend(image);
    unsafe { c::z33_exercise(image, image_len, seed) }
}

pub fn bench<'a>(
    list: impl Into<Option<&'a mut [Seat]>>,
    cells: impl Into<Option<&'a mut [i64]>>,
    queues: impl Into<Option<&'a mut [u8]>>,
    outputs: impl Into<Option<&'a mut [u8]>>,
    rows: impl Into<Option<&'a mut [i64]>>,
    seats: u64,
    total: u64,
) -> Benched {
    let ((list, list_len), (cells, cells_len)) = (lend(list), lend(cells));
    let ((queues, queues_len), (outputs, outputs_len), (rows, rows_len)) =
        (lend(queues), lend(outputs), lend(rows));
    unsafe {
        c::z33_bench(
            list,
            list_len,
            cells,
            cells_len,
            queues,
            queues_len,
            outputs,
            outputs_len,
            rows,
            rows_len,
            seats,
            total,
        )
    }
}

pub fn take_over(limit: u32, used: u32, stop: u32) -> Seat {
    unsafe { c::z33_take_over(limit, used, stop) }
}

pub fn fresh_journal<'a>(
    cells: impl Into<Option<&'a mut [i64]>>,
    row: impl Into<Option<&'a mut [i64]>>,
    journal: impl Into<Option<&'a mut [i64]>>,
) -> Done {
    let ((cells, cells_len), (row, row_len), (journal, journal_len)) =
        (lend(cells), lend(row), lend(journal));
    unsafe { c::z33_fresh_journal(cells, cells_len, row, row_len, journal, journal_len) }
}

pub fn run_journal<'a>(
    cells: impl Into<Option<&'a mut [i64]>>,
    queue: impl Into<Option<&'a mut [u8]>>,
    output: impl Into<Option<&'a mut [u8]>>,
    row: impl Into<Option<&'a mut [i64]>>,
    journal: impl Into<Option<&'a mut [i64]>>,
    budget: u64,
) -> Ran {
    let ((cells, cells_len), (queue, queue_len), (output, output_len)) =
        (lend(cells), lend(queue), lend(output));
    let ((row, row_len), (journal, journal_len)) = (lend(row), lend(journal));
    unsafe {
        c::z33_run_journal(
            cells,
            cells_len,
            queue,
            queue_len,
            output,
            output_len,
            row,
            row_len,
            journal,
            journal_len,
            budget,
        )
    }
}

pub fn deliver_journal<'a>(
    queue: impl Into<Option<&'a mut [u8]>>,
    row: impl Into<Option<&'a mut [i64]>>,
    journal: impl Into<Option<&'a mut [i64]>>,
    bytes: impl Into<Option<&'a [u8]>>,
) -> Done {
    let ((queue, queue_len), (row, row_len), (journal, journal_len)) =
        (lend(queue), lend(row), lend(journal));
    let (bytes, bytes_len) = show(bytes);
    unsafe { c::z33_deliver_journal(queue, queue_len, row, row_len, journal, journal_len, bytes, bytes_len) }
}

pub fn drain_journal<'a>(
    output: impl Into<Option<&'a [u8]>>,
    row: impl Into<Option<&'a mut [i64]>>,
    journal: impl Into<Option<&'a mut [i64]>>,
    buffer: impl Into<Option<&'a mut [u8]>>,
) -> Drained {
    let (output, output_len) = show(output);
    let ((row, row_len), (journal, journal_len), (buffer, buffer_len)) =
        (lend(row), lend(journal), lend(buffer));
    unsafe {
        c::z33_drain_journal(output, output_len, row, row_len, journal, journal_len, buffer, buffer_len)
    }
}

pub fn load_journal<'a>(
    cells: impl Into<Option<&'a mut [i64]>>,
    journal: impl Into<Option<&'a mut [i64]>>,
    image: impl Into<Option<&'a [i64]>>,
    start: u64,
) -> Done {
    let ((cells, cells_len), (journal, journal_len), (image, image_len)) =
        (lend(cells), lend(journal), show(image));
    unsafe { c::z33_load_journal(cells, cells_len, journal, journal_len, image, image_len, start) }
}

pub fn set_register_journal<'a>(
    row: impl Into<Option<&'a mut [i64]>>,
    journal: impl Into<Option<&'a mut [i64]>>,
    reg: u64,
    word: i64,
) -> Done {
    let ((row, row_len), (journal, journal_len)) = (lend(row), lend(journal));
    unsafe { c::z33_set_register_journal(row, row_len, journal, journal_len, reg, word) }
}

pub fn raise_journal<'a>(
    cells: impl Into<Option<&'a mut [i64]>>,
    row: impl Into<Option<&'a mut [i64]>>,
    journal: impl Into<Option<&'a mut [i64]>>,
    code: u64,
) -> Raised {
    let ((cells, cells_len), (row, row_len), (journal, journal_len)) =
        (lend(cells), lend(row), lend(journal));
    unsafe { c::z33_raise_journal(cells, cells_len, row, row_len, journal, journal_len, code) }
}

pub fn back<'a>(
    cells: impl Into<Option<&'a mut [i64]>>,
    row: impl Into<Option<&'a mut [i64]>>,
    journal: impl Into<Option<&'a mut [i64]>>,
) -> Done {
    let ((cells, cells_len), (row, row_len), (journal, journal_len)) =
        (lend(cells), lend(row), lend(journal));
    unsafe { c::z33_back(cells, cells_len, row, row_len, journal, journal_len) }
}

/// Pointer and length of what is lent to be changed.
fn lend<'a, T: 'a>(slice: impl Into<Option<&'a mut [T]>>) -> (*mut T, usize) {
    slice.into().map_or((null_mut(), 0), |slice| (slice.as_mut_ptr(), slice.len()))
}

/// Pointer and length of what is lent to be read.
fn show<'a, T: 'a>(slice: impl Into<Option<&'a [T]>>) -> (*const T, usize) {
    slice.into().map_or((null(), 0), |slice| (slice.as_ptr(), slice.len()))
}
