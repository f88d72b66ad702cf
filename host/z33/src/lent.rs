//! The calls over buffers that the caller owns: slices, or anything that lends one, as `&mut Vec` does.
//!
//! Cells are three numbers each (tag, first, second). The row is 20 numbers: a and b (three each), pc, sp, sr, cycles, the console's
//! enable, flag and pending, queue start, queue count, output count, the fence, and the timer's interval, remaining and mark. A journal is
//! start, count and 1 to 4,096 records of 37 numbers; [`Journal`](crate::Journal) owns one. Any length and content is answered.
//!
//! ```
//! let (mut cells, mut row) = (vec![0; 3 * 256], vec![0; z33::ROW_LENGTH]);
//! z33::lent::load(&mut cells, &[20702, 0, 0], 0)?;
//! let ran = z33::lent::run(&mut cells, &mut [0; 1], &mut [], &mut row, 10)?;
//! assert_eq!(ran.stop, z33::Stop::Reset);
//! # Ok::<(), z33::Refusal>(())
//! ```

use layout::stop;

use crate::{Cell, Exception, Ran, Refusal, Register, Seat, SeatRefusal, Stop};

/// Makes all cells empty and the row 0, whatever they held.
pub fn fresh(cells: &mut [i64], row: &mut [i64]) -> Result<(), Refusal> {
    let done = unsafe { z33_sys::z33_fresh(cells.as_mut_ptr(), cells.len(), row.as_mut_ptr(), row.len()) };
    Refusal::check(done.refusal, done.place)
}

/// Takes steps until one does not complete, or `budget` of them have; tells also how many words they took from empty cells.
pub fn run(
    cells: &mut [i64],
    queue: &mut [u8],
    output: &mut [u8],
    row: &mut [i64],
    budget: u64,
) -> Result<Ran, Refusal> {
    let ran = unsafe {
        z33_sys::z33_run(
            cells.as_mut_ptr(),
            cells.len(),
            queue.as_mut_ptr(),
            queue.len(),
            output.as_mut_ptr(),
            output.len(),
            row.as_mut_ptr(),
            row.len(),
            budget,
        )
    };
    Refusal::check(ran.refusal, ran.place)?;
    Ok(Ran { stop: Stop::of(ran.stop, ran.detail), steps: ran.steps, empty: ran.empty })
}

/// Puts bytes behind the unread ones in the queue.
pub fn deliver(queue: &mut [u8], row: &mut [i64], bytes: &[u8]) -> Result<(), Refusal> {
    let (row, row_len) = (row.as_mut_ptr(), row.len());
    let done = unsafe {
        z33_sys::z33_deliver(queue.as_mut_ptr(), queue.len(), row, row_len, bytes.as_ptr(), bytes.len())
    };
    Refusal::check(done.refusal, done.place)
}

/// Copies the bytes written so far to the front of the buffer, sets their count to 0, and answers it.
pub fn drain(output: &[u8], row: &mut [i64], buffer: &mut [u8]) -> Result<usize, Refusal> {
    let (row, row_len) = (row.as_mut_ptr(), row.len());
    let drained = unsafe {
        z33_sys::z33_drain(output.as_ptr(), output.len(), row, row_len, buffer.as_mut_ptr(), buffer.len())
    };
    Refusal::check(drained.refusal, drained.place)?;
    Ok(drained.count as usize)
}

/// The cell at an address.
pub fn read_cell(cells: &[i64], address: u64) -> Result<Cell, Refusal> {
    let cell = unsafe { z33_sys::z33_read_cell(cells.as_ptr(), cells.len(), address) };
    Refusal::check(cell.refusal, cell.place)?;
    Ok(Cell::from_numbers([cell.tag, cell.first, cell.second]))
}

/// Copies an image of whole cells, three numbers each, over the cells from `start` on.
pub fn load(cells: &mut [i64], image: &[i64], start: u64) -> Result<(), Refusal> {
    let done =
        unsafe { z33_sys::z33_load(cells.as_mut_ptr(), cells.len(), image.as_ptr(), image.len(), start) };
    Refusal::check(done.refusal, done.place)
}

/// Makes cells of a program written as text, one a line, at the front of the image, and tells how many those were.
pub fn assemble(text: &[u8], image: &mut [i64]) -> Result<u64, Refusal> {
    let counted =
        unsafe { z33_sys::z33_assemble(text.as_ptr(), text.len(), image.as_mut_ptr(), image.len()) };
    Refusal::check(counted.refusal, counted.place)?;
    Ok(counted.count)
}

/// Writes an image as text that [`assemble`] takes, one line a cell, at the front of the buffer, and tells how many bytes those were. An empty
/// cell is written `.word 0`, which reads back as word 0: only where that loss is allowed.
pub fn list(image: &[i64], text: &mut [u8], allow_empty: bool) -> Result<usize, Refusal> {
    let (text, text_len) = (text.as_mut_ptr(), text.len());
    let counted =
        unsafe { z33_sys::z33_list(image.as_ptr(), image.len(), text, text_len, allow_empty.into()) };
    Refusal::check(counted.refusal, counted.place)?;
    Ok(counted.count as usize)
}

/// Fills an image with sound instructions drawn from a seed, and tells how many cells that were.
pub fn exercise(image: &mut [i64], seed: u64) -> Result<u64, Refusal> {
    let counted = unsafe { z33_sys::z33_exercise(image.as_mut_ptr(), image.len(), seed) };
    Refusal::check(counted.refusal, counted.place)?;
    Ok(counted.count)
}

/// Sets a, b, pc or sp to a word. sr is refused: whoever boots a machine writes it into the row, at place 8 from 0.
pub fn set_register(row: &mut [i64], register: Register, word: i64) -> Result<(), Refusal> {
    let done = unsafe { z33_sys::z33_set_register(row.as_mut_ptr(), row.len(), register.number(), word) };
    Refusal::check(done.refusal, done.place)
}

/// Enters an exception, for one cycle: `None`; or stops without a handler or with a full cycle count, and then nothing has changed.
pub fn raise(cells: &mut [i64], row: &mut [i64], exception: Exception) -> Result<Option<Stop>, Refusal> {
    let (row, row_len) = (row.as_mut_ptr(), row.len());
    let raised =
        unsafe { z33_sys::z33_raise(cells.as_mut_ptr(), cells.len(), row, row_len, exception.code()) };
    Refusal::check(raised.refusal, raised.place)?;
    Ok(match raised.stop {
        stop::ENTERED => None,
        stop => Some(Stop::of(stop, raised.detail)),
    })
}

/// Takes the turns of a bench under one step total and tells what is left of it. Each buffer holds the parts of all seats, equally long, seat 1
/// first; [`Bench`](crate::Bench) owns them.
pub fn bench(
    list: &mut [Seat],
    cells: &mut [i64],
    queues: &mut [u8],
    outputs: &mut [u8],
    rows: &mut [i64],
    seats: u64,
    total: u64,
) -> Result<u64, SeatRefusal> {
    let benched = unsafe {
        z33_sys::z33_bench(
            list.as_mut_ptr().cast(),
            list.len(),
            cells.as_mut_ptr(),
            cells.len(),
            queues.as_mut_ptr(),
            queues.len(),
            outputs.as_mut_ptr(),
            outputs.len(),
            rows.as_mut_ptr(),
            rows.len(),
            seats,
            total,
        )
    };
    match Refusal::check(benched.refusal, benched.place) {
        Ok(()) => Ok(benched.left),
        Err(refusal) => Err(SeatRefusal { refusal, seat: benched.seat }),
    }
}

/// [`fresh`], and the journal is one with nothing kept, whatever it held.
pub fn fresh_journal(cells: &mut [i64], row: &mut [i64], journal: &mut [i64]) -> Result<(), Refusal> {
    let ((row, row_len), (journal, journal_len)) = (of(row), of(journal));
    let done = unsafe {
        z33_sys::z33_fresh_journal(cells.as_mut_ptr(), cells.len(), row, row_len, journal, journal_len)
    };
    Refusal::check(done.refusal, done.place)
}

/// [`run`], and the journal keeps each step that is begun: one that stops too, unless by a full output record or cycle count.
pub fn run_journal(
    cells: &mut [i64],
    queue: &mut [u8],
    output: &mut [u8],
    row: &mut [i64],
    journal: &mut [i64],
    budget: u64,
) -> Result<Ran, Refusal> {
    let ran = unsafe {
        z33_sys::z33_run_journal(
            cells.as_mut_ptr(),
            cells.len(),
            queue.as_mut_ptr(),
            queue.len(),
            output.as_mut_ptr(),
            output.len(),
            row.as_mut_ptr(),
            row.len(),
            journal.as_mut_ptr(),
            journal.len(),
            budget,
        )
    };
    Refusal::check(ran.refusal, ran.place)?;
    Ok(Ran { stop: Stop::of(ran.stop, ran.detail), steps: ran.steps, empty: ran.empty })
}

/// [`deliver`], and the journal is emptied.
pub fn deliver_journal(
    queue: &mut [u8],
    row: &mut [i64],
    journal: &mut [i64],
    bytes: &[u8],
) -> Result<(), Refusal> {
    let ((queue, queue_len), (row, row_len), (journal, journal_len)) = (of(queue), of(row), of(journal));
    let done = unsafe {
        z33_sys::z33_deliver_journal(
            queue,
            queue_len,
            row,
            row_len,
            journal,
            journal_len,
            bytes.as_ptr(),
            bytes.len(),
        )
    };
    Refusal::check(done.refusal, done.place)
}

/// [`drain`], and the journal is emptied.
pub fn drain_journal(
    output: &[u8],
    row: &mut [i64],
    journal: &mut [i64],
    buffer: &mut [u8],
) -> Result<usize, Refusal> {
    let ((row, row_len), (journal, journal_len), (buffer, buffer_len)) = (of(row), of(journal), of(buffer));
    let drained = unsafe {
        z33_sys::z33_drain_journal(
            output.as_ptr(),
            output.len(),
            row,
            row_len,
            journal,
            journal_len,
            buffer,
            buffer_len,
        )
    };
    Refusal::check(drained.refusal, drained.place)?;
    Ok(drained.count as usize)
}

/// [`load`], and the journal is emptied.
pub fn load_journal(
    cells: &mut [i64],
    journal: &mut [i64],
    image: &[i64],
    start: u64,
) -> Result<(), Refusal> {
    let ((cells, cells_len), (journal, journal_len)) = (of(cells), of(journal));
    let done = unsafe {
        z33_sys::z33_load_journal(cells, cells_len, journal, journal_len, image.as_ptr(), image.len(), start)
    };
    Refusal::check(done.refusal, done.place)
}

/// [`set_register`], and the journal is emptied. Whoever writes sr into the row empties it too: its count, at place 1 from 0, becomes 0.
pub fn set_register_journal(
    row: &mut [i64],
    journal: &mut [i64],
    register: Register,
    word: i64,
) -> Result<(), Refusal> {
    let ((row, row_len), (journal, journal_len)) = (of(row), of(journal));
    let done = unsafe {
        z33_sys::z33_set_register_journal(row, row_len, journal, journal_len, register.number(), word)
    };
    Refusal::check(done.refusal, done.place)
}

/// [`raise`], and the journal is emptied, where it stops too.
pub fn raise_journal(
    cells: &mut [i64],
    row: &mut [i64],
    journal: &mut [i64],
    exception: Exception,
) -> Result<Option<Stop>, Refusal> {
    let ((cells, cells_len), (row, row_len), (journal, journal_len)) = (of(cells), of(row), of(journal));
    let raised = unsafe {
        z33_sys::z33_raise_journal(cells, cells_len, row, row_len, journal, journal_len, exception.code())
    };
    Refusal::check(raised.refusal, raised.place)?;
    Ok(match raised.stop {
        stop::ENTERED => None,
        stop => Some(Stop::of(stop, raised.detail)),
    })
}

/// Goes back over the newest record: cells and row are as they were before its step, and the journal's count is one less.
pub fn back(cells: &mut [i64], row: &mut [i64], journal: &mut [i64]) -> Result<(), Refusal> {
    let ((cells, cells_len), (row, row_len), (journal, journal_len)) = (of(cells), of(row), of(journal));
    let done = unsafe { z33_sys::z33_back(cells, cells_len, row, row_len, journal, journal_len) };
    Refusal::check(done.refusal, done.place)
}

/// Pointer and length.
fn of<T>(slice: &mut [T]) -> (*mut T, usize) {
    (slice.as_mut_ptr(), slice.len())
}
