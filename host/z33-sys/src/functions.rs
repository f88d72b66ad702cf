//! The functions of include/z33.h, in its order. Each buffer is a pointer and a count of elements, and the pointer may be null where the
//! count is 0; buffers of one call do not overlap.

use crate::answers::{
    z33_benched, z33_cell, z33_counted, z33_done, z33_drained, z33_raised, z33_ran, z33_seat,
};

unsafe extern "C" {
    /// Makes all cells empty and the row 0, whatever they held.
    pub fn z33_fresh(cells: *mut i64, cells_len: usize, row: *mut i64, row_len: usize) -> z33_done;

    /// Takes steps until one does not complete, or `budget` of them have.
    pub fn z33_run(
        cells: *mut i64,
        cells_len: usize,
        queue: *mut u8,
        queue_len: usize,
        output: *mut u8,
        output_len: usize,
        row: *mut i64,
        row_len: usize,
        budget: u64,
    ) -> z33_ran;

    /// Puts bytes behind the unread ones in the queue.
    pub fn z33_deliver(
        queue: *mut u8,
        queue_len: usize,
        row: *mut i64,
        row_len: usize,
        bytes: *const u8,
        bytes_len: usize,
    ) -> z33_done;

    /// Copies the bytes written so far to the front of the buffer and sets their count to 0.
    pub fn z33_drain(
        output: *const u8,
        output_len: usize,
        row: *mut i64,
        row_len: usize,
        buffer: *mut u8,
        buffer_len: usize,
    ) -> z33_drained;

    /// The cell at an address.
    pub fn z33_read_cell(cells: *const i64, cells_len: usize, address: u64) -> z33_cell;

    /// Copies an image of whole cells over the cells from `start` on.
    pub fn z33_load(
        cells: *mut i64,
        cells_len: usize,
        image: *const i64,
        image_len: usize,
        start: u64,
    ) -> z33_done;

    /// Sets a (0), b (1), pc (2) or sp (3) to a word.
    pub fn z33_set_register(row: *mut i64, row_len: usize, reg: u64, word: i64) -> z33_done;

    /// Enters the exception of a code 0 to 5, for one cycle; or stop 2 or 7, and then nothing has changed.
    pub fn z33_raise(
        cells: *mut i64,
        cells_len: usize,
        row: *mut i64,
        row_len: usize,
        code: u64,
    ) -> z33_raised;

    /// Makes cells of a program written as text, one a line, at the front of the image.
    pub fn z33_assemble(text: *const u8, text_len: usize, image: *mut i64, image_len: usize) -> z33_counted;

    /// Writes an image as text, one line a cell, into the front of the buffer; an empty cell only where `allow_empty` is not 0.
    pub fn z33_list(
        image: *const i64,
        image_len: usize,
        text: *mut u8,
        text_len: usize,
        allow_empty: u64,
    ) -> z33_counted;

    /// Fills an image with sound instructions drawn from a seed.
    pub fn z33_exercise(image: *mut i64, image_len: usize, seed: u64) -> z33_counted;

    /// Takes the turns of up to sixteen seats under one step total.
    pub fn z33_bench(
        list: *mut z33_seat,
        list_len: usize,
        cells: *mut i64,
        cells_len: usize,
        queues: *mut u8,
        queues_len: usize,
        outputs: *mut u8,
        outputs_len: usize,
        rows: *mut i64,
        rows_len: usize,
        seats: u64,
        total: u64,
    ) -> z33_benched;

    /// The record of one that was stored in 32 bits.
    pub fn z33_take_over(limit: u32, used: u32, stop: u32) -> z33_seat;

    /// As `z33_fresh`; the journal keeps nothing, and its start is 0.
    pub fn z33_fresh_journal(
        cells: *mut i64,
        cells_len: usize,
        row: *mut i64,
        row_len: usize,
        journal: *mut i64,
        journal_len: usize,
    ) -> z33_done;

    /// As `z33_run`; the journal keeps a record of each step that is begun.
    pub fn z33_run_journal(
        cells: *mut i64,
        cells_len: usize,
        queue: *mut u8,
        queue_len: usize,
        output: *mut u8,
        output_len: usize,
        row: *mut i64,
        row_len: usize,
        journal: *mut i64,
        journal_len: usize,
        budget: u64,
    ) -> z33_ran;

    /// As `z33_deliver`; the journal keeps nothing.
    pub fn z33_deliver_journal(
        queue: *mut u8,
        queue_len: usize,
        row: *mut i64,
        row_len: usize,
        journal: *mut i64,
        journal_len: usize,
        bytes: *const u8,
        bytes_len: usize,
    ) -> z33_done;

    /// As `z33_drain`; the journal keeps nothing.
    pub fn z33_drain_journal(
        output: *const u8,
        output_len: usize,
        row: *mut i64,
        row_len: usize,
        journal: *mut i64,
        journal_len: usize,
        buffer: *mut u8,
        buffer_len: usize,
    ) -> z33_drained;

    /// As `z33_load`; the journal keeps nothing.
    pub fn z33_load_journal(
        cells: *mut i64,
        cells_len: usize,
        journal: *mut i64,
        journal_len: usize,
        image: *const i64,
        image_len: usize,
        start: u64,
    ) -> z33_done;

    /// As `z33_set_register`; the journal keeps nothing.
    pub fn z33_set_register_journal(
        row: *mut i64,
        row_len: usize,
        journal: *mut i64,
        journal_len: usize,
        reg: u64,
        word: i64,
    ) -> z33_done;

    /// As `z33_raise`; the journal keeps nothing, where it stops too.
    pub fn z33_raise_journal(
        cells: *mut i64,
        cells_len: usize,
        row: *mut i64,
        row_len: usize,
        journal: *mut i64,
        journal_len: usize,
        code: u64,
    ) -> z33_raised;

    /// Goes back over the journal's newest record.
    pub fn z33_back(
        cells: *mut i64,
        cells_len: usize,
        row: *mut i64,
        row_len: usize,
        journal: *mut i64,
        journal_len: usize,
    ) -> z33_done;
}
