//! Lengths past 32 bits whose low 32 bits would be accepted. The memory is mapped zeros: read-only where nothing may
//! be written, so that a write is a crash.

use std::ffi::c_void;
use std::ptr::null_mut;
use std::slice;

use layout::limit::CELLS_LEAST;
use layout::{ROW, at, cell, journal};
use z33::Seat;

const PAST: usize = 1 << 32;

/// A multiple of 3 with the low 32 bits of 256 cells.
const CELLS: usize = cell::LENGTH * (PAST + CELLS_LEAST);

unsafe extern "C" {
    fn mmap(at: *mut c_void, length: usize, access: i32, kind: i32, file: i32, offset: i64) -> *mut c_void;
    fn munmap(at: *mut c_void, length: usize) -> i32;
}

const READ: i32 = 1;
const WRITE: i32 = 2;
/// Private, of no file, and no memory set aside for it.
const KIND: i32 = 0x2 | 0x20 | 0x4000;

struct Zeros {
    at: *mut c_void,
    size: usize,
}

impl Zeros {
    /// None where there is no room for so many addresses.
    fn new(size: usize, access: i32) -> Option<Self> {
        let at = unsafe { mmap(null_mut(), size, access, KIND, -1, 0) };
        (at as isize != -1).then_some(Self { at, size })
    }

    fn numbers(&mut self, length: usize) -> &mut [i64] {
        assert!(8 * length <= self.size);
        unsafe { slice::from_raw_parts_mut(self.at.cast(), length) }
    }

    fn records(&mut self, length: usize) -> &mut [Seat] {
        assert!(size_of::<Seat>() * length <= self.size);
        unsafe { slice::from_raw_parts_mut(self.at.cast(), length) }
    }

    fn bytes(&mut self, length: usize) -> &mut [u8] {
        assert!(length <= self.size);
        unsafe { slice::from_raw_parts_mut(self.at.cast(), length) }
    }
}

impl Drop for Zeros {
    fn drop(&mut self) {
        unsafe { munmap(self.at, self.size) };
    }
}

/// A line on what was looked at, or the first wrong answer.
pub fn check() -> Result<String, String> {
    let zeros = Zeros::new(8 * CELLS, READ);
    let writable = Zeros::new(PAST + 1, READ | WRITE);
    let (Some(mut zeros), Some(mut writable)) = (zeros, writable) else {
        return Ok("lengths past 32 bits: not tried, the address space is too small".into());
    };
    let mut answers = refused(&mut zeros);
    answers.extend(benches(&mut zeros));
    answers.extend(journals(&mut zeros));
    answers.push(("drain, buffer", drained(&mut writable), (0, 0)));
    let count = answers.len();
    match answers.into_iter().find(|(_, answer, due)| answer != due) {
        Some((what, answer, due)) => Err(format!("{what} past 32 bits: answered {answer:?}, due {due:?}")),
        None => Ok(format!("{count} calls with lengths past 32 bits as they are due")),
    }
}

type Looked = (&'static str, (u64, u64), (u64, u64));

fn refused(zeros: &mut Zeros) -> Vec<Looked> {
    let (mut cells, mut row) = (vec![0; cell::LENGTH * CELLS_LEAST], [0; ROW]);
    let (cells, row) = (&mut cells[..], &mut row[..]);
    let (mut queue, output) = ([0; 4], [0; 4]);
    let queue = &mut queue[..];
    let done = |answer: z33::Done| (answer.refusal, answer.place);
    let ran = |answer: z33::Ran| (answer.refusal, answer.place);
    let drained = |answer: z33::Drained| (answer.refusal, answer.place);
    let raised = |answer: z33::Raised| (answer.refusal, answer.place);
    let counted = |answer: z33::Counted| (answer.refusal, answer.place);
    let read = z33::read_cell(&*zeros.numbers(CELLS), 0);
    vec![
        ("fresh, cells", done(z33::fresh(zeros.numbers(CELLS), &mut *row)), (1, 0)),
        ("fresh, row", done(z33::fresh(&mut *cells, zeros.numbers(PAST + ROW))), (4, 0)),
        ("run, cells", ran(z33::run(zeros.numbers(CELLS), &mut *queue, None, &mut *row, 1)), (1, 0)),
        ("run, queue", ran(z33::run(&mut *cells, zeros.bytes(PAST + 4), None, &mut *row, 1)), (2, 0)),
        ("run, output", ran(z33::run(&mut *cells, &mut *queue, zeros.bytes(PAST + 4), &mut *row, 1)), (3, 0)),
        ("run, row", ran(z33::run(&mut *cells, &mut *queue, None, zeros.numbers(PAST + ROW), 1)), (4, 0)),
        ("deliver, queue", done(z33::deliver(zeros.bytes(PAST + 4), &mut *row, None)), (2, 0)),
        ("deliver, row", done(z33::deliver(&mut *queue, zeros.numbers(PAST + ROW), None)), (4, 0)),
        ("deliver, bytes", done(z33::deliver(&mut *queue, &mut *row, &*zeros.bytes(PAST))), (6, 0)),
        ("drain, output", drained(z33::drain(&*zeros.bytes(PAST + 4), &mut *row, None)), (3, 0)),
        ("drain, row", drained(z33::drain(&output[..], zeros.numbers(PAST + ROW), None)), (4, 0)),
        ("read, cells", (read.refusal, read.place), (1, 0)),
        ("load, cells", done(z33::load(zeros.numbers(CELLS), None, 0)), (1, 0)),
        ("load, image", done(z33::load(&mut *cells, &*zeros.numbers(cell::LENGTH * PAST), 0)), (9, 0)),
        ("set register, row", done(z33::set_register(zeros.numbers(PAST + ROW), 0, 0)), (4, 0)),
        ("raise, cells", raised(z33::raise(zeros.numbers(CELLS), &mut *row, 0)), (1, 0)),
        ("raise, row", raised(z33::raise(&mut *cells, zeros.numbers(PAST + ROW), 0)), (4, 0)),
        // 2^32 is no multiple of 3: only the length's low 32 bits would be whole cells
        ("exercise, image", counted(z33::exercise(zeros.numbers(PAST + cell::LENGTH), 0)), (9, 0)),
    ]
}

/// A bench of one seat, for which every length is divisible.
fn benches(zeros: &mut Zeros) -> Vec<Looked> {
    let (mut cells, mut row) = (vec![0; cell::LENGTH * CELLS_LEAST], [0; ROW]);
    let (cells, row) = (&mut cells[..], &mut row[..]);
    let (mut queue, mut list) = ([0; 4], [Seat::default()]);
    let (queue, list) = (&mut queue[..], &mut list[..]);
    let benched = |answer: z33::Benched| (answer.refusal, answer.place);
    let one = |list: &mut [Seat], cells: &mut [i64], queue: &mut [u8], output: &mut [u8], row: &mut [i64]| {
        benched(z33::bench(list, cells, queue, output, row, 1, 1))
    };
    vec![
        ("bench, list", one(zeros.records(PAST + 1), cells, queue, &mut [], row), (19, 0)),
        ("bench, cells", one(list, zeros.numbers(CELLS), queue, &mut [], row), (1, 0)),
        ("bench, queues", one(list, cells, zeros.bytes(PAST + 4), &mut [], row), (2, 0)),
        ("bench, outputs", one(list, cells, queue, zeros.bytes(PAST + 4), row), (3, 0)),
        ("bench, rows", one(list, cells, queue, &mut [], zeros.numbers(PAST + ROW)), (4, 0)),
    ]
}

/// A journal whose length's low 32 bits are those of one record; and of one that is, the other lengths.
fn journals(zeros: &mut Zeros) -> Vec<Looked> {
    const ONE: usize = journal::length(1);
    let (mut cells, mut row, mut kept) = (vec![0; cell::LENGTH * CELLS_LEAST], [0; ROW], [0; ONE]);
    let (cells, row, kept) = (&mut cells[..], &mut row[..], &mut kept[..]);
    let (mut queue, output) = ([0; 4], [0; 4]);
    let queue = &mut queue[..];
    let done = |answer: z33::Done| (answer.refusal, answer.place);
    let ran = |answer: z33::Ran| (answer.refusal, answer.place);
    let mut looked = vec![
        (
            "fresh, journal",
            done(z33::fresh_journal(&mut *cells, &mut *row, zeros.numbers(PAST + ONE))),
            (20, 0),
        ),
        (
            "run, journal",
            ran(z33::run_journal(&mut *cells, &mut *queue, None, &mut *row, zeros.numbers(PAST + ONE), 1)),
            (20, 0),
        ),
        (
            "deliver, journal",
            done(z33::deliver_journal(&mut *queue, &mut *row, zeros.numbers(PAST + ONE), None)),
            (20, 0),
        ),
        ("load, journal", done(z33::load_journal(&mut *cells, zeros.numbers(PAST + ONE), None, 0)), (20, 0)),
        (
            "set register, journal",
            done(z33::set_register_journal(&mut *row, zeros.numbers(PAST + ONE), 0, 0)),
            (20, 0),
        ),
        ("back, journal", done(z33::back(&mut *cells, &mut *row, zeros.numbers(PAST + ONE))), (20, 0)),
    ];
    let drained = z33::drain_journal(&output[..], &mut *row, zeros.numbers(PAST + ONE), None);
    looked.push(("drain, journal", (drained.refusal, drained.place), (20, 0)));
    let raised = z33::raise_journal(&mut *cells, &mut *row, zeros.numbers(PAST + ONE), 0);
    looked.push(("raise, journal", (raised.refusal, raised.place), (20, 0)));
    looked.extend([
        ("back, cells", done(z33::back(zeros.numbers(CELLS), &mut *row, &mut *kept)), (1, 0)),
        ("back, row", done(z33::back(&mut *cells, zeros.numbers(PAST + ROW), &mut *kept)), (4, 0)),
    ]);
    looked
}

/// A drain buffer may be as long as it likes.
fn drained(zeros: &mut Zeros) -> (u64, u64) {
    let mut row = [0; ROW];
    row[at::OUTPUT_COUNT] = 2;
    let answer = z33::drain(&[7, 8, 9][..], &mut row[..], zeros.bytes(PAST + 1));
    let done = answer.count == 2 && row == [0; ROW] && zeros.bytes(4) == [7, 8, 0, 0];
    if done { (answer.refusal, answer.place) } else { (u64::MAX, 0) }
}
