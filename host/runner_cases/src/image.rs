//! An image, its old lines, its text, and what the runner prints of a run.

use layout::cell::{EMPTY, word};
use layout::runner::{BUDGET, CELLS, OUTPUT, QUEUE};
use layout::{Cell, ROW, Row, at, cell, limit, row};
use written::lister::line;

#[derive(Clone, Debug, Default)]
pub struct Image {
    pub start: [i64; 3],
    pub cells: Vec<(i64, Cell)>,
}

impl Image {
    fn start_line(&self) -> String {
        let [pc, sp, sr] = self.start;
        format!("start,{pc},{sp},{sr}\n")
    }

    /// The lines that the runner took before, and the listings tool takes for good.
    pub fn lines(&self) -> String {
        let mut text = self.start_line();
        for (address, [tag, first, second]) in &self.cells {
            text += &format!("{address},{tag},{first},{second}\n");
        }
        text
    }

    /// The cells 0 to the highest named, gaps empty.
    fn cells_named(&self) -> Vec<Cell> {
        let count = self.cells.iter().map(|(address, _)| *address as usize + 1).max().unwrap_or(0);
        let mut cells = vec![EMPTY; count];
        for (address, cell) in &self.cells {
            cells[*address as usize] = *cell;
        }
        cells
    }

    /// Whether a cell below the highest named is empty: it cannot be listed without loss.
    pub fn has_gap(&self) -> bool {
        self.cells_named().contains(&EMPTY)
    }

    /// As a listing gives it back: each of those cells a line, an empty one as word 0.
    pub fn listed(&self) -> Self {
        let full = |cell| if cell == EMPTY { word(0) } else { cell };
        Self { start: self.start, cells: (0..).zip(self.cells_named().into_iter().map(full)).collect() }
    }

    pub fn listing(&self) -> String {
        self.cells_named().into_iter().map(line).collect()
    }

    /// The runner's file.
    pub fn file(&self) -> String {
        self.start_line() + &self.listing()
    }
}

/// What a run answers: stop, detail, steps, and words taken from empty cells.
pub type Ran = [u64; 4];

/// The eight lines of a run and of the row afterwards.
pub fn eight_lines([stop, detail, steps, empty]: Ran, row: &Row) -> String {
    let [pc, sp, sr, cycles, output] =
        [at::PC, at::SP, at::SR, at::CYCLES, at::OUTPUT_COUNT].map(|place| row[place]);
    let ([a0, a1, a2], [b0, b1, b2]) = (row::cell(row, at::A), row::cell(row, at::B));
    format!(
        "stop,{stop},{detail}\nsteps,{steps}\ncycles,{cycles}\nregs,{pc},{sp},{sr}\na,{a0},{a1},{a2}\nb,{b0},{b1},{b2}\nout,{output}\nempty,{empty}\n"
    )
}

pub fn refused(refusal: u64, line: u64) -> String {
    format!("refused,{refusal},{line}\n")
}

fn row_of(image: &Image) -> Row {
    let mut row = [0; ROW];
    [row[at::PC], row[at::SP], row[at::SR]] = image.start;
    row
}

fn cells_of(image: &Image, count: usize) -> Vec<i64> {
    let mut cells = vec![0; cell::LENGTH * count];
    for (address, cell) in &image.cells {
        cell::put(&mut cells, usize::try_from(*address).expect("an address"), *cell);
    }
    cells
}

/// A program that touches no cell from 2,048 on: the judge's 10,000 cells give the same run. The original does not count the words taken
/// from empty cells.
pub fn judged(image: &Image) -> String {
    let mut judge =
        judge::Judge::new(&cells_of(image, limit::CELLS_MOST), &[0; QUEUE], &[0; OUTPUT], &row_of(image));
    let ran = judge.run(BUDGET);
    let ([stop, detail, steps, empty], row) = on_plain(image);
    let same = [stop, detail, steps] == [ran.stop, ran.detail, ran.steps] && row == *judge.row();
    assert!(same && ran.read_outside == 0, "the plain interpreter differs on\n{}", image.lines());
    eight_lines([stop, detail, steps, empty], &row)
}

/// A program that meets the end of 2,048 cells, which the original does not have: the plain interpreter answers.
pub fn at_the_edge(image: &Image) -> String {
    let (ran, row) = on_plain(image);
    eight_lines(ran, &row)
}

fn on_plain(image: &Image) -> (Ran, Row) {
    let (mut cells, mut row) = (cells_of(image, CELLS), row_of(image));
    let ran = plain::run(&mut cells, &mut [0; QUEUE], &mut [0; OUTPUT], &mut row, BUDGET);
    ([ran.stop, ran.detail, ran.steps, ran.empty], row)
}
