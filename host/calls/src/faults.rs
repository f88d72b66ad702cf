//! Faults put into accepted trials. Each names its refusal itself, so that the model is not asked alone.

use draws::rng::Rng;
use layout::code::CODES;
use layout::limit::{ADDRESS_LAST, OUTPUT_MOST, QUEUE_MOST};
use layout::limit::{RECORDS_LEAST, RECORDS_MOST};
use layout::reg::{PC, SP, SR};
use layout::row::{MARKS, RANGED, from_1};
use layout::{Cell, ROW, at, cell, journal, refusal, row};

use crate::accepted::{lengths, put};
use crate::damaged::DAMAGED;
use crate::journal::ring;
use crate::trial::{Buffer, Call, Trial};

#[derive(Clone, Copy, Debug)]
pub enum Fault {
    /// One byte more than there are free places, or more.
    TooMany(usize),
    /// A drain buffer of so many bytes, or one too few.
    Short(usize),
    RaggedImage(usize),
    ImagePastEnd(usize),
    /// A damaged cell first or last in the image.
    DamagedImage {
        last: bool,
        cell: Cell,
    },
    Outside(u64),
    Register(u64, i64),
    Code(u64),
    RowCell(usize, Cell),
    RowNumber(usize, i64),
    Damaged(usize, Cell),
    RowLength(usize),
    OutputLength(usize),
    QueueLength(usize),
    CellsLength(usize),
    JournalLength(usize),
    JournalStart(i64),
    JournalCount(i64),
    /// Of the record that is gone back to: its number of cells; a cell or number of its row; of a cell that was written, from 0, the address and
    /// what it held.
    RecordCells(i64),
    RecordRowCell(usize, Cell),
    RecordRow(usize, i64),
    RecordAddress(usize, i64),
    RecordCell(usize, Cell),
    NothingKept,
}

const CELLS_LENGTHS: [usize; 14] =
    [0, 1, 2, 3, 765, 766, 767, 769, 770, 29_999, 30_001, 30_002, 30_003, 90_000];
/// The last has the row's length in its low 16 bits.
const ROW_LENGTHS: [usize; 6] = [0, 1, ROW - 1, ROW + 1, 2 * ROW, (1 << 16) + ROW];
const NO_MARKS: [i64; 5] = [-1, 2, 256, 257, 4_294_967_297];
/// Out of every range of the row but sr's and, above 0, cycles'.
const FAR: [i64; 4] = [-1, i64::MIN, i64::MAX, 4_294_967_296];
/// 3 × the second is 2^64 - 1, 3 × the third wraps to 2.
const FAR_ADDRESSES: [u64; 7] = [
    u64::MAX,
    6_148_914_691_236_517_205,
    6_148_914_691_236_517_206,
    1 << 63,
    1 << 32,
    (1 << 32) + 5,
    1 << 20,
];
const NO_REGISTERS: [(u64, i64); 13] = [
    (SR as u64, 0),
    (SR as u64 + 1, 0),
    (256, 0),
    (1 << 32, 0),
    ((1 << 32) + 1, 0),
    (u64::MAX, 0),
    (PC as u64, -1),
    (PC as u64, ADDRESS_LAST + 1),
    (PC as u64, i64::MIN),
    (SP as u64, -1),
    (SP as u64, ADDRESS_LAST + 1),
    (SP as u64, i64::MIN),
    (SP as u64, i64::MAX),
];
const JOURNAL_LENGTHS: [usize; 12] = [
    0,
    1,
    journal::RING,
    3,
    journal::length(1) - 1,
    journal::length(1) + 1,
    journal::length(2) - 1,
    journal::length(RECORDS_MOST) - journal::RING,
    journal::length(RECORDS_MOST) + 1,
    journal::length(RECORDS_MOST + 1),
    journal::length(2 * RECORDS_MOST),
    (1 << 16) + journal::length(1),
];
const NO_CELL_COUNTS: [i64; 7] = [-1, i64::MIN, journal::WRITES_MOST as i64 + 1, 6, 256, 1 << 32, i64::MAX];
const NO_CODES: [u64; 7] = [CODES, CODES + 1, 256, 1 << 32, (1 << 32) + 5, 1 << 63, u64::MAX];

impl Fault {
    /// Number and place. Of several faults the lowest pair is due: places of one refusal are looked at in turn.
    pub fn refusal(self) -> (u64, u64) {
        match self {
            Fault::CellsLength(_) => (refusal::CELLS, 0),
            Fault::QueueLength(_) => (refusal::QUEUE, 0),
            Fault::OutputLength(_) => (refusal::OUTPUT, 0),
            Fault::RowLength(_) => (refusal::ROW, 0),
            Fault::RowCell(place, _) | Fault::RowNumber(place, _) => (refusal::ROW, from_1(place)),
            Fault::Damaged(address, _) => (refusal::DAMAGED_CELL, address as u64),
            Fault::TooMany(_) => (refusal::DELIVERY, 0),
            Fault::Short(_) => (refusal::DRAIN, 0),
            Fault::Outside(_) => (refusal::ADDRESS, 0),
            Fault::RaggedImage(_) | Fault::ImagePastEnd(_) | Fault::DamagedImage { .. } => {
                (refusal::IMAGE, 0)
            }
            Fault::Register(..) => (refusal::REGISTER, 0),
            Fault::Code(_) => (refusal::CODE, 0),
            Fault::NothingKept => (refusal::NOTHING_KEPT, 0),
            _ => (refusal::JOURNAL, 0),
        }
    }

    /// Which of the causes of 20 it is.
    pub fn cause(self) -> Option<String> {
        Some(match self {
            Fault::JournalLength(0..journal::RING) => NO_HEAD.into(),
            Fault::JournalLength(length) => match (length - journal::RING) / journal::RECORD {
                0 if length == journal::RING => NO_RECORD.into(),
                RECORDS_LEAST..=RECORDS_MOST => RAGGED.into(),
                0 => RAGGED.into(),
                _ => TOO_MANY.into(),
            },
            Fault::JournalStart(start) => if start < 0 { LOW_START } else { HIGH_START }.into(),
            Fault::JournalCount(count) => if count < 0 { LOW_COUNT } else { HIGH_COUNT }.into(),
            Fault::RecordCells(count) => if count < 0 { FEW_CELLS } else { MANY_CELLS }.into(),
            Fault::RecordRowCell(place, _) | Fault::RecordRow(place, _) => record_row(place),
            Fault::RecordAddress(i, address) => record_address(i, address),
            Fault::RecordCell(i, _) => record_cell(i),
            _ => return None,
        })
    }

    /// Whether one trial cannot deserve both: with nothing kept no record is looked at.
    pub fn clashes(self, other: Self) -> bool {
        let of_record = |fault: Self| {
            matches!(
                fault,
                Fault::RecordCells(_)
                    | Fault::RecordRowCell(..)
                    | Fault::RecordRow(..)
                    | Fault::RecordAddress(..)
                    | Fault::RecordCell(..)
            )
        };
        let none_kept = |fault| matches!(fault, Fault::NothingKept);
        (none_kept(self) && of_record(other)) || (none_kept(other) && of_record(self))
    }

    /// The refusal without the address of a damaged cell.
    pub fn class(self) -> (u64, u64) {
        match self.refusal() {
            (refusal::DAMAGED_CELL, _) => (refusal::DAMAGED_CELL, 0),
            refusal => refusal,
        }
    }

    /// What is measured by counts, lengths or the start comes before these are changed.
    fn turn(self) -> usize {
        match self {
            Fault::TooMany(_) | Fault::Short(_) | Fault::ImagePastEnd(_) | Fault::NothingKept => 0,
            Fault::RowLength(_)
            | Fault::OutputLength(_)
            | Fault::QueueLength(_)
            | Fault::CellsLength(_)
            | Fault::JournalLength(_) => 2,
            _ => 1,
        }
    }

    fn apply(self, trial: &mut Trial) {
        let lent = &mut trial.lent;
        match self {
            Fault::TooMany(more) => {
                let free = lent.queue.len() - lent.row[at::QUEUE_COUNT] as usize;
                lent.bytes.resize(free + more, 9);
            }
            Fault::Short(length) => {
                lent.row[at::OUTPUT_COUNT] = lent.row[at::OUTPUT_COUNT].max(1);
                let most = lent.row[at::OUTPUT_COUNT] as usize - 1;
                lent.bytes.resize(length.min(most), 9);
            }
            Fault::RaggedImage(more) => lent.image.resize(lent.image.len() + more, 0),
            Fault::ImagePastEnd(more) => {
                let room = lent.cells.len() - cell::LENGTH * trial.number as usize;
                lent.image.resize(room + cell::LENGTH * more, 0);
            }
            Fault::DamagedImage { last, cell } => {
                if lent.image.is_empty() {
                    lent.image.resize(cell::LENGTH, 0);
                }
                let address = if last { lent.image.len() / cell::LENGTH - 1 } else { 0 };
                cell::put(&mut lent.image, address, cell);
            }
            Fault::Outside(number) | Fault::Code(number) => trial.number = number,
            Fault::Register(reg, word) => (trial.number, trial.word) = (reg, word),
            Fault::RowCell(place, cell) => row::put_cell(&mut lent.row, place, cell),
            Fault::RowNumber(place, number) => lent.row[place] = number,
            Fault::Damaged(address, cell) => {
                put(trial, address, cell);
                if trial.call == Call::ReadCell {
                    trial.number = address as u64;
                }
            }
            Fault::RowLength(length) => lent.row.resize(length, 0),
            Fault::OutputLength(length) => lent.output.resize(length, 0),
            Fault::QueueLength(length) => lent.queue.resize(length, 0),
            Fault::CellsLength(length) => lent.cells.resize(length, 0),
            Fault::JournalLength(length) => lent.journal.resize(length, 0),
            Fault::JournalStart(start) => lent.journal[journal::START] = start,
            Fault::JournalCount(count) => lent.journal[journal::COUNT] = count,
            Fault::NothingKept => lent.journal[journal::COUNT] = 0,
            Fault::RecordCells(count) => ring::newest_mut(&mut lent.journal)[journal::CELLS] = count,
            Fault::RecordRowCell(place, cell) => {
                row::put_cell(ring::newest_mut(&mut lent.journal), place, cell)
            }
            Fault::RecordRow(place, number) => ring::newest_mut(&mut lent.journal)[place] = number,
            Fault::RecordAddress(i, address) => written(&mut lent.journal, i)[0] = address,
            Fault::RecordCell(i, cell) => written(&mut lent.journal, i)[1..].copy_from_slice(&cell),
        }
    }
}

/// The cell written as number i, from 0, in the record that is gone back to, which has so many then.
fn written(numbers: &mut [i64], i: usize) -> &mut [i64] {
    let record = ring::newest_mut(numbers);
    for unused in record[journal::CELLS] as usize..=i {
        record[journal::FIRST + journal::WRITE * unused..][..journal::WRITE].fill(0);
        record[journal::CELLS] = unused as i64 + 1;
    }
    &mut record[journal::FIRST + journal::WRITE * i..][..journal::WRITE]
}

const NO_HEAD: &str = "no start and count";
const NO_RECORD: &str = "no record";
const RAGGED: &str = "no whole number of records";
const TOO_MANY: &str = "over 4,096 records";
const LOW_START: &str = "a start below 0";
const HIGH_START: &str = "a start behind the records";
const LOW_COUNT: &str = "a count below 0";
const HIGH_COUNT: &str = "a count over the records";
const FEW_CELLS: &str = "a record of fewer than 0 cells";
const MANY_CELLS: &str = "a record of more than 4 cells";

fn record_row(place: usize) -> String {
    format!("a record whose row's number {} is out of range", from_1(place))
}

fn record_address(i: usize, address: i64) -> String {
    format!(
        "a record whose address {} is {}",
        i + 1,
        if address < 0 { "below 0" } else { "outside the cells" }
    )
}

fn record_cell(i: usize) -> String {
    format!("a record whose cell {} is damaged", i + 1)
}

/// Every cause of 20 that a call can be refused by.
pub fn causes(call: Call) -> Vec<String> {
    let mut causes = Vec::new();
    if call.is_lent(Buffer::Journal) {
        causes.extend([NO_HEAD, NO_RECORD, RAGGED, TOO_MANY].map(String::from));
    }
    if call.is_lent(Buffer::Journal) && call != Call::FreshJournal {
        causes.extend([LOW_START, HIGH_START, LOW_COUNT, HIGH_COUNT].map(String::from));
    }
    if call == Call::Back {
        causes.extend([FEW_CELLS, MANY_CELLS].map(String::from));
        causes.extend(RANGED.map(record_row));
        for i in 0..journal::WRITES_MOST {
            causes.extend([record_address(i, -1), record_address(i, 0), record_cell(i)]);
        }
    }
    causes
}

/// Puts the faults into the trial; the refusal that is due.
pub fn apply(trial: &mut Trial, faults: &[Fault]) -> (u64, u64) {
    let mut faults = faults.to_vec();
    faults.sort_by_key(|fault| fault.turn());
    faults.iter().for_each(|fault| fault.apply(trial));
    faults.iter().map(|fault| fault.refusal()).min().unwrap_or((0, 0))
}

/// Every fault that an accepted trial of this call can be given.
pub fn of(rng: &mut Rng, trial: &Trial) -> Vec<Fault> {
    let mut faults = Vec::new();
    for refusal in trial.call.refusals() {
        match refusal {
            refusal::CELLS => faults.extend(CELLS_LENGTHS.map(Fault::CellsLength)),
            refusal::QUEUE => {
                faults.extend([0, QUEUE_MOST + 1, 2 * QUEUE_MOST, 65_537].map(Fault::QueueLength))
            }
            refusal::OUTPUT => faults.extend([OUTPUT_MOST + 1, 2 * OUTPUT_MOST].map(Fault::OutputLength)),
            refusal::ROW => row_faults(trial, &mut faults),
            refusal::DAMAGED_CELL => damage(rng, trial, &mut faults),
            refusal::DELIVERY => faults.extend([1, 2, 5_000, 65_536].map(Fault::TooMany)),
            // an empty output record has nothing that a buffer is too short for
            refusal::DRAIN if trial.lent.output.is_empty() => {}
            refusal::DRAIN => faults.extend([0, usize::MAX].map(Fault::Short)),
            refusal::ADDRESS => outside(trial, &mut faults),
            refusal::IMAGE => image(&mut faults),
            refusal::REGISTER => faults.extend(NO_REGISTERS.map(|(reg, word)| Fault::Register(reg, word))),
            refusal::JOURNAL => journal_faults(trial, &mut faults),
            refusal::NOTHING_KEPT => faults.push(Fault::NothingKept),
            _ => faults.extend(NO_CODES.map(Fault::Code)),
        }
    }
    faults
}

/// Whether both can be put into one trial: a cell read has only one cell.
pub fn together(call: Call, one: (u64, u64), two: (u64, u64)) -> bool {
    !(call == Call::ReadCell && one.0 == refusal::DAMAGED_CELL && two.0 == refusal::ADDRESS)
}

fn row_faults(trial: &Trial, faults: &mut Vec<Fault>) {
    faults.extend(ROW_LENGTHS.map(Fault::RowLength));
    if trial.call.own() == Call::Fresh {
        return;
    }
    for place in [at::A, at::B] {
        faults.extend(DAMAGED.map(|cell| Fault::RowCell(place, cell)));
    }
    let numbers = row_numbers(trial, &trial.lent.row);
    faults.extend(numbers.into_iter().map(|(place, number)| Fault::RowNumber(place, number)));
}

/// Places of a row with numbers out of their range.
fn row_numbers(trial: &Trial, row: &[i64]) -> Vec<(usize, i64)> {
    let mut numbers = Vec::new();
    let (queue, output, cells) = lengths(trial, trial.length(Buffer::Cells) / cell::LENGTH);
    for place in [at::CYCLES, at::TIMER_INTERVAL, at::TIMER_REMAINING] {
        numbers.extend([-1, i64::MIN].map(|number| (place, number)));
    }
    if let Some(past) = row[at::TIMER_INTERVAL].checked_add(1) {
        numbers.extend([past, i64::MAX].map(|number| (at::TIMER_REMAINING, number)));
    }
    for place in MARKS.into_iter().chain([at::TIMER_MARK]) {
        numbers.extend(NO_MARKS.map(|number| (place, number)));
    }
    for (place, past) in [
        (at::PC, ADDRESS_LAST + 1),
        (at::SP, ADDRESS_LAST + 1),
        (at::QUEUE_START, queue),
        (at::QUEUE_COUNT, queue + 1),
        (at::OUTPUT_COUNT, output + 1),
        (at::FENCE, cells + 1),
    ] {
        numbers.push((place, past));
        numbers.extend(FAR.map(|number| (place, number)));
    }
    numbers
}

fn journal_faults(trial: &Trial, faults: &mut Vec<Fault>) {
    faults.extend(JOURNAL_LENGTHS.map(Fault::JournalLength));
    if trial.call == Call::FreshJournal {
        return;
    }
    let records = ring::records(&trial.lent.journal) as i64;
    faults.extend([records, records + 1].map(Fault::JournalStart));
    faults.push(Fault::JournalCount(records + 1));
    faults.extend(FAR.map(Fault::JournalStart));
    faults.extend(FAR.map(Fault::JournalCount));
    if trial.call == Call::Back {
        record_faults(trial, faults);
    }
}

fn record_faults(trial: &Trial, faults: &mut Vec<Fault>) {
    let row = &ring::newest(&trial.lent.journal)[..ROW];
    let numbers = row_numbers(trial, row);
    faults.extend(NO_CELL_COUNTS.map(Fault::RecordCells));
    faults.extend(numbers.into_iter().map(|(place, number)| Fault::RecordRow(place, number)));
    for place in [at::A, at::B] {
        faults.extend(DAMAGED.map(|cell| Fault::RecordRowCell(place, cell)));
    }
    let cells = (trial.length(Buffer::Cells) / cell::LENGTH) as i64;
    for i in 0..journal::WRITES_MOST {
        faults.push(Fault::RecordAddress(i, cells));
        faults.extend(FAR.map(|address| Fault::RecordAddress(i, address)));
        faults.extend(DAMAGED.map(|cell| Fault::RecordCell(i, cell)));
    }
}

/// The first cell, the last and another.
fn damage(rng: &mut Rng, trial: &Trial, faults: &mut Vec<Fault>) {
    let count = trial.length(Buffer::Cells) / cell::LENGTH;
    for cell in DAMAGED {
        faults.extend([0, count - 1, rng.below(count)].map(|address| Fault::Damaged(address, cell)));
    }
}

fn outside(trial: &Trial, faults: &mut Vec<Fault>) {
    let count = (trial.length(Buffer::Cells) / cell::LENGTH) as u64;
    faults.extend([count, count + 1].map(Fault::Outside));
    faults.extend(FAR_ADDRESSES.map(Fault::Outside));
}

fn image(faults: &mut Vec<Fault>) {
    faults.extend([1, 2].map(Fault::RaggedImage));
    faults.extend([1, 2, 10_000].map(Fault::ImagePastEnd));
    for cell in DAMAGED {
        faults.extend([false, true].map(|last| Fault::DamagedImage { last, cell }));
    }
}
