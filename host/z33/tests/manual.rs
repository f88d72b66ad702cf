//! docs/MANUAL.md's tables of the modes, the kinds of operand and the instructions, held to the library: every form, register and kind of
//! number that load takes or refuses, and the flags, cycles, exceptions and stops that are met when each instruction is run, no more and no
//! less.

use std::collections::{BTreeMap, BTreeSet};

use layout::{at, row};
use z33::{Cell, Exception, NEGATIVE, OVERFLOW, ROW_LENGTH, SUPERVISOR, Stop, ZERO, lent};

const CELLS: usize = 256;
/// Where the instruction that is tried stands. No exception has a handler, so a step that completes has entered none.
const HERE: usize = 40;
const HANDLER: usize = 200;
const NOP: [i64; 3] = [15302, 0, 0];
const SR: u64 = 4;

// ---- what the manual says

/// The rows of the table whose header begins with these columns, without the header, as trimmed cells.
fn table(header: &str) -> Vec<Vec<String>> {
    let text = std::fs::read_to_string(concat!(env!("CARGO_MANIFEST_DIR"), "/../../docs/MANUAL.md")).unwrap();
    let rows = text.lines().skip_while(|line| !line.starts_with(header)).skip(2);
    let rows: Vec<_> = rows
        .take_while(|line| line.starts_with('|'))
        .map(|line| line.trim_matches('|').split('|').map(|cell| cell.trim().replace('`', "")).collect())
        .collect();
    assert!(!rows.is_empty(), "the manual has no table that begins with {header}");
    rows
}

/// A mode: has it a register, what may its number be, and the cycles that it adds.
struct Mode {
    register: bool,
    number: String,
    cycles: u64,
}

fn modes() -> Vec<Mode> {
    let rows = table("| mode | name |");
    assert_eq!(rows.len(), 6);
    let mode = |(n, row): (usize, &Vec<String>)| {
        assert_eq!(row[0], n.to_string());
        Mode { register: row[3] == "0 to 4", number: row[4].clone(), cycles: row[5].parse().unwrap() }
    };
    rows.iter().enumerate().map(mode).collect()
}

impl Mode {
    fn takes(&self, register: u64, number: i64) -> bool {
        let number_fits = match self.number.as_str() {
            "0" => number == 0,
            "an address" => (0..=u32::MAX.into()).contains(&number),
            "any word" => true,
            other => panic!("the manual's number of a mode is {other}"),
        };
        (register == 0 || self.register) && number_fits
    }
}

/// An instruction's row.
struct Instruction {
    name: String,
    first: BTreeSet<usize>,
    second: BTreeSet<usize>,
    flags: String,
    cycles: BTreeSet<u64>,
    raises: BTreeSet<u64>,
    stops: BTreeSet<u64>,
}

fn numbers<T: Ord + std::str::FromStr>(text: &str) -> BTreeSet<T> {
    text.split_whitespace().filter_map(|word| word.parse().ok()).collect()
}

fn instructions() -> Vec<Instruction> {
    let kinds: BTreeMap<String, BTreeSet<usize>> =
        table("| operand | modes |").iter().map(|row| (row[0].clone(), numbers(&row[1]))).collect();
    let modes_of = |kind: Option<&str>| kind.map_or([0].into(), |kind| kinds[kind].clone());
    let instruction = |(op, row): (usize, &Vec<String>)| {
        assert_eq!(row[0], op.to_string());
        let (name, operands) = row[1].split_once(' ').unwrap_or((&row[1], ""));
        let mut kinds = operands.split(',').filter(|kind| !kind.is_empty());
        Instruction {
            name: name.to_string(),
            first: modes_of(kinds.next()),
            second: modes_of(kinds.next()),
            flags: row[3].clone(),
            cycles: numbers(&row[4]),
            raises: numbers(&row[5]),
            stops: numbers(&row[6]),
        }
    };
    let rows = table("| op | instruction |");
    assert_eq!(rows.len(), 33);
    rows.iter().enumerate().map(instruction).collect()
}

// ---- what the library does

/// The tag's formula, as the manual and document 01 have it.
fn tag(op: usize, m1: usize, m2: usize, r1: u64, r2: u64) -> i64 {
    2 + ((op * 36 + m1 * 6 + m2) as i64 * 25 + (r1 * 5 + r2) as i64)
}

fn is_loaded(cell: [i64; 3]) -> bool {
    lent::load(&mut [0; 3 * CELLS], &cell, 0).is_ok()
}

const EDGES: [i64; 14] =
    [0, 1, 5, 63, 64, 110, 111, 255, 256, u32::MAX as i64, u32::MAX as i64 + 1, -1, i64::MIN, i64::MAX];

/// Numbers without pattern, the same in every run.
struct Draws(u64);

impl Draws {
    fn below(&mut self, n: usize) -> usize {
        self.0 = self.0.wrapping_mul(6364136223846793005).wrapping_add(1442695040888963407);
        (self.0 >> 33) as usize % n
    }

    fn edge(&mut self) -> i64 {
        EDGES[self.below(EDGES.len())]
    }

    fn cell(&mut self) -> [i64; 3] {
        match self.below(8) {
            0 => Cell::Empty.numbers(),
            1 => NOP,
            _ => Cell::Word(self.edge()).numbers(),
        }
    }

    /// A number that the mode takes.
    fn number(&mut self, mode: &Mode) -> i64 {
        loop {
            let number = self.edge();
            if mode.takes(0, number) {
                return number;
            }
        }
    }
}

/// What was met of an instruction.
#[derive(Default)]
struct Met {
    cycles: BTreeSet<u64>,
    raises: BTreeSet<u64>,
    stops: BTreeSet<u64>,
    set: i64,
    cleared: i64,
    /// Bits of sr that changed though sr was no operand.
    changed: i64,
}

/// A machine drawn around one instruction, and one step of it.
fn try_once(draws: &mut Draws, cell: [i64; 3], registers: [u64; 2], due: u64, met: &mut Met) {
    let mut cells: Vec<i64> = (0..CELLS).flat_map(|_| draws.cell()).collect();
    cells[3 * HERE..3 * HERE + 3].copy_from_slice(&cell);
    cells[3 * HANDLER..3 * HANDLER + 3].fill(0);
    let [a, b] = [draws.cell(), draws.cell()];
    let sp = [0, 5, 255, 256, u32::MAX as i64][draws.below(5)];
    let flags = (draws.below(8) as i64) << 1;
    let sr = if draws.below(3) == 0 { flags } else { flags | SUPERVISOR };
    let mut row = [0; ROW_LENGTH];
    row::put_cell(&mut row, at::A, a);
    row::put_cell(&mut row, at::B, b);
    [row[at::PC], row[at::SP], row[at::SR]] = [HERE as i64, sp, sr];
    let mut output = vec![0; draws.below(2)];
    let ran = lent::run(&mut cells, &mut [0; 1], &mut output, &mut row, 1).unwrap();
    if ran.steps == 0 {
        match ran.stop {
            Stop::NoHandler(exception) => met.raises.insert(exception.code()),
            stop => met.stops.insert(stop.number()),
        };
        return;
    }
    assert_eq!(row[at::CYCLES] as u64, due, "cycles of {cell:?}");
    met.cycles.insert(due);
    if !registers.contains(&SR) {
        met.set |= !sr & row[at::SR];
        met.cleared |= sr & !row[at::SR];
        met.changed |= sr ^ row[at::SR];
    }
}

// ---- the comparisons

#[test]
fn forms_registers_and_numbers_are_those_of_the_manual() {
    let (modes, instructions) = (modes(), instructions());
    let mut legal = 0;
    for op in 0..40 {
        for (m1, m2) in (0..6).flat_map(|m1| (0..6).map(move |m2| (m1, m2))) {
            let is_legal =
                instructions.get(op).is_some_and(|of| of.first.contains(&m1) && of.second.contains(&m2));
            assert_eq!(is_loaded([tag(op, m1, m2, 0, 0), 0, 0]), is_legal, "op {op}, modes {m1} and {m2}");
            if !is_legal {
                continue;
            }
            legal += 1;
            for (r1, r2) in (0..5).flat_map(|r1| (0..5).map(move |r2| (r1, r2))) {
                for (first, second) in EDGES.iter().flat_map(|&f| EDGES.map(|s| (f, s))) {
                    let due = modes[m1].takes(r1, first) && modes[m2].takes(r2, second);
                    let cell = [tag(op, m1, m2, r1, r2), first, second];
                    assert_eq!(is_loaded(cell), due, "op {op}, modes {m1} and {m2}, cell {cell:?}");
                }
            }
        }
    }
    assert_eq!(legal, 124);
}

#[test]
fn flags_cycles_exceptions_and_stops_are_those_of_the_manual() {
    let (modes, mut draws) = (modes(), Draws(1));
    let mut wrong = Vec::new();
    for (op, of) in instructions().iter().enumerate() {
        let mut met = Met::default();
        for (&m1, &m2) in of.first.iter().flat_map(|m1| of.second.iter().map(move |m2| (m1, m2))) {
            let due = 1 + modes[m1].cycles + modes[m2].cycles;
            for (r1, r2) in (0..5).flat_map(|r1| (0..5).map(move |r2| (r1, r2))) {
                if !modes[m1].takes(r1, 0) || !modes[m2].takes(r2, 0) {
                    continue;
                }
                for _ in 0..100 {
                    let (first, second) = (draws.number(&modes[m1]), draws.number(&modes[m2]));
                    try_once(&mut draws, [tag(op, m1, m2, r1, r2), first, second], [r1, r2], due, &mut met);
                }
            }
        }
        let says = (&of.cycles, &of.raises, &of.stops);
        let is = (&met.cycles, &met.raises, &met.stops);
        if says != is {
            wrong.push(format!(
                "{}: cycles, raises and stops are {is:?}, and the manual says {says:?}",
                of.name
            ));
        }
        let bits: i64 = [("Z", ZERO), ("N", NEGATIVE), ("V", OVERFLOW)]
            .iter()
            .filter(|(name, _)| of.flags.contains(name))
            .map(|(_, bit)| bit)
            .sum();
        let flags_are = if of.flags == "all of sr" {
            met.changed & !(ZERO | NEGATIVE | OVERFLOW) != 0
        } else {
            met.changed == bits && met.set == bits && met.cleared == bits
        };
        if !flags_are {
            wrong.push(format!(
                "{}: bits {:#x} of sr were set and {:#x} cleared, and the manual says '{}'",
                of.name, met.set, met.cleared, of.flags
            ));
        }
    }
    assert!(wrong.is_empty(), "\n{}", wrong.join("\n"));
}

#[test]
fn exceptions_have_the_manual_s_codes() {
    let rows = table("| code | exception |");
    let says: Vec<(String, String)> = rows.iter().map(|row| (row[0].clone(), row[1].clone())).collect();
    let is: Vec<(String, String)> =
        Exception::ALL.iter().map(|e| (e.code().to_string(), e.to_string())).collect();
    assert_eq!(says, is);
}
