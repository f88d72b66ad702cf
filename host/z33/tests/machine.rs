//! The wrapper: what each call answers, each refusal and stop by its name and as it prints, and buffers as `Vec` and slices.

use layout::{at, row};
use z33::{Cell, Exception, Machine, ROW_LENGTH, Ran, Refusal, Register, SUPERVISOR, Stop, Timer, lent};

const RESET: Cell = Cell::Instruction { tag: 20702, first: 0, second: 0 };
const NOP: Cell = Cell::Instruction { tag: 15302, first: 0, second: 0 };

/// A machine with these cells from 0 on, in supervisor mode.
fn machine(image: &[Cell]) -> Machine {
    let mut machine = Machine::new(2048, 4, 2).unwrap();
    machine.load(0, image).unwrap();
    machine.set_register(Register::Sr, SUPERVISOR).unwrap();
    machine
}

fn one(tag: i64, first: i64, second: i64) -> Cell {
    Cell::Instruction { tag, first, second }
}

#[test]
fn sizes_are_refused_by_name() {
    for (cells, queue, output, due) in [
        (255, 1, 0, Refusal::Cells),
        (10_001, 1, 0, Refusal::Cells),
        (usize::MAX, 1, 0, Refusal::Cells),
        (256, 0, 0, Refusal::Queue),
        (256, 4097, 0, Refusal::Queue),
        (256, usize::MAX, 0, Refusal::Queue),
        (256, 1, 65_537, Refusal::Output),
        (256, 1, usize::MAX, Refusal::Output),
    ] {
        assert_eq!(Machine::new(cells, queue, output), Err(due), "{cells} cells, {queue}, {output}");
    }
    Machine::new(256, 1, 0).unwrap();
    Machine::new(10_000, 4096, 65_536).unwrap();
}

#[test]
fn each_refusal_has_its_number_and_words() {
    let mut row = vec![0; ROW_LENGTH];
    let mut damaged = [0; ROW_LENGTH];
    row::put_cell(&mut damaged, at::A, [1, 2, 3]);
    let mut cells = vec![0; 768];
    let mut m = machine(&[RESET]);
    let refusals = [
        (
            lent::fresh(&mut cells[..767], &mut row),
            1,
            "the cells are not three numbers each for 256 to 10,000 cells",
        ),
        (lent::deliver(&mut [], &mut row, &[]), 2, "the queue is not 1 to 4,096 bytes"),
        (lent::drain(&[0; 65_537], &mut row, &mut []).map(drop), 3, "the output record is over 65,536 bytes"),
        (lent::set_register(&mut row[1..], Register::A, 0), 4, "the row is not 20 numbers"),
        (lent::set_register(&mut damaged, Register::A, 0), 4, "the row's number 1 is out of its range"),
        (lent::read_cell(&[[-1, 0, 0]; 256].concat(), 7).map(drop), 5, "the cell at 7 is damaged"),
        (m.deliver(b"12345"), 6, "more bytes than the queue has free places"),
        (m.cell(2048).map(drop), 8, "the address is outside the cells"),
        (
            m.load(2047, &[NOP, NOP]),
            9,
            "the image has no whole cells, runs past the end or holds a damaged cell",
        ),
        (m.set_register(Register::Pc, -1), 10, "the register cannot be set to that"),
        (
            lent::list(&[0; 3], &mut [0; 8], false).map(drop),
            16,
            "the image has an empty cell, which the listing was not allowed",
        ),
        (lent::list(&[0; 3], &mut [0; 7], true).map(drop), 17, "the buffer is shorter than the image's text"),
    ];
    for (answer, number, words) in refusals {
        let refusal = answer.unwrap_err();
        assert_eq!((refusal.number(), refusal.to_string().as_str()), (number, words));
    }
    row[at::OUTPUT_COUNT] = 3;
    let refusal = lent::drain(&[1, 2, 3], &mut row, &mut [0; 2]).unwrap_err();
    assert_eq!((refusal, refusal.number()), (Refusal::Drain, 7));
    assert_eq!(Refusal::Code.number(), 11);
    let errors: Box<dyn std::error::Error> = Refusal::Cells.into();
    assert!(errors.to_string().starts_with("the cells"));
}

#[test]
fn each_stop_has_its_number_and_words() {
    let push = one(19952, 0, 0); // push 0
    let cases: [(&[Cell], u64, Ran, (u64, u64), &str); 8] = [
        (
            &[NOP, NOP],
            1,
            Ran { stop: Stop::BudgetSpent, steps: 1, empty: 0 },
            (0, 0),
            "budget spent after 1 step",
        ),
        (&[NOP, NOP, RESET], 9, Ran { stop: Stop::Reset, steps: 2, empty: 0 }, (1, 0), "reset after 2 steps"),
        // div 0,%a
        (
            &[one(3802, 0, 0)],
            9,
            Ran { stop: Stop::NoHandler(Exception::DivByZero), steps: 0, empty: 0 },
            (2, 1),
            "division by zero without a handler after 0 steps",
        ),
        (
            &[push],
            9,
            Ran { stop: Stop::NoHandler(Exception::InvalidMemoryAccess), steps: 0, empty: 0 },
            (2, 5),
            "invalid memory access without a handler after 0 steps",
        ),
        // ld [5000],%a, outside the cells
        (
            &[one(13102, 5000, 0)],
            9,
            Ran { stop: Stop::NoHandler(Exception::InvalidMemoryAccess), steps: 0, empty: 0 },
            (2, 5),
            "invalid memory access without a handler after 0 steps",
        ),
        // jmp -1, which is no address
        (
            &[one(6452, -1, 0)],
            9,
            Ran { stop: Stop::Extract, steps: 0, empty: 0 },
            (4, 0),
            "an operand, register or jump target that cannot be taken after 0 steps",
        ),
        // ld -1,%sp
        (
            &[one(12805, -1, 0)],
            9,
            Ran { stop: Stop::InvalidRegister(Register::Sp), steps: 0, empty: 0 },
            (5, 3),
            "a value that sp cannot take after 0 steps",
        ),
        // out 65,[111], three times into two bytes
        (
            &[one(18227, 65, 111); 3],
            9,
            Ran { stop: Stop::OutputFull, steps: 2, empty: 0 },
            (6, 0),
            "output record full after 2 steps",
        ),
    ];
    for (image, budget, due, numbers, words) in cases {
        let ran = machine(image).run(budget).unwrap();
        assert_eq!(ran, due);
        assert_eq!((ran.stop.number(), ran.stop.detail()), numbers);
        assert_eq!(ran.to_string(), words);
    }

    let mut m = machine(&[one(21602, 0, 0)]); // rti, and an instruction where pc was saved
    m.load(100, &[NOP]).unwrap();
    let ran = m.run(1).unwrap();
    assert_eq!((ran.stop, ran.stop.number()), (Stop::CellError, 3));
    assert_eq!(ran.stop.to_string(), "a word or address that the instruction cannot take");
    assert_eq!((Stop::CyclesFull.number(), Stop::CyclesFull.to_string().as_str()), (7, "cycle count full"));
    let mut row = vec![0; ROW_LENGTH];
    row[at::CYCLES] = i64::MAX;
    let mut cells = [NOP.numbers(); 256].concat();
    assert_eq!(lent::run(&mut cells, &mut [0], &mut [], &mut row, 1).unwrap().stop, Stop::CyclesFull);
}

#[test]
fn words_from_empty_cells_are_counted() {
    // add %a,%a with a empty; add [300],%a; jmp [%b+300] to cell 0
    let mut m = machine(&[one(352, 0, 0), one(502, 300, 0), one(7057, 300, 0)]);
    let ran = m.run(3).unwrap();
    assert_eq!((ran.stop, ran.steps, ran.empty), (Stop::BudgetSpent, 3, 5));
    // a is a word now
    assert_eq!(m.run(3).unwrap().empty, 3);
    assert_eq!(m.run(0).unwrap().empty, 0);
    // push %a, and div %b,%b without handler
    let mut m = machine(&[one(20102, 0, 0), one(3958, 0, 0)]);
    m.set_register(Register::Sp, 300).unwrap();
    let ran = m.run(9).unwrap();
    assert_eq!((ran.stop.number(), ran.steps, ran.empty), (2, 1, 0));
}

#[test]
fn a_budget_has_64_bits() {
    for budget in [1 << 32, u64::MAX] {
        let ran = machine(&[NOP, NOP, RESET]).run(budget).unwrap();
        assert_eq!((ran.stop, ran.steps), (Stop::Reset, 2));
    }
}

#[test]
fn raise_enters_or_stops() {
    let mut m = machine(&[NOP]);
    assert_eq!(m.raise(Exception::Trap), Ok(Some(Stop::NoHandler(Exception::Trap))));
    m.load(200, &[NOP]).unwrap();
    for exception in Exception::ALL {
        m.set_register(Register::Pc, 7).unwrap();
        assert_eq!(m.raise(exception), Ok(None));
        assert_eq!(m.register(Register::Pc), Cell::Word(200));
        assert_eq!(m.cell(100), Ok(Cell::Word(7)));
        assert_eq!(m.cell(102), Ok(Cell::Word(exception.code() as i64)));
    }
    assert_eq!(m.cycles(), 6);
}

#[test]
fn the_fence_keeps_cells_from_user_mode() {
    let mut m = machine(&[one(20102, 0, 0)]); // push %a
    m.set_register(Register::Sp, 300).unwrap();
    assert_eq!(m.fence(), 0);
    m.set_fence(300).unwrap();
    // The supervisor may.
    assert_eq!(m.run(1).unwrap().steps, 1);
    m.set_register(Register::Sr, 0).unwrap();
    for (sp, due) in [(301, 1), (300, 0)] {
        m.set_register(Register::Pc, 0).unwrap();
        m.set_register(Register::Sp, sp).unwrap();
        assert_eq!(m.run(1).unwrap().steps, due, "sp {sp}");
    }
    assert_eq!((m.register(Register::Sp), m.fence()), (Cell::Word(299), 300));
    m.set_fence(2048).unwrap();
    for fence in [2049, u64::MAX, i64::MAX as u64 + 1] {
        assert_eq!(m.set_fence(fence), Err(Refusal::Row { place: 17 }));
        assert_eq!(m.fence(), 2048);
    }
}

#[test]
fn the_timer_interrupts_user_mode() {
    // out 3,[120]; ld 256,%sr: user mode with I; jmp 2
    let mut m = machine(&[one(18227, 3, 120), one(12806, 256, 0), one(6452, 2, 0)]);
    m.load(200, &[NOP]).unwrap();
    assert_eq!(m.timer(), Timer::default());
    assert_eq!(m.run(1).unwrap().steps, 1);
    assert_eq!(m.timer(), Timer { interval: 3, remaining: 3, mark: false });
    assert_eq!(m.run(2).unwrap().steps, 2);
    assert_eq!(m.timer(), Timer { interval: 3, remaining: 1, mark: false });
    assert_eq!(m.run(1).unwrap().steps, 1);
    assert_eq!(m.timer(), Timer { interval: 3, remaining: 3, mark: false });
    assert_eq!((m.register(Register::Pc), m.cell(102)), (Cell::Word(200), Ok(Cell::Word(0))));
    m.raise(Exception::Trap).unwrap();
    assert_eq!(m.timer().remaining, 3);
}

#[test]
fn registers_and_cells_are_read_as_they_are_set() {
    let mut m = machine(&[one(12803, 9, 0), RESET]); // ld 9,%b
    for (register, word) in [(Register::A, -3), (Register::Sp, 1000)] {
        m.set_register(register, word).unwrap();
        assert_eq!(m.register(register), Cell::Word(word));
    }
    assert_eq!(m.run(5).unwrap().stop, Stop::Reset);
    let held: Vec<String> =
        Register::ALL.map(|register| format!("{register} {}", m.register(register))).into();
    assert_eq!(held, ["a word -3", "b word 9", "pc word 1", "sp word 1000", "sr word 512"]);
    assert_eq!(m.cell(1), Ok(RESET));
    assert_eq!(
        (m.cell(1).unwrap().to_string(), Cell::Empty.to_string()),
        ("instruction 20702,0,0".into(), "empty".into())
    );
    for cell in [Cell::Empty, Cell::Word(i64::MIN), RESET] {
        assert_eq!(Cell::from_numbers(cell.numbers()), cell);
    }
}

#[test]
fn what_is_written_is_drained_once() {
    let mut m = machine(&[one(18227, 321, 111), one(18227, 66, 111), RESET]);
    assert_eq!(m.run(9).unwrap().stop, Stop::Reset);
    assert_eq!(m.drain(), b"AB");
    assert_eq!(m.drain(), b"");
}
