//! A journal through the wrapper: what is kept, gone back over, emptied and refused.

use z33::{Cell, Exception, Journal, Machine, ROW_LENGTH, Refusal, Register, SUPERVISOR, Stop, lent};

/// Numbers of a journal and its records.
const ONE: usize = 39;

/// in [111],%a; out %a,[111]; st %a,[300]; jmp 0
const ECHO: [(i64, i64, i64); 4] = [(5902, 111, 0), (18377, 0, 111), (25577, 0, 300), (6452, 0, 0)];

fn machine(image: &[(i64, i64, i64)]) -> Machine {
    let mut machine = Machine::new(512, 4, 8).unwrap();
    let image: Vec<Cell> =
        image.iter().map(|&(tag, first, second)| Cell::Instruction { tag, first, second }).collect();
    machine.load(0, &image).unwrap();
    machine.set_register(Register::Sr, SUPERVISOR).unwrap();
    machine
}

/// All that is gone back over.
fn looked_at(machine: &Machine) -> (Vec<Cell>, Vec<Cell>, u64, Vec<u8>) {
    let mut copy = machine.clone();
    (
        Register::ALL.map(|register| machine.register(register)).into(),
        (0..512).map(|address| machine.cell(address).unwrap()).collect(),
        machine.cycles(),
        copy.drain(),
    )
}

#[test]
fn each_step_is_gone_back_over() {
    let (mut machine, mut journal) = (machine(&ECHO), Journal::new(20).unwrap());
    machine.deliver(b"abc").unwrap();
    let mut before = Vec::new();
    for _ in 0..14 {
        before.push(looked_at(&machine));
        assert_eq!(machine.run_journal(&mut journal, 1).unwrap().steps, 1);
    }
    assert_eq!((journal.len(), journal.capacity()), (14, 20));
    assert_eq!(machine.clone().drain(), b"abc\0");
    for due in before.iter().rev() {
        machine.step_back(&mut journal).unwrap();
        assert_eq!(looked_at(&machine), *due);
    }
    assert_eq!(machine.step_back(&mut journal), Err(Refusal::NothingKept));
    // The three bytes are unread again.
    assert_eq!(machine.run_journal(&mut journal, 14).unwrap().steps, 14);
    assert_eq!(machine.drain(), b"abc\0");
}

#[test]
fn a_full_journal_forgets_its_oldest_step() {
    let (mut machine, mut journal) = (machine(&ECHO), Journal::new(3).unwrap());
    machine.run_journal(&mut journal, 2).unwrap();
    let third = looked_at(&machine);
    machine.run_journal(&mut journal, 3).unwrap();
    assert_eq!(journal.len(), 3);
    (0..3).for_each(|_| machine.step_back(&mut journal).unwrap());
    assert_eq!(looked_at(&machine), third);
    assert!(journal.is_empty());
}

#[test]
fn a_step_that_stops_is_kept_but_by_6_and_7() {
    // trap, and no handler
    let (mut stopped, mut journal) = (machine(&[(27902, 0, 0)]), Journal::new(9).unwrap());
    let before = stopped.clone();
    let ran = stopped.run_journal(&mut journal, 5).unwrap();
    assert_eq!((ran.stop, ran.steps, journal.len()), (Stop::NoHandler(Exception::Trap), 0, 1));
    assert_ne!(stopped, before);
    stopped.step_back(&mut journal).unwrap();
    assert_eq!(stopped, before);
    // out 65,[111] into eight bytes
    let mut full = machine(&[(18227, 65, 111); 9]);
    let ran = full.run_journal(&mut journal, 100).unwrap();
    assert_eq!((ran.stop, ran.steps, journal.len()), (Stop::OutputFull, 8, 8));
}

#[test]
fn what_is_no_step_empties_it() {
    let (mut m, mut journal) = (machine(&ECHO), Journal::new(2).unwrap());
    let calls: [fn(&mut Machine, &mut Journal); 7] = [
        |m, journal| m.load_journal(journal, 511, &[]).unwrap(),
        |m, journal| m.set_register_journal(journal, Register::B, 1).unwrap(),
        |m, journal| m.set_register_journal(journal, Register::Sr, SUPERVISOR).unwrap(),
        |m, journal| m.deliver_journal(journal, b"").unwrap(),
        |m, journal| assert_eq!(m.drain_journal(journal).len(), 1),
        |m, journal| assert!(m.raise_journal(journal, Exception::Trap).unwrap().is_some()),
        |_, journal| journal.clear(),
    ];
    for call in calls {
        m.set_register_journal(&mut journal, Register::Pc, 0).unwrap();
        m.drain_journal(&mut journal);
        assert_eq!(m.run_journal(&mut journal, 2).unwrap().steps, 2);
        assert_eq!(m.run_journal(&mut journal, 0).unwrap().steps, 0);
        assert_eq!(journal.len(), 2);
        call(&mut m, &mut journal);
        assert!(journal.is_empty());
    }
    // What is refused leaves it.
    m.set_register_journal(&mut journal, Register::Pc, 0).unwrap();
    m.run_journal(&mut journal, 1).unwrap();
    assert_eq!(m.deliver_journal(&mut journal, b"12345"), Err(Refusal::Delivery));
    assert_eq!(m.load_journal(&mut journal, 512, &[]), Err(Refusal::Address));
    assert_eq!(m.set_register_journal(&mut journal, Register::Sp, -1), Err(Refusal::Register));
    assert_eq!(journal.len(), 1);
}

#[test]
fn journals_are_refused_by_name() {
    for records in [0, 4097, usize::MAX] {
        assert_eq!(Journal::new(records), Err(Refusal::Journal), "{records} records");
    }
    assert_eq!((Journal::new(1).unwrap().capacity(), Journal::new(4096).unwrap().capacity()), (1, 4096));
    let told = [(Refusal::Journal, 20), (Refusal::NothingKept, 21)].map(|(refusal, number)| {
        assert_eq!((refusal.number(), refusal.place()), (number, 0));
        refusal.to_string()
    });
    assert_eq!(
        told,
        [
            "the journal is none of 1 to 4,096 steps, or its last step is none of this machine",
            "the journal has nothing to go back to"
        ]
    );
}

#[test]
fn the_calls_over_buffers_take_a_journal() {
    let (mut cells, mut row, mut journal) = (vec![0; 768], vec![7; ROW_LENGTH], vec![-1; ONE]);
    assert_eq!(lent::load_journal(&mut cells, &mut journal, &[], 0), Err(Refusal::Journal));
    lent::fresh_journal(&mut cells, &mut row, &mut journal).unwrap();
    assert_eq!((journal[0], journal[1], journal[2]), (0, 0, -1));
    lent::load_journal(&mut cells, &mut journal, &[15302, 0, 0], 0).unwrap();
    lent::set_register_journal(&mut row, &mut journal, Register::A, 5).unwrap();
    lent::deliver_journal(&mut [0; 1], &mut row, &mut journal, b"k").unwrap();
    let ran = lent::run_journal(&mut cells, &mut [b'k'], &mut [], &mut row, &mut journal, 1).unwrap();
    assert_eq!((ran.steps, journal[1]), (1, 1));
    // nop wrote no cell: the row, 0 and sixteen times 0
    assert!(journal[2..22] != row[..] && journal[22..].iter().all(|number| *number == 0));
    lent::back(&mut cells, &mut row, &mut journal).unwrap();
    assert_eq!((row[6], row[14], journal[1]), (0, 1, 0));
    assert_eq!(lent::drain_journal(&[], &mut row, &mut journal, &mut []), Ok(0));
    let raised = lent::raise_journal(&mut cells, &mut row, &mut journal, Exception::Trap).unwrap();
    assert_eq!(raised, Some(Stop::NoHandler(Exception::Trap)));
    assert_eq!(lent::back(&mut cells, &mut row, &mut journal), Err(Refusal::NothingKept));
    // A record of a machine with more cells.
    lent::run_journal(&mut cells, &mut [0], &mut [], &mut row, &mut journal, 1).unwrap();
    journal[2 + 16] = 257;
    assert_eq!(lent::back(&mut cells, &mut row, &mut journal), Err(Refusal::Journal));
}
