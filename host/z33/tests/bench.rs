//! A bench through the wrapper: turns, records, parts and copies of machines, refusals by name, number, place and seat.

use layout::at;
use z33::{Bench, Cell, Exception, Machine, Refusal, Register, SUPERVISOR, Seat, SeatRefusal, Stop, lent};

const JUMP: [i64; 3] = [6452, 0, 0]; // jmp 0
const RESET: [i64; 3] = [20702, 0, 0];

/// So many seats of 256 cells in supervisor mode.
fn bench(seats: usize, limit: u64) -> Bench {
    let mut machine = Machine::new(256, 4, 2).unwrap();
    machine.set_register(Register::Sr, SUPERVISOR).unwrap();
    Bench::new(seats, &machine, limit).unwrap()
}

fn load(bench: &mut Bench, seat: usize, image: &[i64]) {
    lent::load(bench.part(seat).cells, image, 0).unwrap();
}

fn told(bench: &Bench) -> Vec<(u64, u64, u32)> {
    bench.list().iter().map(|seat| (seat.limit, seat.used, seat.stop)).collect()
}

#[test]
fn turns_go_round_from_seat_1() {
    let mut bench = bench(3, 250);
    (1..=3).for_each(|seat| load(&mut bench, seat, &JUMP));
    bench.part(2).seat.limit = 130;
    assert_eq!(bench.run(0), Ok(0));
    assert_eq!(told(&bench), [(250, 0, 0), (130, 0, 0), (250, 0, 0)]);
    assert_eq!(bench.run(350), Ok(0));
    assert_eq!(told(&bench), [(250, 150, 0), (130, 100, 0), (250, 100, 0)]);
    // seat 1 again: 100, which reaches its limit; 30 and 100; 50 of seat 3
    assert_eq!(bench.run(1000), Ok(720));
    assert_eq!(told(&bench), [(250, 250, 0), (130, 130, 0), (250, 250, 0)]);
    assert!(!bench.list().iter().any(Seat::can_go_on));
    assert_eq!(bench.run(u64::MAX), Ok(u64::MAX));
    let cycles: Vec<u64> = (1..=3).map(|seat| bench.machine(seat).unwrap().cycles()).collect();
    assert_eq!(cycles, [250, 130, 250]);
}

#[test]
fn a_seat_that_stopped_is_passed_over() {
    let mut bench = bench(2, u64::MAX);
    load(&mut bench, 1, &RESET);
    // div 0,%a, without handler
    load(&mut bench, 2, &[3802, 0, 0]);
    assert_eq!(bench.run(1_000_000), Ok(1_000_000));
    assert_eq!(told(&bench), [(u64::MAX, 0, 1), (u64::MAX, 0, 2)]);
    load(&mut bench, 1, &JUMP);
    assert_eq!(bench.run(150), Ok(150));
    bench.part(1).seat.stop = 0;
    assert_eq!(bench.run(150), Ok(0));
    assert_eq!(told(&bench)[0], (u64::MAX, 150, 0));
    let ran = bench.machine(2).unwrap().run(1).unwrap();
    assert_eq!(ran.stop, Stop::NoHandler(Exception::InvalidInstruction), "pc had moved on");
}

#[test]
fn a_seat_has_its_own_console() {
    let mut bench = bench(2, 100);
    // in [111],%a; out %a,[111]; reset
    (1..=2).for_each(|seat| load(&mut bench, seat, &[5902, 111, 0, 18377, 0, 111, 20702, 0, 0]));
    for (seat, byte) in [(1, b"k"), (2, b"l")] {
        let part = bench.part(seat);
        lent::deliver(part.queue, part.row, byte).unwrap();
    }
    assert_eq!(bench.run(100), Ok(96));
    for (seat, byte) in [(1, b"k"), (2, b"l")] {
        let part = bench.part(seat);
        assert_eq!((part.row[at::OUTPUT_COUNT], part.output[0]), (1, byte[0]));
        let mut machine = bench.machine(seat).unwrap();
        assert_eq!(
            (machine.drain(), machine.register(Register::A)),
            (byte.to_vec(), Cell::Word(byte[0].into()))
        );
    }
}

#[test]
fn refusals_tell_the_seat() {
    let machine = Machine::new(256, 1, 0).unwrap();
    for seats in [0, 17, usize::MAX] {
        let refused = Bench::new(seats, &machine, 1).unwrap_err();
        assert_eq!(refused, SeatRefusal { refusal: Refusal::Seats, seat: 0 });
        assert_eq!((refused.refusal.number(), refused.refusal.place()), (19, 0));
        assert_eq!(refused.to_string(), "the seats are not 1 to 16 with a record and equal parts for each");
    }
    let mut bench = bench(16, 100);
    bench.part(16).row[at::FENCE] = 257;
    bench.part(16).seat.stop = 1;
    let before = bench.clone();
    let refused = bench.run(5).unwrap_err();
    assert_eq!(refused, SeatRefusal { refusal: Refusal::Row { place: 17 }, seat: 16 });
    assert_eq!((refused.refusal.number(), refused.refusal.place()), (4, 17));
    assert_eq!(refused.to_string(), "seat 16: the row's number 17 is out of its range");
    assert_eq!((bench.machine(16), &bench), (Err(Refusal::Row { place: 17 }), &before));
    bench.part(3).cells[3 * 255] = -1;
    let refused = bench.run(0).unwrap_err();
    assert_eq!(refused, SeatRefusal { refusal: Refusal::DamagedCell { address: 255 }, seat: 3 });
    let error: Box<dyn std::error::Error> = refused.into();
    assert_eq!(error.to_string(), "seat 3: the cell at 255 is damaged");
}

#[test]
fn lengths_are_refused_by_name() {
    let lengths = |cells: usize, queues, outputs, rows| {
        let mut list = [Seat::new(1); 2];
        let (mut cells, mut rows) = (vec![0; cells], vec![0; rows]);
        lent::bench(&mut list, &mut cells, &mut vec![0; queues], &mut vec![0; outputs], &mut rows, 2, 1)
    };
    let seat_1 = |refusal| Err(SeatRefusal { refusal, seat: 1 });
    assert_eq!(lengths(2 * 768, 2, 0, 40), Ok(1));
    for (cells, queues, outputs, rows) in
        [(2 * 768 + 1, 2, 0, 40), (2 * 768, 3, 0, 40), (2 * 768, 2, 1, 40), (2 * 768, 2, 0, 41)]
    {
        assert_eq!(
            lengths(cells, queues, outputs, rows),
            Err(SeatRefusal { refusal: Refusal::Seats, seat: 0 })
        );
    }
    assert_eq!(lengths(2 * 765, 0, 0, 0), seat_1(Refusal::Cells));
    assert_eq!(lengths(2 * 768, 0, 0, 0), seat_1(Refusal::Queue));
    assert_eq!(lengths(2 * 768, 2, 2 * 65_537, 0), seat_1(Refusal::Output));
    assert_eq!(lengths(2 * 768, 2, 0, 38), seat_1(Refusal::Row { place: 0 }));
}

#[test]
#[should_panic(expected = "there is no seat 3")]
fn there_is_no_other_seat() {
    bench(2, 1).part(3);
}

#[test]
fn a_record_of_32_bits_is_taken_over() {
    assert_eq!(Seat::take_over(u32::MAX, 7, 2), Seat { limit: 4_294_967_295, used: 7, stop: 2 });
    assert_eq!(
        Seat::take_over(5, u32::MAX, u32::MAX),
        Seat { limit: 5, used: 4_294_967_295, stop: u32::MAX }
    );
    assert!(
        Seat::take_over(8, 7, 0).can_go_on()
            && !Seat::take_over(8, 8, 0).can_go_on()
            && !Seat::take_over(8, 7, 1).can_go_on()
    );
}
