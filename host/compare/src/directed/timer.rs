//! Document 02, Card 14: the timer on ports 120 and 121. Handlers are a nop at cell 200; the numbers in brackets are interval, remaining and
//! mark.

use super::*;
use crate::forms::*;

type Timer = [i64; 3];

pub fn cases() -> Vec<Directed> {
    let mut cases = completed();
    assert_eq!(cases.len(), 400, "25 timers, two costs, I and the console's mark, with a handler or without");
    cases.extend(exceptions());
    cases.extend(written());
    cases.extend(read());
    cases.extend(enabled_at_once());
    cases.extend(full_cycles());
    cases.extend(stops());
    cases.extend(runs());
    cases.extend(calls());
    cases
}

fn nop() -> Cell {
    instruction(NOP, NONE, NONE)
}

/// At pc 10 with a handler.
fn timed(name: &str, cell: Cell, timer: Timer) -> Directed {
    without_handler(name, cell, timer).cell(200, nop())
}

fn without_handler(name: &str, cell: Cell, timer: Timer) -> Directed {
    row::TIMER.into_iter().zip(timer).fold(at_10(name, cell), |case, (place, number)| case.row(place, number))
}

fn then(case: Directed, timer: Timer) -> Directed {
    row::TIMER.into_iter().zip(timer).fold(case, |case, (place, number)| case.then(place, number))
}

/// Timers of each interval 1 to 5 and 2^63 - 1 with what remains, and what is left of them when 1 and when 2 cycles are taken off.
const TAKEN_OFF: [(Timer, Timer, Timer); 25] = {
    const M: i64 = i64::MAX;
    [
        ([1, 0, 0], [1, 1, 1], [1, 1, 1]),
        ([1, 1, 0], [1, 1, 1], [1, 1, 1]),
        ([1, 1, 1], [1, 1, 1], [1, 1, 1]),
        ([2, 0, 0], [2, 2, 1], [2, 2, 1]),
        ([2, 1, 0], [2, 2, 1], [2, 2, 1]),
        ([2, 2, 0], [2, 1, 0], [2, 2, 1]),
        ([2, 2, 1], [2, 1, 1], [2, 2, 1]),
        ([3, 0, 1], [3, 3, 1], [3, 3, 1]),
        ([3, 1, 0], [3, 3, 1], [3, 3, 1]),
        ([3, 2, 0], [3, 1, 0], [3, 3, 1]),
        ([3, 3, 0], [3, 2, 0], [3, 1, 0]),
        ([4, 1, 0], [4, 4, 1], [4, 4, 1]),
        ([4, 2, 0], [4, 1, 0], [4, 4, 1]),
        ([4, 3, 1], [4, 2, 1], [4, 1, 1]),
        ([4, 4, 0], [4, 3, 0], [4, 2, 0]),
        ([5, 0, 0], [5, 5, 1], [5, 5, 1]),
        ([5, 1, 0], [5, 5, 1], [5, 5, 1]),
        ([5, 2, 0], [5, 1, 0], [5, 5, 1]),
        ([5, 5, 0], [5, 4, 0], [5, 3, 0]),
        ([M, 0, 0], [M, M, 1], [M, M, 1]),
        ([M, 1, 0], [M, M, 1], [M, M, 1]),
        ([M, M, 0], [M, M - 1, 0], [M, M - 2, 0]),
        ([M, M, 1], [M, M - 1, 1], [M, M - 2, 1]),
        ([0, 0, 0], [0, 0, 0], [0, 0, 0]),
        ([0, 0, 1], [0, 0, 1], [0, 0, 1]),
    ]
};

/// A completed instruction takes its cost off, then the poll takes the console's mark or otherwise the timer's.
fn completed() -> Vec<Directed> {
    let mut cases = Vec::new();
    for (before, by_1, by_2) in TAKEN_OFF {
        for (cell, cost, off) in [(nop(), 1, by_1), (instruction(JNE, dir(50), NONE), 2, by_2)] {
            for (sr, pending) in [(Z, 0), (Z, 1), (Z | I, 0), (Z | I, 1)] {
                for handler in [true, false] {
                    let name =
                        format!("cost {cost} off {before:?}, sr {sr}, pending {pending}, handler {handler}");
                    let case = if handler {
                        timed(&name, cell, before)
                    } else {
                        without_handler(&name, cell, before)
                    };
                    let case = case.row(at::SR, sr).row(at::PENDING, pending);
                    cases.push(polled(case, cost, off, sr, pending, handler));
                }
            }
        }
    }
    cases
}

fn polled(case: Directed, cost: i64, off: Timer, sr: i64, pending: i64, handler: bool) -> Directed {
    let [interval, remaining, mark] = off;
    let takes = sr & I != 0 && (pending == 1 || mark == 1);
    let due = |case: Directed| {
        let case = then(case, if takes && pending == 0 { [interval, remaining, 0] } else { off });
        if takes && pending == 1 { case.then(at::PENDING, 0) } else { case }
    };
    match (takes, handler) {
        (false, _) => due(case.done()).then_at(11, cost),
        (true, true) => due(case.done()).then_entered(11, sr, 0).then(at::CYCLES, cost + 1),
        (true, false) => due(case.stops(2, 0)).then_at(11, cost),
    }
}

/// An exception step takes its one cycle off and does not poll; without a handler nothing is taken off.
fn exceptions() -> Vec<Directed> {
    let raising: [(&str, Cell, i64, i64); 7] = [
        ("div", instruction(DIV, imm(0), reg(SP)), 1, 11),
        ("shl", instruction(SHL, imm(64), reg(SP)), 2, 11),
        ("rti", instruction(RTI, NONE, NONE), 3, 11),
        ("in [120]", instruction(IN, dir(120), reg(A)), 3, 11),
        ("trap", instruction(TRAP, NONE, NONE), 4, 11),
        ("st [10000]", instruction(ST, reg(SP), dir(10_000)), 5, 11),
        ("a fetch of no instruction", word(7), 2, 11),
    ];
    let mut cases = Vec::new();
    for (name, cell, code, pc) in raising {
        for (before, after) in [
            ([5, 2, 0], [5, 1, 0]),
            ([5, 1, 0], [5, 5, 1]),
            ([5, 0, 1], [5, 5, 1]),
            ([1, 1, 0], [1, 1, 1]),
            ([0, 0, 1], [0, 0, 1]),
        ] {
            for pending in [0, 1] {
                let name = format!("{name} with {before:?}, pending {pending}");
                let both = |case: Directed| case.row(at::SR, I).row(at::PENDING, pending);
                let entered =
                    both(timed(&name, cell, before)).done().then_entered(pc, I, code).then(at::CYCLES, 1);
                cases.push(then(entered, after));
                let name = format!("{name}, no handler");
                cases.push(both(without_handler(&name, cell, before)).stops(2, code as u64).then(at::PC, pc));
            }
        }
    }
    let outside = timed("a fetch outside", nop(), [5, 1, 0]).row(at::PC, 10_000).done();
    cases.push(then(outside.then_entered(10_000, 0, 5).then(at::CYCLES, 1), [5, 5, 1]));
    let read = timed("a read outside", instruction(LD, dir(10_000), reg(A)), [5, 3, 0]).done();
    cases.push(then(read.then_entered(11, 0, 5).then(at::CYCLES, 1), [5, 2, 0]));
    let fenced = timed("a store below the fence", instruction(ST, reg(SP), dir(50)), [5, 1, 0]);
    let fenced = fenced.row(at::FENCE, 51).done().then_entered(11, 0, 5).then(at::CYCLES, 1);
    cases.push(then(fenced, [5, 5, 1]));
    cases
}

/// Port 120 written sets interval and remaining, takes nothing off and keeps the mark; port 121 swallows writes.
fn written() -> Vec<Directed> {
    let mut cases = Vec::new();
    for (number, set) in [(i64::MIN, 0), (-1, 0), (0, 0), (1, 1), (2, 2), (5, 5), (i64::MAX, i64::MAX)] {
        for before in [[0, 0], [1, 1], [5, 2], [5, 0]] {
            for (sr, mark) in [(S, 0), (S, 1), (S | I, 0), (S | I, 1)] {
                let name = format!("out {number},[120] with {before:?}, mark {mark}, sr {sr}");
                let before = [before[0], before[1], mark];
                let case =
                    timed(&name, instruction(OUT, imm(number), dir(120)), before).row(at::SR, sr).done();
                cases.push(if mark == 1 && sr & I != 0 {
                    then(case, [set, set, 0]).then_entered(11, sr, 0).then(at::CYCLES, 3)
                } else {
                    then(case, [set, set, mark]).then_at(11, 2)
                });
            }
        }
    }
    let swallowed = |name: &str, x: Operand, y: Operand| {
        let case = timed(name, instruction(OUT, x, y), [5, 4, 0]).row(at::SR, S);
        then(case.register(at::A, word(9)).register(at::B, word(121)).done().then_at(11, 2), [5, 2, 0])
    };
    cases.push(swallowed("out 9,[121]", imm(9), dir(121)));
    cases.push(swallowed("out %a,[%b], b 121", reg(A), ind(B)));
    cases.push(swallowed("out %a,[%b+1], b 121: no port of the timer's", reg(A), idx(B, 1)));
    let set = |name: &str, x: Operand, y: Operand| {
        let case = timed(name, instruction(OUT, x, y), [5, 1, 0]).row(at::SR, S);
        then(case.register(at::A, word(9)).register(at::B, word(120)).done().then_at(11, 2), [9, 9, 0])
    };
    cases.push(set("out %a,[120]", reg(A), dir(120)));
    cases.push(set("out 9,[%b], b 120", imm(9), ind(B)));
    cases.push(set("out %a,[%b+0], b 120", reg(A), idx(B, 0)));
    let both =
        timed("out 9,[120], and the console's mark first", instruction(OUT, imm(9), dir(120)), [1, 1, 1]);
    let both = both.row(at::SR, S | I).row(at::PENDING, 1).done().then(at::PENDING, 0);
    cases.push(then(both.then_entered(11, S | I, 0).then(at::CYCLES, 3), [9, 9, 1]));
    let none =
        without_handler("out 9,[120], polled without handler", instruction(OUT, imm(9), dir(120)), [1, 1, 1]);
    cases.push(then(none.row(at::SR, S | I).stops(2, 0).then_at(11, 2), [9, 9, 0]));
    cases
}

/// Port 120 reads the interval, port 121 what remains before the step's own cost.
fn read() -> Vec<Directed> {
    const M: i64 = i64::MAX;
    let sr = |case: Directed| case.row(at::SR, S);
    let into_a = |name: &str, x: Operand, before: Timer, read: i64, after: Timer| {
        let case = sr(timed(name, instruction(IN, x, reg(A)), before)).register(at::B, word(100)).done();
        then(case.then_register(at::A, word(read)).then_at(11, 2), after)
    };
    let mut cases = vec![
        into_a("in [120],%a", dir(120), [9, 8, 0], 9, [9, 6, 0]),
        into_a("in [121],%a", dir(121), [9, 8, 0], 8, [9, 6, 0]),
        into_a("in [121],%a of the last cycle", dir(121), [9, 1, 0], 1, [9, 9, 1]),
        into_a("in [121],%a of nothing", dir(121), [9, 0, 0], 0, [9, 9, 1]),
        into_a("in [120],%a, off", dir(120), [0, 0, 1], 0, [0, 0, 1]),
        into_a("in [121],%a, off", dir(121), [0, 0, 0], 0, [0, 0, 0]),
        into_a("in [120],%a, the largest interval", dir(120), [M, 9, 0], M, [M, 7, 0]),
        into_a("in [121],%a, the largest interval", dir(121), [M, M, 0], M, [M, M - 2, 0]),
        into_a("in [%b+20],%a", idx(B, 20), [9, 8, 0], 9, [9, 6, 0]),
        into_a("in [%b+21],%a", idx(B, 21), [9, 8, 0], 8, [9, 6, 0]),
        into_a("in [119],%a", dir(119), [9, 8, 0], 0, [9, 6, 0]),
        into_a("in [122],%a", dir(122), [9, 8, 0], 0, [9, 6, 0]),
    ];
    let into = |name: &str, reg_number: i64, before: Timer| {
        sr(timed(name, instruction(IN, dir(120), reg(reg_number)), before))
    };
    cases.push(then(into("in [120],%pc", PC, [77, 9, 0]).done().then_at(77, 2), [77, 7, 0]));
    cases.push(then(into("in [120],%sp", SP, [77, 9, 0]).done().then(at::SP, 77).then_at(11, 2), [77, 7, 0]));
    cases.push(into("in [120],%pc, no address", PC, [M, 9, 0]).stops(5, 2).then(at::PC, 11));
    cases.push(into("in [120],%sp, no address", SP, [4_294_967_296, 9, 0]).stops(5, 3).then(at::PC, 11));
    let sets_i = into("in [120],%sr sets I, and the mark is polled", SR, [I, 2, 0]).done();
    cases.push(then(sets_i.then_entered(11, I, 0).then(at::CYCLES, 3), [I, I, 0]));
    let ind_a =
        sr(timed("in [%b],%a", instruction(IN, ind(B), reg(A)), [9, 8, 0])).register(at::B, word(121)).done();
    cases.push(then(ind_a.then_register(at::A, word(8)).then_at(11, 2), [9, 6, 0]));
    cases
}

/// I set or cleared by the very instruction.
fn enabled_at_once() -> Vec<Directed> {
    let ld = |name: &str, sr: i64, before: Timer| {
        timed(name, instruction(LD, imm(sr), reg(SR)), before).row(at::SR, S | (I & !sr))
    };
    let rti = |name: &str, before: Timer| {
        timed(name, instruction(RTI, NONE, NONE), before)
            .row(at::SR, S)
            .cell(100, word(77))
            .cell(101, word(I))
    };
    vec![
        then(
            ld("ld 768,%sr with the mark set", S | I, [0, 0, 1])
                .done()
                .then_entered(11, S | I, 0)
                .then(at::CYCLES, 2),
            [0, 0, 0],
        ),
        then(
            ld("ld 768,%sr and it expires", S | I, [1, 1, 0])
                .done()
                .then_entered(11, S | I, 0)
                .then(at::CYCLES, 2),
            [1, 1, 0],
        ),
        then(
            ld("ld 512,%sr clears I: the mark waits", S, [5, 1, 1]).done().then(at::SR, S).then_at(11, 1),
            [5, 5, 1],
        ),
        then(
            rti("rti into a program with I set", [5, 1, 0]).done().then_entered(77, I, 0).then(at::CYCLES, 2),
            [5, 5, 0],
        ),
        then(rti("rti with time left", [5, 2, 0]).done().then(at::SR, I).then_at(77, 1), [5, 1, 0]),
    ]
}

/// Stop 7 leaves the timer as it was before the step.
fn full_cycles() -> Vec<Directed> {
    let polls = |name: &str, cycles: i64, before: Timer| {
        timed(name, nop(), before).row(at::SR, I).row(at::CYCLES, cycles)
    };
    vec![
        polls("no cycle left for the entry", MOST - 1, [5, 3, 1]).stops(7, 0),
        polls("no cycle left for the entry of a mark set now", MOST - 1, [5, 1, 0]).stops(7, 0),
        polls("no cycle left for the cost", MOST, [5, 3, 0]).stops(7, 0),
        then(
            polls("just enough for cost and entry", MOST - 2, [5, 3, 1])
                .done()
                .then_entered(11, I, 0)
                .then(at::CYCLES, MOST),
            [5, 2, 0],
        ),
        then(polls("just enough for the cost", MOST - 1, [5, 3, 0]).done().then_at(11, MOST), [5, 2, 0]),
        then(
            without_handler("no handler, so no cycle for an entry", nop(), [5, 3, 1])
                .row(at::SR, I)
                .row(at::CYCLES, MOST - 1)
                .stops(2, 0)
                .then_at(11, MOST),
            [5, 2, 0],
        ),
        timed("out 9,[120] with one cycle left", instruction(OUT, imm(9), dir(120)), [5, 3, 0])
            .row(at::SR, S)
            .row(at::CYCLES, MOST - 1)
            .stops(7, 0),
        timed("out 9,[120] and no cycle left for the entry", instruction(OUT, imm(9), dir(120)), [5, 3, 1])
            .row(at::SR, S | I)
            .row(at::CYCLES, MOST - 2)
            .stops(7, 0),
    ]
}

/// A step that stops takes nothing off.
fn stops() -> Vec<Directed> {
    vec![
        timed("reset", instruction(RESET, NONE, NONE), [5, 1, 1]).row(at::SR, I).stops(1, 0),
        timed("rtn to no address", instruction(RTN, NONE, NONE), [5, 1, 0])
            .cell(1_000, word(-1))
            .stops(3, 0)
            .then(at::SP, 1_001)
            .then(at::PC, 11),
        timed("jmp to no address", instruction(JMP, imm(-1), NONE), [5, 1, 0]).stops(4, 0).then(at::PC, 11),
        timed("ld of no address into sp", instruction(LD, imm(-1), reg(SP)), [5, 1, 0])
            .stops(5, 3)
            .then(at::PC, 11),
        timed("out to a full record", instruction(OUT, imm(7), dir(111)), [5, 1, 1])
            .row(at::SR, S | I)
            .output(&[1, 2], 2)
            .stops(6, 0),
    ]
}

/// Many steps.
fn runs() -> Vec<Directed> {
    let jump = instruction(JMP, imm(10), NONE);
    let rti = instruction(RTI, NONE, NONE);
    let preempted = |name: &str, budget: u64| {
        timed(name, jump, [5, 5, 0]).cell(200, rti).row(at::SR, I).run(budget, 0, 0, budget)
    };
    vec![
        then(preempted("a loop, before the timer expires", 4).then_at(10, 4), [5, 1, 0]),
        then(preempted("a loop, when it does", 5).then_entered(10, I, 0).then(at::CYCLES, 6), [5, 5, 0]),
        // rti is the first of the next five cycles; the entry was none of them
        then(preempted("a loop, preempted twice", 10).then_entered(10, I, 0).then(at::CYCLES, 12), [5, 5, 0]),
        then(
            timed(
                "turned off with the mark set, polled while off",
                instruction(OUT, imm(0), dir(120)),
                [5, 1, 1],
            )
            .row(at::SR, S)
            .cell(11, instruction(LD, imm(S | I), reg(SR)))
            .run(2, 0, 0, 2)
            .then_entered(12, S | I, 0)
            .then(at::CYCLES, 4),
            [0, 0, 0],
        ),
        then(
            timed("the console's mark, then the timer's", nop(), [5, 5, 1])
                .row(at::SR, I)
                .row(at::PENDING, 1)
                .cell(200, rti)
                .run(2, 0, 0, 2)
                .then_entered(11, I, 0)
                .then(at::PENDING, 0)
                .then(at::CYCLES, 4),
            [5, 3, 0],
        ),
        then(
            timed("a handler of its own time: it expires again", jump, [1, 1, 0])
                .row(at::SR, I)
                .cell(201, rti)
                .run(3, 0, 0, 3)
                .then_entered(10, I, 0)
                .then(at::CYCLES, 5),
            [1, 1, 0],
        ),
    ]
}

/// Raise takes nothing off, and the other calls keep the timer.
fn calls() -> Vec<Directed> {
    let mut cases = Vec::new();
    for code in 0..6 {
        for before in [[5, 1, 0], [5, 1, 1], [0, 0, 1]] {
            let name = format!("raise {code} with {before:?}");
            let case = timed(&name, nop(), before).row(at::SR, I).call(Call::Raise(code), Answer::DONE);
            cases.push(case.then_entered(10, I, code as i64).then(at::CYCLES, 1));
            let case = without_handler(&format!("{name}, no handler"), nop(), before).row(at::SR, I);
            cases.push(case.call(Call::Raise(code), Answer { stop: 2, detail: code, ..Answer::DONE }));
        }
    }
    let kept = |name: &str| timed(name, nop(), [5, 1, 1]);
    cases.push(
        kept("deliver keeps the timer")
            .call(Call::Deliver(vec![5]), Answer::DONE)
            .then_queue(0, 5)
            .then(at::QUEUE_COUNT, 1),
    );
    cases.push(
        kept("drain keeps the timer")
            .output(&[5, 6], 1)
            .call(Call::Drain(2), Answer { count: 1, ..Answer::DONE })
            .then(at::OUTPUT_COUNT, 0),
    );
    cases.push(
        kept("set register keeps the timer")
            .call(Call::SetRegister(SP as u64, 9), Answer::DONE)
            .then(at::SP, 9),
    );
    cases
}
