//! The course cases of document 01, starred or not, and the traps it names. 255 and 256 cells are not the original's.

use super::*;
use crate::forms::*;

const NO_HANDLER_CODE_1: (u64, u64) = (2, 1);

pub fn cases() -> Vec<Directed> {
    let mut cases = vec![worked_run(), budget_0()];
    cases.extend(division());
    cases.extend(shifts());
    cases.extend(edges_of_memory());
    cases.extend(swap_and_fas());
    cases.extend(traps());
    cases
}

/// add 5,%a and reset, by document 01's own numbers.
fn worked_run() -> Directed {
    machine("the worked run")
        .cell(0, [202, 5, 0])
        .cell(1, [20_702, 0, 0])
        .run(100_000, 1, 0, 1)
        .empty(1)
        .then_register(at::A, word(5))
        .then_at(1, 1)
}

fn budget_0() -> Directed {
    machine("budget 0").cell(0, [20_702, 0, 0]).run(0, 0, 0, 0)
}

fn division() -> Vec<Directed> {
    let (stop, code) = NO_HANDLER_CODE_1;
    vec![
        machine("div 0,%a without handler").cell(0, [3_802, 0, 0]).stops(stop, code).then(at::PC, 1),
        machine("smallest / -1")
            .cell(0, [3_802, -1, 0])
            .register(at::A, word(i64::MIN))
            .stops(stop, code)
            .then(at::PC, 1),
        machine("smallest / 1")
            .cell(0, [3_802, 1, 0])
            .register(at::A, word(i64::MIN))
            .done()
            .then_at(1, 1)
            .then(at::SR, N),
        machine("-7 / 2 is rounded toward zero")
            .cell(0, [3_802, 2, 0])
            .register(at::A, word(-7))
            .done()
            .then_register(at::A, word(-3))
            .then_at(1, 1)
            .then(at::SR, N),
    ]
}

fn shifts() -> Vec<Directed> {
    let by = |op: i64, amount: i64| instruction(op, imm(amount), reg(A));
    let mut cases = vec![
        at_10("shl 63", by(SHL, 63))
            .register(at::A, word(1))
            .done()
            .then_register(at::A, word(i64::MIN))
            .then_at(11, 1)
            .then(at::SR, N),
        at_10("shr 63 keeps the sign", by(SHR, 63))
            .register(at::A, word(i64::MIN))
            .done()
            .then_register(at::A, word(-1))
            .then_at(11, 1)
            .then(at::SR, N),
        at_10("shr 1 of -8", by(SHR, 1))
            .register(at::A, word(-8))
            .done()
            .then_register(at::A, word(-4))
            .then_at(11, 1)
            .then(at::SR, N),
    ];
    for op in [SHL, SHR] {
        for amount in [64, -1, 4_294_967_296, i64::MIN] {
            let name = format!("{} {amount}", NAMES[op as usize]);
            let case = at_10(&name, by(op, amount)).register(at::A, word(1));
            cases.push(case.stops(2, 2).then(at::PC, 11));
        }
    }
    cases
}

fn edges_of_memory() -> Vec<Directed> {
    vec![
        machine("pc 9,999 fetches, then 10,000 is code 5")
            .cell(9_999, instruction(NOP, NONE, NONE))
            .row(at::PC, 9_999)
            .run(2, 2, 5, 1)
            .then_at(10_000, 1),
        machine("pc 10,000").row(at::PC, 10_000).stops(2, 5),
        machine("pc 4,294,967,295").row(at::PC, 4_294_967_295).stops(2, 5),
        at_10("push at sp 0", instruction(PUSH, imm(7), NONE))
            .row(at::SP, 0)
            .stops(2, 5)
            .then(at::PC, 11)
            .then(at::SP, 4_294_967_295),
        at_10("ld [10000],%a", instruction(LD, dir(10_000), reg(A))).stops(2, 5).then(at::PC, 11),
        at_10("st %a,[10000]", instruction(ST, reg(A), dir(10_000))).stops(2, 5).then(at::PC, 11),
    ]
}

fn swap_and_fas() -> Vec<Directed> {
    let fas = instruction(FAS, dir(5), reg(SR));
    vec![
        at_10("swap [%a],%a writes through the new a", instruction(SWAP, ind(A), reg(A)))
            .register(at::A, word(5))
            .cell(5, word(9))
            .done()
            .then_register(at::A, word(9))
            .then_cell(9, word(5))
            .then_at(11, 2),
        at_10("fas [5],%sr in user mode, no handler", fas)
            .cell(5, word(77))
            .stops(2, 3)
            .then(at::PC, 11)
            .then_cell(5, word(1)),
        at_10("fas [5],%sr in user mode", fas)
            .cell(5, word(77))
            .cell(200, instruction(NOP, NONE, NONE))
            .row(at::SR, Z)
            .done()
            .then_cell(5, word(1))
            .then_entered(11, Z, 3)
            .then(at::CYCLES, 1),
    ]
}

/// The four traps.
fn traps() -> Vec<Directed> {
    let handler = instruction(NOP, NONE, NONE);
    vec![
        at_10("an exception step does not poll", instruction(TRAP, NONE, NONE))
            .cell(200, handler)
            .row(at::SR, I)
            .row(at::PENDING, 1)
            .done()
            .then_entered(11, I, 4)
            .then(at::CYCLES, 1),
        at_10("the pending mark stays with I clear", handler).row(at::PENDING, 1).done().then_at(11, 1),
        at_10("call pushes before it reads its operand", instruction(CALL, dir(50), NONE))
            .row(at::SP, 51)
            .cell(50, word(300))
            .done()
            .then_cell(50, word(11))
            .then(at::SP, 50)
            .then_at(11, 2),
        at_10("call with an operand outside has pushed", instruction(CALL, dir(10_000), NONE))
            .stops(2, 5)
            .then_cell(999, word(11))
            .then(at::SP, 999)
            .then(at::PC, 11),
        at_10("pop %sr in user mode moves sp", instruction(POP, reg(SR), NONE))
            .cell(1_000, word(S))
            .stops(2, 3)
            .then(at::SP, 1_001)
            .then(at::PC, 11),
        at_10("pop %pc of an instruction moves sp", instruction(POP, reg(PC), NONE))
            .cell(1_000, handler)
            .stops(5, 2)
            .then(at::SP, 1_001)
            .then(at::PC, 11),
        at_10("pop %sp of no address leaves sp moved", instruction(POP, reg(SP), NONE))
            .cell(1_000, word(-1))
            .stops(5, 3)
            .then(at::SP, 1_001)
            .then(at::PC, 11),
        at_10("rtn to no address moves sp", instruction(RTN, NONE, NONE))
            .cell(1_000, word(4_294_967_296))
            .stops(3, 0)
            .then(at::SP, 1_001)
            .then(at::PC, 11),
    ]
}
