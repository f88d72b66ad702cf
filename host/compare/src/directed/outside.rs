//! Document 02, Card 9: "An operand read at an address not below the count of cells raises code 5 in place of stop 4, with all earlier
//! effects of the instruction standing. A negative or too large word used as an address stops as before."

use super::*;
use crate::forms::*;

const OUTSIDE: i64 = 10_000;

pub fn cases() -> Vec<Directed> {
    let mut cases: Vec<Directed> = reads().into_iter().flat_map(each_way).collect();
    assert_eq!(cases.len(), 180, "60 forms in three ways");
    cases.extend(edges());
    cases.extend(no_address());
    cases.extend(before_and_after());
    cases
}

fn nop() -> Cell {
    instruction(NOP, NONE, NONE)
}

/// A read through each of the three memory modes, by the 20 operations that make one; each jump with flags that it is taken with.
fn reads() -> Vec<Directed> {
    let jumps = [(JMP, 0), (JEQ, Z), (JNE, 0), (JLE, Z), (JLT, N), (JGE, 0), (JGT, 0), (CALL, 0)];
    let loads = TWO_WORDS.into_iter().chain([LD, SWAP]).map(|op| (op, 0, reg(A)));
    let all = jumps.into_iter().map(|(op, flags)| (op, flags, NONE)).chain(loads);
    let mut cases = Vec::new();
    for (op, flags, y) in all {
        for (x, b) in [(dir(OUTSIDE), 1), (ind(B), OUTSIDE), (idx(B, -5), OUTSIDE + 5)] {
            let name = format!("{} outside, mode {}", NAMES[op as usize], x.0);
            let case = at_10(&name, instruction(op, x, y)).row(at::SR, flags);
            cases.push(case.register(at::A, word(7)).register(at::B, word(b)));
        }
    }
    cases
}

/// Without a handler, with one, and with one and no cycle left for its entry.
fn each_way(case: Directed) -> [Directed; 3] {
    let flags = case.case.row[at::SR];
    let also = |with: &str| Directed { name: format!("{}, {with}", case.name), ..case.clone() };
    let pushed = |directed: Directed| {
        if case.name.starts_with("call") {
            directed.then_cell(999, word(11)).then(at::SP, 999)
        } else {
            directed
        }
    };
    [
        pushed(also("no handler").stops(2, 5).then(at::PC, 11)),
        pushed(also("a handler").cell(200, nop()).done().then_entered(11, flags, 5).then(at::CYCLES, 1)),
        also("full cycles").cell(200, nop()).row(at::CYCLES, MOST).stops(7, 0),
    ]
}

/// The last cell is read, the last address is outside, and so is a sum that wraps to an address.
fn edges() -> Vec<Directed> {
    let ld =
        |name: &str, x: Operand, b: i64| at_10(name, instruction(LD, x, reg(A))).register(at::B, word(b));
    let read = |directed: Directed| {
        directed.cell(9_999, word(8)).done().then_register(at::A, word(8)).then_at(11, 2)
    };
    let trapped = |directed: Directed| directed.stops(2, 5).then(at::PC, 11);
    vec![
        read(ld("ld [9999]", dir(9_999), 1)),
        read(ld("ld [%b], b 9,999", ind(B), 9_999)),
        read(ld("ld [%b-1], b 10,000", idx(B, -1), 10_000)),
        trapped(ld("ld [4294967295]", dir(4_294_967_295), 1)),
        trapped(ld("ld [%b], b 4,294,967,295", ind(B), 4_294_967_295)),
        trapped(ld("ld [%b+4294967295], b 0", idx(B, 4_294_967_295), 0)),
        trapped(ld("ld [%b-1], b 4,294,967,296", idx(B, -1), 4_294_967_296)),
        trapped(ld("ld [%b], a sum that wraps", idx(B, i64::MIN + OUTSIDE), i64::MIN)),
    ]
}

/// A word that is none stops as before, also where a handler stands.
fn no_address() -> Vec<Directed> {
    let mut cases = Vec::new();
    for (op, y) in [(ADD, reg(A)), (LD, reg(A)), (SWAP, reg(A)), (JMP, NONE)] {
        let name = |what: &str| format!("{} through {what}", NAMES[op as usize]);
        let through = |what: &str, x: Operand, b: Cell| {
            at_10(&name(what), instruction(op, x, y))
                .register(at::B, b)
                .cell(200, nop())
                .stops(4, 0)
                .then(at::PC, 11)
        };
        cases.push(through("-1", ind(B), word(-1)));
        cases.push(through("4,294,967,296", ind(B), word(4_294_967_296)));
        cases.push(through("a sum below 0", idx(B, -10_001), word(10_000)));
        cases.push(through("a sum past the addresses", idx(B, 1), word(4_294_967_295)));
        cases.push(through("an instruction", idx(B, OUTSIDE), nop()));
    }
    cases
}

/// What stands before the trap, what is not done after it, and the way back.
fn before_and_after() -> Vec<Directed> {
    let ld = instruction(LD, dir(OUTSIDE), reg(A));
    vec![
        at_10("call by the sp that its push moved", instruction(CALL, idx(SP, 9_000), NONE))
            .cell(9_999, word(77))
            .done()
            .then_cell(999, word(11))
            .then(at::SP, 999)
            .then_at(77, 2),
        at_10("call outside by the sp that its push moved", instruction(CALL, idx(SP, 9_001), NONE))
            .stops(2, 5)
            .then_cell(999, word(11))
            .then(at::SP, 999)
            .then(at::PC, 11),
        at_10("call that cannot push reads nothing", instruction(CALL, dir(OUTSIDE), NONE))
            .row(at::SP, 0)
            .stops(2, 5)
            .then(at::SP, 4_294_967_295)
            .then(at::PC, 11),
        at_10("call pushes the handler away", instruction(CALL, dir(OUTSIDE), NONE))
            .cell(200, nop())
            .row(at::SP, 201)
            .stops(2, 5)
            .then_cell(200, word(11))
            .then(at::SP, 200)
            .then(at::PC, 11),
        at_10(
            "the operand outside before a register that is an instruction",
            instruction(ADD, dir(OUTSIDE), reg(A)),
        )
        .register(at::A, nop())
        .stops(2, 5)
        .then(at::PC, 11),
        at_10("a jump not taken reads nothing outside", instruction(JNE, dir(OUTSIDE), NONE))
            .row(at::SR, Z)
            .done()
            .then_at(11, 2),
        at_10("a read outside does not poll", ld)
            .cell(200, nop())
            .row(at::SR, I)
            .row(at::PENDING, 1)
            .done()
            .then_entered(11, I, 5)
            .then(at::CYCLES, 1),
        at_10("one cycle left for the entry", ld)
            .cell(200, nop())
            .row(at::CYCLES, MOST - 1)
            .done()
            .then_entered(11, 0, 5)
            .then(at::CYCLES, MOST),
        at_10("the handler returns behind the read", ld)
            .cell(200, instruction(RTI, NONE, NONE))
            .row(at::SR, V)
            .run(2, 0, 0, 2)
            .then_entered(11, V, 5)
            .then(at::SR, V)
            .then_at(11, 2),
    ]
}
