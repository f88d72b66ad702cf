//! Document 02, Card 2: "Taking a word (`Cell::extract_word`) now also tells whether the cell was empty. Every instruction that takes words
//! passes this on, registers a and b included, and a run reports the total over its completed steps." Registers a and b, and every cell
//! that is not named, are empty here.

use layout::cell::EMPTY;

use super::*;
use crate::forms::*;

pub fn cases() -> Vec<Directed> {
    let mut cases = operands();
    cases.extend(addresses());
    cases.extend(into_registers());
    cases.extend(returns());
    cases.extend(not_taken());
    cases.extend(exceptions());
    cases.extend(stops());
    cases.extend(refused_results());
    cases.extend(totals());
    cases
}

fn nop() -> Cell {
    instruction(NOP, NONE, NONE)
}

/// An operand's word, the register's word.
fn operands() -> Vec<Directed> {
    let add = |name: &str, x: Operand, y: i64| at_10(name, instruction(ADD, x, reg(y)));
    let done = |directed: Directed, a: i64, cycles: i64| {
        directed.done().then_register(at::A, word(a)).then_at(11, cycles)
    };
    vec![
        done(add("add 5,%a: the register", imm(5), A), 5, 1).empty(1),
        done(add("add %b,%a: both", reg(B), A), 0, 1).empty(2).then(at::SR, Z),
        done(add("add %a,%a: twice", reg(A), A), 0, 1).empty(2).then(at::SR, Z),
        done(add("add [50],%a: the cell and the register", dir(50), A), 0, 2).empty(2).then(at::SR, Z),
        done(add("add %b,%a with b a word", reg(B), A).register(at::B, word(0)), 0, 1)
            .empty(1)
            .then(at::SR, Z),
        done(add("word 0 is not empty", dir(50), A).register(at::A, word(0)).cell(50, word(0)), 0, 2)
            .then(at::SR, Z),
        at_10("cmp %a,%b", instruction(CMP, reg(A), reg(B))).done().empty(2).then_at(11, 1).then(at::SR, Z),
        at_10("not %a", instruction(NOT, reg(A), NONE))
            .done()
            .empty(1)
            .then_register(at::A, word(-1))
            .then_at(11, 1)
            .then(at::SR, N),
        at_10("jmp %a", instruction(JMP, reg(A), NONE)).done().empty(1).then_at(0, 1),
        at_10("jmp [50]", instruction(JMP, dir(50), NONE)).done().empty(1).then_at(0, 2),
        at_10("call %b", instruction(CALL, reg(B), NONE))
            .done()
            .empty(1)
            .then_cell(999, word(11))
            .then(at::SP, 999)
            .then_at(0, 1),
        at_10("call of the cell that its push filled", instruction(CALL, dir(999), NONE))
            .done()
            .then_cell(999, word(11))
            .then(at::SP, 999)
            .then_at(11, 2),
        at_10("st %a", instruction(ST, reg(A), dir(50)))
            .done()
            .empty(1)
            .then_cell(50, word(0))
            .then_at(11, 2),
        at_10("out %a", instruction(OUT, reg(A), dir(111)))
            .row(at::SR, S)
            .done()
            .empty(1)
            .then(at::OUTPUT_COUNT, 1)
            .then_at(11, 2),
    ]
}

/// Register a or b that gives an address: each time that it does.
fn addresses() -> Vec<Directed> {
    vec![
        at_10("ld [%b]: the address, and the cell is carried", instruction(LD, ind(B), reg(A)))
            .cell(0, word(8))
            .done()
            .empty(1)
            .then_register(at::A, word(8))
            .then_at(11, 2),
        at_10("add [%b+50],%a: address, cell and register", instruction(ADD, idx(B, 50), reg(A)))
            .done()
            .empty(3)
            .then_register(at::A, word(0))
            .then_at(11, 2)
            .then(at::SR, Z),
        at_10("add [%a],%a: the same register twice", instruction(ADD, ind(A), reg(A)))
            .cell(0, word(8))
            .done()
            .empty(2)
            .then_register(at::A, word(8))
            .then_at(11, 2),
        at_10("st %a,[%a+50]", instruction(ST, reg(A), idx(A, 50)))
            .done()
            .empty(2)
            .then_cell(50, word(0))
            .then_at(11, 2),
        at_10("fas [%b+50],%a", instruction(FAS, idx(B, 50), reg(A)))
            .done()
            .empty(1)
            .then_cell(50, word(1))
            .then_at(11, 2),
        at_10("in [%b],%a", instruction(IN, ind(B), reg(A)))
            .row(at::SR, S)
            .done()
            .empty(1)
            .then_register(at::A, word(0))
            .then_at(11, 2),
        at_10("out %a,[%b]", instruction(OUT, reg(A), ind(B))).row(at::SR, S).done().empty(2).then_at(11, 2),
        at_10("swap [%b],%a takes its address twice", instruction(SWAP, ind(B), reg(A)))
            .register(at::A, word(7))
            .cell(0, word(8))
            .done()
            .empty(2)
            .then_register(at::A, word(8))
            .then_cell(0, word(7))
            .then_at(11, 2),
        at_10("swap [%b],%b: once empty, once the new b", instruction(SWAP, ind(B), reg(B)))
            .cell(0, word(50))
            .done()
            .empty(1)
            .then_register(at::B, word(50))
            .then_at(11, 2),
        at_10("swap [%b],%b: the new b alone is empty", instruction(SWAP, ind(B), reg(B)))
            .register(at::B, word(50))
            .done()
            .empty(1)
            .then_register(at::B, EMPTY)
            .then_cell(0, word(50))
            .then_at(11, 2),
        at_10("pc, sp and sr are never empty", instruction(LD, idx(SP, 0), reg(A)))
            .row(at::SP, 0)
            .cell(0, word(8))
            .done()
            .then_register(at::A, word(8))
            .then_at(11, 2),
    ]
}

/// A cell put into pc, sp or, with S set, sr.
fn into_registers() -> Vec<Directed> {
    let ld = |name: &str, y: i64| at_10(name, instruction(LD, reg(A), reg(y)));
    vec![
        ld("ld %a,%pc", PC).done().empty(1).then_at(0, 1),
        ld("ld %a,%sp", SP).done().empty(1).then(at::SP, 0).then_at(11, 1),
        ld("ld %a,%sr", SR).row(at::SR, S | V).done().empty(1).then(at::SR, 0).then_at(11, 1),
        at_10("pop %pc", instruction(POP, reg(PC), NONE)).done().empty(1).then(at::SP, 1_001).then_at(0, 1),
        at_10("fas [50],%sp", instruction(FAS, dir(50), reg(SP)))
            .done()
            .empty(1)
            .then(at::SP, 0)
            .then_cell(50, word(1))
            .then_at(11, 2),
        at_10("swap %sp,%a: a's cell into sp", instruction(SWAP, reg(SP), reg(A)))
            .done()
            .empty(1)
            .then_register(at::A, word(1_000))
            .then(at::SP, 0)
            .then_at(11, 1),
        at_10(
            "swap %a,%sr: a's cell into sr, which leaves supervisor mode",
            instruction(SWAP, reg(A), reg(SR)),
        )
        .row(at::SR, S)
        .done()
        .empty(1)
        .then_register(at::A, word(S))
        .then(at::SR, 0)
        .then_at(11, 1),
        at_10("swap [%b],%sp: address, cell and address", instruction(SWAP, ind(B), reg(SP)))
            .done()
            .empty(3)
            .then(at::SP, 0)
            .then_cell(0, word(1_000))
            .then_at(11, 2),
    ]
}

fn returns() -> Vec<Directed> {
    let rti = |name: &str| at_10(name, instruction(RTI, NONE, NONE)).row(at::SR, S);
    vec![
        rti("rti: cells 100 and 101").done().empty(2).then_at(0, 1).then(at::SR, 0),
        rti("rti: cell 100 alone").cell(101, word(V)).done().empty(1).then_at(0, 1).then(at::SR, V),
        rti("rti: cell 101 alone").cell(100, word(77)).done().empty(1).then_at(77, 1).then(at::SR, 0),
        at_10("rtn", instruction(RTN, NONE, NONE)).done().empty(1).then(at::SP, 1_001).then_at(0, 1),
    ]
}

/// A jump not taken, sr with S clear, cells carried.
fn not_taken() -> Vec<Directed> {
    vec![
        at_10("jeq [%b], not taken", instruction(JEQ, ind(B), NONE)).done().then_at(11, 2),
        at_10("jeq [%b], taken", instruction(JEQ, ind(B), NONE)).row(at::SR, Z).done().empty(2).then_at(0, 2),
        at_10("ld %a,%sr in user mode", instruction(LD, reg(A), reg(SR)))
            .cell(200, nop())
            .done()
            .then_entered(11, 0, 3)
            .then(at::CYCLES, 1),
        at_10("swap [%b],%sr in user mode: the address, once", instruction(SWAP, ind(B), reg(SR)))
            .cell(200, nop())
            .done()
            .empty(1)
            .then_entered(11, 0, 3)
            .then(at::CYCLES, 1),
        at_10("ld [50],%a", instruction(LD, dir(50), reg(A)))
            .register(at::A, word(1))
            .done()
            .then_register(at::A, EMPTY)
            .then_at(11, 2),
        at_10("ld %b,%a", instruction(LD, reg(B), reg(A)))
            .register(at::A, word(1))
            .done()
            .then_register(at::A, EMPTY)
            .then_at(11, 1),
        at_10("push %a", instruction(PUSH, reg(A), NONE))
            .cell(999, word(1))
            .done()
            .then_cell(999, EMPTY)
            .then(at::SP, 999)
            .then_at(11, 1),
        at_10("pop %a", instruction(POP, reg(A), NONE))
            .register(at::A, word(1))
            .done()
            .then_register(at::A, EMPTY)
            .then(at::SP, 1_001)
            .then_at(11, 1),
        at_10("swap [50],%a", instruction(SWAP, dir(50), reg(A))).done().then_at(11, 2),
        at_10("swap %a,%b", instruction(SWAP, reg(A), reg(B))).done().then_at(11, 1),
        at_10("fas [50],%a", instruction(FAS, dir(50), reg(A))).done().then_cell(50, word(1)).then_at(11, 2),
        at_10("an empty cell fetched", EMPTY)
            .cell(200, nop())
            .done()
            .then_entered(11, 0, 2)
            .then(at::CYCLES, 1),
    ]
}

/// A step that ends in exception entry counts what it took before.
fn exceptions() -> Vec<Directed> {
    let entered = |directed: Directed, sr: i64, code: i64| {
        directed.row(at::SR, sr).cell(200, nop()).done().then_entered(11, sr, code).then(at::CYCLES, 1)
    };
    vec![
        entered(at_10("div %a,%b: both, then code 1", instruction(DIV, reg(A), reg(B))), 0, 1).empty(2),
        entered(at_10("shl 64,%a: the register, then code 2", instruction(SHL, imm(64), reg(A))), 0, 2)
            .empty(1),
        entered(at_10("add %a,%sr in user mode", instruction(ADD, reg(A), reg(SR))), 0, 3).empty(1),
        entered(
            at_10("add [%b+10000],%a: the address alone", instruction(ADD, idx(B, 10_000), reg(A))),
            0,
            5,
        )
        .empty(1),
        entered(at_10("add [10000],%a: nothing", instruction(ADD, dir(10_000), reg(A))), 0, 5),
        entered(at_10("st %a,[10000]: the source", instruction(ST, reg(A), dir(10_000))), 0, 5).empty(1),
        entered(at_10("out %a,[%b] in user mode: nothing", instruction(OUT, reg(A), ind(B))), 0, 3),
        entered(at_10("rti in user mode: nothing", instruction(RTI, NONE, NONE)), 0, 3),
        entered(
            at_10("call that cannot push: nothing", instruction(CALL, ind(B), NONE)).row(at::SP, 0),
            0,
            5,
        )
        .then(at::SP, 4_294_967_295),
        at_10("neg %a, then the interrupt", instruction(NEG, reg(A), NONE))
            .cell(200, nop())
            .row(at::SR, I)
            .row(at::PENDING, 1)
            .done()
            .empty(1)
            .then_register(at::A, word(0))
            .then_entered(11, I | Z, 0)
            .then(at::PENDING, 0)
            .then(at::CYCLES, 2),
    ]
}

/// A step that stops counts nothing, whatever it took.
fn stops() -> Vec<Directed> {
    vec![
        at_10("div %a,%b without handler", instruction(DIV, reg(A), reg(B))).stops(2, 1).then(at::PC, 11),
        at_10("neg %a, and a poll without handler", instruction(NEG, reg(A), NONE))
            .row(at::SR, I)
            .row(at::PENDING, 1)
            .stops(2, 0)
            .then_register(at::A, word(0))
            .then(at::SR, I | Z)
            .then(at::PENDING, 0)
            .then_at(11, 1),
        at_10("st %a,[%b] with b no address", instruction(ST, reg(A), ind(B)))
            .register(at::B, word(-1))
            .stops(3, 0)
            .then(at::PC, 11),
        at_10("rti: cell 100 empty, cell 101 an instruction", instruction(RTI, NONE, NONE))
            .row(at::SR, S)
            .cell(101, nop())
            .stops(3, 0)
            .then(at::PC, 0),
        at_10("add %a,%b with b an instruction", instruction(ADD, reg(A), reg(B)))
            .register(at::B, nop())
            .stops(4, 0)
            .then(at::PC, 11),
        at_10("ld [%b],%pc of an instruction", instruction(LD, ind(B), reg(PC)))
            .cell(0, nop())
            .stops(5, 2)
            .then(at::PC, 11),
        at_10("out %a to a full record", instruction(OUT, reg(A), dir(111)))
            .row(at::SR, S)
            .output(&[7, 8], 2)
            .stops(6, 0),
        at_10("neg %a with full cycles", instruction(NEG, reg(A), NONE)).row(at::CYCLES, MOST).stops(7, 0),
    ]
}

/// The address is taken from an empty register; then pc or sp refuses the result.
fn refused_results() -> Vec<Directed> {
    let mut cases = Vec::new();
    for (op, operand) in [(ADD, -1_001), (SUB, 1_001), (MUL, -1), (DIV, -1), (OR, -1), (XOR, -1), (SHL, 60)] {
        for x in [ind(B), idx(B, 50)] {
            for y in [PC, SP] {
                let name = format!("{} [%b+{}] refused by register {y}", NAMES[op as usize], x.2);
                let case = at_10(&name, instruction(op, x, reg(y))).cell(x.2 as usize, word(operand));
                cases.push(case.stops(5, y as u64).then(at::PC, 11));
            }
        }
    }
    cases
}

/// The total over the completed steps of a run.
fn totals() -> Vec<Directed> {
    vec![
        machine("jmp [%b] to itself, ten times")
            .cell(0, instruction(JMP, idx(B, 50), NONE))
            .run(10, 0, 0, 10)
            .empty(20)
            .then_at(0, 20),
        machine("two runs count apart")
            .cell(0, instruction(CMP, reg(A), reg(B)))
            .cell(1, instruction(CMP, reg(A), reg(SP)))
            .cell(2, instruction(RESET, NONE, NONE))
            .run(1, 0, 0, 1)
            .empty(2)
            .run(9, 1, 0, 1)
            .empty(1)
            .then(at::SR, Z)
            .then_at(2, 2),
        machine("the step that stops the run adds nothing")
            .cell(0, instruction(CMP, reg(A), reg(B)))
            .cell(1, instruction(DIV, reg(A), reg(B)))
            .run(9, 2, 1, 1)
            .empty(2)
            .then(at::SR, Z)
            .then_at(2, 1),
        machine("budget 0").cell(0, instruction(CMP, reg(A), reg(B))).run(0, 0, 0, 0),
    ]
}
