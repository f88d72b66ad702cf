//! Where document 01 is short and the original decides: one group for each such point.

use super::*;
use crate::forms::*;

pub fn cases() -> Vec<Directed> {
    let mut cases = jump_conditions();
    cases.extend(pc_has_moved_on());
    cases.extend(order_of_tests());
    cases.extend(order_in_swap());
    cases.extend(poll_without_handler());
    cases.extend(full_cycles());
    cases.extend(full_output());
    cases.extend(fetched_copy());
    cases.extend(handler_replaced());
    cases.extend(interrupts_at_once());
    cases.extend(ports());
    cases.extend(no_flags());
    cases
}

fn nop() -> Cell {
    instruction(NOP, NONE, NONE)
}

/// Taken with neither, Z, N, and both.
fn jump_conditions() -> Vec<Directed> {
    let table = [
        (JMP, [true, true, true, true]),
        (JEQ, [false, true, false, true]),
        (JNE, [true, false, true, false]),
        (JLE, [false, true, true, true]),
        (JLT, [false, false, true, false]),
        (JGE, [true, true, false, true]),
        (JGT, [true, false, false, false]),
    ];
    let mut cases = Vec::new();
    for (op, taken) in table {
        for (flags, taken) in [0, Z, N, Z | N].into_iter().zip(taken) {
            let name = format!("{} with flags {flags}", NAMES[op as usize]);
            let case = at_10(&name, instruction(op, imm(77), NONE)).row(at::SR, flags);
            cases.push(case.done().then_at(if taken { 77 } else { 11 }, 1));
        }
    }
    cases
}

fn pc_has_moved_on() -> Vec<Directed> {
    vec![
        at_10("pc as an operand", instruction(LD, reg(PC), reg(A)))
            .done()
            .then_register(at::A, word(11))
            .then_at(11, 1),
        at_10("pc as a base", instruction(LD, ind(PC), reg(A)))
            .cell(11, word(5))
            .done()
            .then_register(at::A, word(5))
            .then_at(11, 2),
        at_10("add 5,%pc", instruction(ADD, imm(5), reg(PC))).done().then_at(16, 1),
        at_10("call pushes the pc moved on", instruction(CALL, imm(77), NONE))
            .done()
            .then_cell(999, word(11))
            .then(at::SP, 999)
            .then_at(77, 1),
        at_10("push %pc", instruction(PUSH, reg(PC), NONE))
            .done()
            .then_cell(999, word(11))
            .then(at::SP, 999)
            .then_at(11, 1),
    ]
}

fn order_of_tests() -> Vec<Directed> {
    let stops = |name: &str, cell: Cell, stop: u64, detail: u64| {
        at_10(name, cell)
            .register(at::A, nop())
            .register(at::B, word(-1))
            .stops(stop, detail)
            .then(at::PC, 11)
    };
    let supervisor = |name: &str, cell: Cell, stop: u64| {
        at_10(name, cell)
            .row(at::SR, S)
            .register(at::A, nop())
            .register(at::B, word(-1))
            .stops(stop, 0)
            .then(at::PC, 11)
    };
    vec![
        stops("div 0,%sr in user mode", instruction(DIV, imm(0), reg(SR)), 2, 1),
        stops("shl 64,%sr in user mode", instruction(SHL, imm(64), reg(SR)), 2, 2),
        stops("ld [10000],%sr in user mode", instruction(LD, dir(10_000), reg(SR)), 2, 5),
        stops("div 0,%a with an instruction in a", instruction(DIV, imm(0), reg(A)), 4, 0),
        stops("shl 64,%a with an instruction in a", instruction(SHL, imm(64), reg(A)), 4, 0),
        stops("st: source before address", instruction(ST, reg(A), ind(B)), 4, 0),
        stops("st: address before bound", instruction(ST, reg(B), ind(B)), 3, 0),
        stops("st: bound", instruction(ST, reg(B), idx(B, 10_001)), 2, 5),
        stops("fas: address", instruction(FAS, ind(A), reg(SR)), 3, 0),
        stops("fas: bound before register", instruction(FAS, dir(10_000), reg(SR)), 2, 5),
        stops("in: S before address", instruction(IN, ind(B), reg(A)), 2, 3),
        stops("out: S before source", instruction(OUT, reg(A), ind(B)), 2, 3),
        supervisor("out: source before address", instruction(OUT, reg(A), ind(B)), 4),
        supervisor("out: address", instruction(OUT, reg(B), ind(B)), 3),
        supervisor("in: address", instruction(IN, ind(B), reg(SR)), 3),
        stops("an operand that is an instruction", instruction(ADD, reg(A), reg(B)), 4, 0),
        stops("a jump to an instruction", instruction(JMP, reg(A), NONE), 4, 0),
        stops("sub refused by sp moves no flag", instruction(SUB, imm(1_001), reg(SP)), 5, 3),
        stops("not %pc", instruction(NOT, reg(PC), NONE), 5, 2),
    ]
}

/// Read, set the register, then the other register or address; the first write stays.
fn order_in_swap() -> Vec<Directed> {
    let swap = |x: Operand, y: i64| instruction(SWAP, x, reg(y));
    vec![
        at_10("swap [10000],%sr in user mode", swap(dir(10_000), SR)).stops(2, 5).then(at::PC, 11),
        at_10("swap [50],%sr in user mode", swap(dir(50), SR)).stops(2, 3).then(at::PC, 11),
        at_10("swap %sr,%a in user mode: a has the old sr", swap(reg(SR), A))
            .row(at::SR, V)
            .register(at::A, word(5))
            .stops(2, 3)
            .then_register(at::A, word(V))
            .then(at::PC, 11),
        at_10("swap %pc,%a with a no address", swap(reg(PC), A))
            .register(at::A, word(-1))
            .stops(5, 2)
            .then_register(at::A, word(11))
            .then(at::PC, 11),
        at_10("swap %a,%b", swap(reg(A), B))
            .register(at::A, word(5))
            .register(at::B, nop())
            .done()
            .then_register(at::A, nop())
            .then_register(at::B, word(5))
            .then_at(11, 1),
        at_10("swap [%a],%a to outside: code 5, a stays", swap(ind(A), A))
            .register(at::A, word(50))
            .cell(50, word(10_000))
            .stops(2, 5)
            .then_register(at::A, word(10_000))
            .then(at::PC, 11),
        at_10("swap [%a],%a to no address: stop 3, a stays", swap(ind(A), A))
            .register(at::A, word(50))
            .cell(50, word(-1))
            .stops(3, 0)
            .then_register(at::A, word(-1))
            .then(at::PC, 11),
        at_10("swap [%pc+8],%pc writes by the new pc", swap(idx(PC, 8), PC))
            .cell(19, word(30))
            .done()
            .then_cell(38, word(11))
            .then_at(30, 2),
        at_10("swap [%sp],%sp", swap(ind(SP), SP))
            .cell(1_000, word(60))
            .done()
            .then(at::SP, 60)
            .then_cell(60, word(1_000))
            .then_at(11, 2),
    ]
}

/// The instruction is done, its cost added, the mark taken, and the step not counted.
fn poll_without_handler() -> Vec<Directed> {
    vec![
        at_10("poll without handler", nop())
            .row(at::SR, I)
            .row(at::PENDING, 1)
            .stops(2, 0)
            .then(at::PENDING, 0)
            .then_at(11, 1),
        at_10("a taken mark is not set again by the flag", nop())
            .cell(11, nop())
            .row(at::SR, I)
            .row(at::FLAG, 1)
            .row(at::PENDING, 1)
            .run(1, 2, 0, 0)
            .run(1, 0, 0, 1)
            .then(at::PENDING, 0)
            .then_at(12, 2),
    ]
}

fn full_cycles() -> Vec<Directed> {
    let full = |name: &str, cell: Cell| at_10(name, cell).row(at::CYCLES, MOST);
    let ld = instruction(LD, dir(50), reg(A));
    vec![
        full("full cycles: nop", nop()).stops(7, 0),
        full("full cycles: reset is still stop 1", instruction(RESET, NONE, NONE)).stops(1, 0),
        full("full cycles: no handler is still stop 2", instruction(TRAP, NONE, NONE))
            .stops(2, 4)
            .then(at::PC, 11),
        full("full cycles: an entry", instruction(TRAP, NONE, NONE)).cell(200, nop()).stops(7, 0),
        full("full cycles: a fetch of no instruction", word(1)).cell(200, nop()).stops(7, 0),
        full("full cycles: stop 4 stays", instruction(LD, ind(B), reg(A)))
            .register(at::B, word(-1))
            .stops(4, 0)
            .then(at::PC, 11),
        full(
            "full cycles: a read outside without handler is still stop 2",
            instruction(LD, dir(10_000), reg(A)),
        )
        .stops(2, 5)
        .then(at::PC, 11),
        full("full cycles: stop 5 stays", instruction(NOT, reg(PC), NONE)).stops(5, 2).then(at::PC, 11),
        full("full cycles: before a poll without handler", nop())
            .row(at::SR, I)
            .row(at::PENDING, 1)
            .stops(7, 0),
        full("one cycle left for a cost of 2", ld).row(at::CYCLES, MOST - 1).stops(7, 0),
        full("two cycles left for a cost of 2", ld).row(at::CYCLES, MOST - 2).done().then_at(11, MOST),
        full("the cost fits and the interrupt's entry does not", nop())
            .row(at::CYCLES, MOST - 1)
            .row(at::SR, I)
            .row(at::PENDING, 1)
            .cell(200, nop())
            .stops(7, 0),
        full("the cost fits and there is no handler", nop())
            .row(at::CYCLES, MOST - 1)
            .row(at::SR, I)
            .row(at::PENDING, 1)
            .stops(2, 0)
            .then(at::PENDING, 0)
            .then_at(11, MOST),
        full("stop 7 puts a store back", instruction(ST, reg(B), dir(50)))
            .register(at::B, word(5))
            .stops(7, 0),
        full("stop 7 puts a read byte back", instruction(IN, dir(111), reg(A)))
            .row(at::SR, S)
            .queue(&[1, 2, 3, 4], 3, 4)
            .stops(7, 0),
        full("stop 7 puts a written byte back", instruction(OUT, imm(65), dir(111)))
            .row(at::SR, S)
            .output(&[7, 8], 1)
            .stops(7, 0),
        full("stop 7 puts the marks back", instruction(OUT, imm(1), dir(110)))
            .row(at::SR, S)
            .queue(&[1, 2, 3, 4], 0, 1)
            .stops(7, 0),
    ]
}

/// Stop 6 only where a byte would really be written, and before stop 7.
fn full_output() -> Vec<Directed> {
    let out = |port: i64| instruction(OUT, imm(65), dir(port));
    vec![
        at_10("full output", out(111)).row(at::SR, S).output(&[7, 8], 2).stops(6, 0),
        at_10("no output record at all", out(111)).row(at::SR, S).output(&[], 0).stops(6, 0),
        at_10("full output in user mode", out(111)).output(&[7, 8], 2).stops(2, 3).then(at::PC, 11),
        at_10("full output, another port", out(112)).row(at::SR, S).output(&[7, 8], 2).done().then_at(11, 2),
        at_10("full output, no word", instruction(OUT, reg(A), dir(111)))
            .row(at::SR, S)
            .register(at::A, nop())
            .output(&[7, 8], 2)
            .stops(4, 0)
            .then(at::PC, 11),
        at_10("6 before 7", out(111)).row(at::SR, S).row(at::CYCLES, MOST).output(&[7, 8], 2).stops(6, 0),
        at_10("full output before a poll", out(111))
            .row(at::SR, S | I)
            .row(at::PENDING, 1)
            .output(&[7, 8], 2)
            .stops(6, 0),
    ]
}

/// An instruction may write over its own cell and goes on with the old operands.
fn fetched_copy() -> Vec<Directed> {
    let fas = instruction(FAS, dir(10), reg(A));
    let swap = instruction(SWAP, dir(10), reg(A));
    vec![
        at_10("push over itself", instruction(PUSH, imm(7), NONE))
            .row(at::SP, 11)
            .done()
            .then_cell(10, word(7))
            .then(at::SP, 10)
            .then_at(11, 1),
        at_10("call over itself", instruction(CALL, imm(77), NONE))
            .row(at::SP, 11)
            .done()
            .then_cell(10, word(11))
            .then(at::SP, 10)
            .then_at(77, 1),
        at_10("st over itself", instruction(ST, reg(A), dir(10)))
            .done()
            .empty(1)
            .then_cell(10, word(0))
            .then_at(11, 2),
        at_10("fas over itself", fas).done().then_register(at::A, fas).then_cell(10, word(1)).then_at(11, 2),
        at_10("swap over itself", swap)
            .register(at::A, word(3))
            .done()
            .then_register(at::A, swap)
            .then_cell(10, word(3))
            .then_at(11, 2),
    ]
}

/// The handler is looked at on entry, after the instruction's effects.
fn handler_replaced() -> Vec<Directed> {
    vec![
        at_10("fas [200],%sr in user mode", instruction(FAS, dir(200), reg(SR)))
            .cell(200, nop())
            .stops(2, 3)
            .then_cell(200, word(1))
            .then(at::PC, 11),
        at_10("st over cell 200 with an interrupt pending", instruction(ST, reg(A), dir(200)))
            .cell(200, nop())
            .row(at::SR, I)
            .row(at::PENDING, 1)
            .stops(2, 0)
            .then_cell(200, word(0))
            .then(at::PENDING, 0)
            .then_at(11, 2),
        at_10("push of a handler, then its entry", instruction(PUSH, reg(A), NONE))
            .register(at::A, nop())
            .row(at::SP, 201)
            .row(at::SR, I)
            .row(at::PENDING, 1)
            .done()
            .then_cell(200, nop())
            .then(at::SP, 200)
            .then_entered(11, I, 0)
            .then(at::PENDING, 0)
            .then(at::CYCLES, 2),
    ]
}

/// I is looked at after the instruction.
fn interrupts_at_once() -> Vec<Directed> {
    vec![
        at_10("rti sets I with the mark pending", instruction(RTI, NONE, NONE))
            .row(at::SR, S)
            .row(at::PENDING, 1)
            .cell(100, word(77))
            .cell(101, word(I))
            .cell(200, nop())
            .done()
            .then_entered(77, I, 0)
            .then(at::PENDING, 0)
            .then(at::CYCLES, 2),
        at_10("ld sets I with the mark pending", instruction(LD, imm(S | I), reg(SR)))
            .row(at::SR, S)
            .row(at::PENDING, 1)
            .cell(200, nop())
            .done()
            .then_entered(11, S | I, 0)
            .then(at::PENDING, 0)
            .then(at::CYCLES, 2),
        at_10("ld clears I with the mark pending", instruction(LD, imm(S), reg(SR)))
            .row(at::SR, S | I)
            .row(at::PENDING, 1)
            .cell(200, nop())
            .done()
            .then(at::SR, S)
            .then_at(11, 1),
        at_10("out enables with bytes queued and I set", instruction(OUT, imm(1), dir(110)))
            .row(at::SR, S | I)
            .queue(&[1, 2, 3, 4], 0, 2)
            .cell(200, nop())
            .done()
            .then_entered(11, S | I, 0)
            .then(at::ENABLE, 1)
            .then(at::FLAG, 1)
            .then(at::CYCLES, 3),
        at_10("swap writes by the registers before entry", instruction(SWAP, idx(PC, 8), reg(PC)))
            .row(at::SR, I)
            .row(at::PENDING, 1)
            .cell(200, nop())
            .done()
            .empty(1)
            .then_cell(8, word(11))
            .then_entered(0, I, 0)
            .then(at::PENDING, 0)
            .then(at::CYCLES, 3),
    ]
}

/// A port is any address, never tested against the cells.
fn ports() -> Vec<Directed> {
    vec![
        at_10("port 4,294,967,295", instruction(IN, dir(4_294_967_295), reg(A)))
            .row(at::SR, S)
            .done()
            .then_register(at::A, word(0))
            .then_at(11, 2),
        at_10("port 4,294,967,296 is no address", instruction(IN, ind(B), reg(A)))
            .row(at::SR, S)
            .register(at::B, word(4_294_967_296))
            .stops(3, 0)
            .then(at::PC, 11),
        at_10("out to port 10,000", instruction(OUT, imm(1), dir(10_000)))
            .row(at::SR, S)
            .done()
            .then_at(11, 2),
    ]
}

fn no_flags() -> Vec<Directed> {
    let all = Z | N | V | 1;
    vec![
        at_10("ld sets no flags", instruction(LD, imm(0), reg(A)))
            .row(at::SR, N | V)
            .done()
            .then_register(at::A, word(0))
            .then_at(11, 1),
        at_10("pop sets no flags", instruction(POP, reg(A), NONE))
            .row(at::SR, all)
            .cell(1_000, word(5))
            .done()
            .then_register(at::A, word(5))
            .then(at::SP, 1_001)
            .then_at(11, 1),
        at_10("in sets no flags", instruction(IN, dir(5), reg(A)))
            .row(at::SR, S | all)
            .register(at::A, word(1))
            .done()
            .then_register(at::A, word(0))
            .then_at(11, 2),
    ]
}
