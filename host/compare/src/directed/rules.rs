//! Sentences on instructions, memory and exception entry.

use layout::cell::EMPTY;

use super::*;
use crate::forms::*;

pub fn cases() -> Vec<Directed> {
    let mut cases = arithmetic();
    cases.extend(results_in_sr());
    cases.extend(cells_carried());
    cases.extend(addresses());
    cases.extend(fetch_and_entry());
    cases.extend(control());
    cases
}

fn arithmetic() -> Vec<Directed> {
    let on_a = |name: &str, op: i64, operand: i64, a: i64, result: i64, before: i64, after: i64| {
        at_10(name, instruction(op, imm(operand), reg(A)))
            .register(at::A, word(a))
            .row(at::SR, before)
            .done()
            .then_register(at::A, word(result))
            .then_at(11, 1)
            .then(at::SR, after)
    };
    vec![
        on_a("add wraps", ADD, 1, i64::MAX, i64::MIN, Z, V | N),
        on_a("add clears V", ADD, -1, 1, 0, V | N, Z),
        on_a("sub is register - operand", SUB, 3, 10, 7, V | Z | N, 0),
        on_a("sub wraps", SUB, 1, i64::MIN, i64::MAX, 0, V),
        on_a("mul wraps", MUL, i64::MIN, -1, i64::MIN, 0, V | N),
        on_a("mul", MUL, -3, 4, -12, V, N),
        on_a("and leaves V", AND, 6, 9, 0, V | N, V | Z),
        on_a("or leaves V", OR, i64::MIN, 1, i64::MIN + 1, V, V | N),
        on_a("xor leaves V", XOR, 5, 5, 0, V, V | Z),
        on_a("div leaves V", DIV, 5, 3, 0, V, V | Z),
        on_a("shl leaves V", SHL, 2, 5, 20, V | Z, V),
        on_a("shr leaves V", SHR, 2, 20, 5, V | N, V),
        on_a("cmp equal", CMP, 4, 4, 4, V | N, V | Z),
        on_a("cmp operand below register", CMP, -4, 4, 4, Z, N),
        on_a("cmp is no difference", CMP, i64::MIN, i64::MAX, i64::MAX, 0, N),
        on_a("cmp operand above register", CMP, i64::MAX, i64::MIN, i64::MIN, Z | N, 0),
        on_a("other bits of sr stay", ADD, 0, 0, 0, !S & !I, !S & !I & !V & !N),
        at_10("neg of the smallest", instruction(NEG, reg(A), NONE))
            .register(at::A, word(i64::MIN))
            .done()
            .then_at(11, 1)
            .then(at::SR, V | N),
        at_10("not leaves V", instruction(NOT, reg(B), NONE))
            .register(at::B, word(-1))
            .row(at::SR, V)
            .done()
            .then_register(at::B, word(0))
            .then_at(11, 1)
            .then(at::SR, V | Z),
        at_10("empty reads as 0, and neg makes it a word", instruction(NEG, reg(A), NONE))
            .done()
            .empty(1)
            .then_register(at::A, word(0))
            .then_at(11, 1)
            .then(at::SR, Z),
    ]
}

/// The register is written before the flags.
fn results_in_sr() -> Vec<Directed> {
    vec![
        at_10("neg %sr: flags fall over the result", instruction(NEG, reg(SR), NONE))
            .row(at::SR, S)
            .done()
            .then_at(11, 1)
            .then(at::SR, -508),
        at_10("sub 512,%sr leaves user mode", instruction(SUB, imm(S), reg(SR)))
            .row(at::SR, S | V)
            .done()
            .then_at(11, 1)
            .then(at::SR, 0),
        at_10("xor makes sr 0, so Z is set", instruction(XOR, imm(S), reg(SR)))
            .row(at::SR, S)
            .done()
            .then_at(11, 1)
            .then(at::SR, Z),
        at_10("unnamed bits are kept in sr", instruction(LD, imm(-1), reg(SR)))
            .row(at::SR, S)
            .done()
            .then_at(11, 1)
            .then(at::SR, -1),
        at_10("sr in user mode, whatever the value", instruction(LD, imm(0), reg(SR)))
            .stops(2, 3)
            .then(at::PC, 11),
        at_10("an instruction for sr in user mode", instruction(LD, reg(A), reg(SR)))
            .register(at::A, instruction(NOP, NONE, NONE))
            .stops(2, 3)
            .then(at::PC, 11),
    ]
}

fn cells_carried() -> Vec<Directed> {
    let nop = instruction(NOP, NONE, NONE);
    vec![
        at_10("ld carries an instruction", instruction(LD, dir(50), reg(A)))
            .cell(50, nop)
            .done()
            .then_register(at::A, nop)
            .then_at(11, 2),
        at_10("ld carries an empty cell", instruction(LD, dir(50), reg(A)))
            .register(at::A, word(4))
            .done()
            .then_register(at::A, EMPTY)
            .then_at(11, 2),
        at_10("push carries an empty cell", instruction(PUSH, reg(A), NONE))
            .cell(999, word(4))
            .done()
            .then_cell(999, EMPTY)
            .then(at::SP, 999)
            .then_at(11, 1),
        at_10("push carries an instruction", instruction(PUSH, reg(B), NONE))
            .register(at::B, nop)
            .done()
            .then_cell(999, nop)
            .then(at::SP, 999)
            .then_at(11, 1),
        at_10("pop carries an instruction", instruction(POP, reg(B), NONE))
            .cell(1_000, nop)
            .done()
            .then_register(at::B, nop)
            .then(at::SP, 1_001)
            .then_at(11, 1),
        at_10("swap carries cells of any kind", instruction(SWAP, dir(50), reg(A)))
            .register(at::A, nop)
            .done()
            .then_register(at::A, EMPTY)
            .then_cell(50, nop)
            .then_at(11, 2),
        at_10("fas carries an instruction", instruction(FAS, dir(50), reg(A)))
            .cell(50, nop)
            .done()
            .then_register(at::A, nop)
            .then_cell(50, word(1))
            .then_at(11, 2),
        at_10("st of empty is word 0", instruction(ST, reg(A), dir(50)))
            .done()
            .empty(1)
            .then_cell(50, word(0))
            .then_at(11, 2),
        at_10("st of an instruction stops", instruction(ST, reg(A), dir(50)))
            .register(at::A, nop)
            .stops(4, 0)
            .then(at::PC, 11),
        at_10("an empty cell into sp is 0", instruction(LD, dir(50), reg(SP)))
            .done()
            .empty(1)
            .then(at::SP, 0)
            .then_at(11, 2),
        at_10("an instruction into sp", instruction(LD, dir(50), reg(SP)))
            .cell(50, nop)
            .stops(5, 3)
            .then(at::PC, 11),
        at_10("an instruction into sr in supervisor mode", instruction(LD, dir(50), reg(SR)))
            .cell(50, nop)
            .row(at::SR, S)
            .stops(5, 4)
            .then(at::PC, 11),
    ]
}

fn addresses() -> Vec<Directed> {
    let indexed = |number: i64| instruction(LD, idx(A, number), reg(B));
    vec![
        at_10("an indexed sum wraps before it is tested", indexed(i64::MIN + 5))
            .register(at::A, word(i64::MIN))
            .cell(5, word(8))
            .done()
            .then_register(at::B, word(8))
            .then_at(11, 2),
        at_10("an indexed sum past the largest word is no address", indexed(1))
            .register(at::A, word(i64::MAX))
            .stops(4, 0)
            .then(at::PC, 11),
        at_10("a negative base with an index", indexed(3))
            .register(at::A, word(-1))
            .cell(2, word(8))
            .done()
            .then_register(at::B, word(8))
            .then_at(11, 2),
        at_10("4,294,967,296 is no address", instruction(JMP, imm(4_294_967_296), NONE))
            .stops(4, 0)
            .then(at::PC, 11),
        at_10("4,294,967,295 is one", instruction(JMP, imm(4_294_967_295), NONE))
            .done()
            .then_at(4_294_967_295, 1),
        at_10("an empty register is base 0", instruction(LD, ind(A), reg(B)))
            .cell(0, word(8))
            .done()
            .empty(1)
            .then_register(at::B, word(8))
            .then_at(11, 2),
        at_10("pop at sp 10,000 leaves sp", instruction(POP, reg(A), NONE))
            .row(at::SP, 10_000)
            .stops(2, 5)
            .then(at::PC, 11),
        at_10("rtn at sp 10,000 leaves sp", instruction(RTN, NONE, NONE))
            .row(at::SP, 10_000)
            .stops(2, 5)
            .then(at::PC, 11),
        at_10("push at the largest sp", instruction(PUSH, imm(7), NONE))
            .row(at::SP, 4_294_967_295)
            .stops(2, 5)
            .then(at::SP, 4_294_967_294)
            .then(at::PC, 11),
        at_10("push at sp 10,000 writes 9,999", instruction(PUSH, imm(7), NONE))
            .row(at::SP, 10_000)
            .done()
            .then_cell(9_999, word(7))
            .then(at::SP, 9_999)
            .then_at(11, 1),
    ]
}

fn fetch_and_entry() -> Vec<Directed> {
    let nop = instruction(NOP, NONE, NONE);
    vec![
        at_10("an empty cell is no instruction", EMPTY).stops(2, 2).then(at::PC, 11),
        at_10("a word is no instruction", word(20_702))
            .cell(200, nop)
            .done()
            .then_entered(11, 0, 2)
            .then(at::CYCLES, 1),
        machine("fetch outside enters with pc unmoved")
            .row(at::PC, 10_000)
            .cell(200, nop)
            .done()
            .then_entered(10_000, 0, 5)
            .then(at::CYCLES, 1),
        at_10("sr is saved before S is set, I is kept", instruction(TRAP, NONE, NONE))
            .row(at::SR, I | V)
            .cell(200, nop)
            .done()
            .then_entered(11, I | V, 4)
            .then(at::CYCLES, 1),
        at_10("code 0 clears I", nop)
            .row(at::SR, I | S | Z)
            .row(at::PENDING, 1)
            .cell(200, nop)
            .done()
            .then_entered(11, I | S | Z, 0)
            .then(at::PENDING, 0)
            .then(at::CYCLES, 2),
        at_10("no handler: nothing saved, no cycle", instruction(TRAP, NONE, NONE))
            .cell(200, word(5))
            .cell(100, word(8))
            .stops(2, 4)
            .then(at::PC, 11),
    ]
}

fn control() -> Vec<Directed> {
    let nop = instruction(NOP, NONE, NONE);
    vec![
        at_10("reset in user mode", instruction(RESET, NONE, NONE)).stops(1, 0),
        at_10("trap in supervisor mode", instruction(TRAP, NONE, NONE))
            .row(at::SR, S)
            .cell(200, nop)
            .done()
            .then_entered(11, S, 4)
            .then(at::CYCLES, 1),
        at_10("rti in user mode", instruction(RTI, NONE, NONE)).stops(2, 3).then(at::PC, 11),
        at_10("rti", instruction(RTI, NONE, NONE))
            .row(at::SR, S)
            .cell(100, word(77))
            .cell(101, word(!S))
            .done()
            .then_at(77, 1)
            .then(at::SR, !S),
        at_10("rti sets pc before it reads cell 101", instruction(RTI, NONE, NONE))
            .row(at::SR, S)
            .cell(100, word(77))
            .cell(101, nop)
            .stops(3, 0)
            .then(at::PC, 77),
        at_10("rti to no address", instruction(RTI, NONE, NONE))
            .row(at::SR, S)
            .cell(100, word(-1))
            .stops(3, 0)
            .then(at::PC, 11),
        at_10("rti with empty cells", instruction(RTI, NONE, NONE))
            .row(at::SR, S)
            .done()
            .empty(2)
            .then_at(0, 1)
            .then(at::SR, 0),
        at_10("a jump not taken reads nothing and costs the same", instruction(JEQ, dir(10_000), NONE))
            .done()
            .then_at(11, 2),
        at_10("a jump taken reads", instruction(JEQ, dir(10_000), NONE))
            .row(at::SR, Z)
            .stops(2, 5)
            .then(at::PC, 11),
        at_10("rtn", instruction(RTN, NONE, NONE))
            .cell(1_000, word(77))
            .done()
            .then(at::SP, 1_001)
            .then_at(77, 1),
    ]
}
