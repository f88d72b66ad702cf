//! Document 02, Card 5: "A write by st, swap, fas, push or call, in a step begun with S clear, to an address below the fence raises code 5
//! and leaves that cell. What the instruction did earlier stays done, as for an address outside memory. Entry to the handler still writes
//! cells 100 to 102."

use layout::cell::EMPTY;
use layout::refusal::NONE as DONE;

use super::*;
use crate::forms::*;

const FENCE: i64 = 400;

pub fn cases() -> Vec<Directed> {
    let below = writes(FENCE - 1);
    let mut cases: Vec<Directed> = below.iter().flat_map(Write::stopped).collect();
    cases.extend(writes(FENCE).iter().map(Write::on_the_fence));
    cases.extend(below.iter().map(Write::by_the_supervisor));
    assert_eq!(
        cases.len(),
        80,
        "16 forms: stopped in three ways, written on the fence, and by the supervisor"
    );
    cases.extend(mode_of_the_beginning());
    cases.extend(edges());
    cases.extend(saved_cells());
    cases.extend(before_the_write());
    cases.extend(words());
    cases.extend(reads());
    cases.extend(calls());
    cases
}

fn nop() -> Cell {
    instruction(NOP, NONE, NONE)
}

type Effect = Box<dyn Fn(Directed) -> Directed>;

/// An instruction that writes an address, what it does before, and what the write and the rest of it do.
struct Write {
    name: String,
    case: Directed,
    before: Effect,
    after: Effect,
}

/// One for each form; a is 7, and the cell at the address holds word 8.
fn writes(address: i64) -> Vec<Write> {
    let at = address as usize;
    let memory = [(dir(address), 1), (ind(B), address), (idx(B, -5), address + 5)];
    let write = |name: &str, cell: Cell, b: i64, before: Effect, after: Effect| {
        let name = format!("{name}, modes {} {}", Form::of_tag(cell[0]).m1, Form::of_tag(cell[0]).m2);
        let case = at_10(&name, cell).register(at::A, word(7)).register(at::B, word(b)).cell(at, word(8));
        Write { name, case: case.row(at::FENCE, FENCE), before, after }
    };
    let nothing = || -> Effect { Box::new(|case| case) };
    let mut all = Vec::new();
    for (x, b) in memory {
        let after = move |case: Directed| case.then_cell(at, word(7)).then_at(11, 2);
        all.push(write("st", instruction(ST, reg(A), x), b, nothing(), Box::new(after)));
        let before = |case: Directed| case.then_register(at::A, word(8));
        all.push(write("swap", instruction(SWAP, x, reg(A)), b, Box::new(before), Box::new(after)));
        let after =
            move |case: Directed| case.then_cell(at, word(1)).then_register(at::A, word(8)).then_at(11, 2);
        all.push(write("fas", instruction(FAS, x, reg(A)), b, nothing(), Box::new(after)));
    }
    let stack = |mut write: Write| {
        write.case = write.case.row(at::SP, address + 1);
        write.before = Box::new(move |case: Directed| case.then(at::SP, address));
        write
    };
    for (x, pushed) in [(imm(9), 9), (reg(A), 7)] {
        let after = move |case: Directed| case.then_cell(at, word(pushed)).then_at(11, 1);
        all.push(stack(write("push", instruction(PUSH, x, NONE), 1, nothing(), Box::new(after))));
    }
    for (x, b, cost) in
        [(imm(77), 1, 1), (reg(B), 77, 1), (dir(50), 1, 2), (ind(B), 50, 2), (idx(B, -5), 55, 2)]
    {
        let after = move |case: Directed| case.then_cell(at, word(11)).then_at(77, cost);
        let mut call = write("call", instruction(CALL, x, NONE), b, nothing(), Box::new(after));
        call.case = call.case.cell(50, word(77));
        all.push(stack(call));
    }
    all
}

impl Write {
    fn also(&self, with: &str) -> Directed {
        Directed { name: format!("{}, {with}", self.name), ..self.case.clone() }
    }

    /// Below the fence without a handler, with one, and with one and no cycle left for its entry.
    fn stopped(&self) -> [Directed; 3] {
        let handled = self.also("below the fence").cell(200, nop()).done();
        [
            (self.before)(self.also("below the fence, no handler")).stops(2, 5).then(at::PC, 11),
            (self.before)(handled).then_entered(11, 0, 5).then(at::CYCLES, 1),
            self.also("below the fence, full cycles").cell(200, nop()).row(at::CYCLES, MOST).stops(7, 0),
        ]
    }

    fn on_the_fence(&self) -> Directed {
        (self.after)((self.before)(self.also("on the fence").cell(200, nop()).done()))
    }

    fn by_the_supervisor(&self) -> Directed {
        let case = self.also("below the fence with S set").cell(200, nop()).row(at::SR, S).done();
        (self.after)((self.before)(case))
    }
}

fn fenced(name: &str, cell: Cell) -> Directed {
    at_10(name, cell).row(at::FENCE, FENCE).cell(200, nop())
}

/// After: code 5 was entered from pc 11 and this sr.
fn trapped(case: Directed, sr: i64) -> Directed {
    case.done().then_entered(11, sr, 5).then(at::CYCLES, 1)
}

/// S is that of the step's beginning.
fn mode_of_the_beginning() -> Vec<Directed> {
    let swap = |name: &str, x: Operand| fenced(name, instruction(SWAP, x, reg(SR))).register(at::B, word(50));
    let cleared = |case: Directed| {
        case.row(at::SR, S).cell(50, word(V)).then(at::SR, V).then_cell(50, word(S)).then_at(11, 2)
    };
    let st = instruction(ST, reg(B), dir(51));
    vec![
        cleared(swap("swap [50],%sr by the supervisor clears S and writes", dir(50)).done()),
        cleared(swap("swap [%b],%sr by the supervisor clears S and writes", ind(B)).done()),
        cleared(swap("swap [%b+0],%sr by the supervisor clears S and writes", idx(B, 0)).done()),
        cleared(swap("the step behind such a swap is fenced", dir(50)).cell(11, st).run(2, 0, 0, 2))
            .then_entered(12, V, 5)
            .then(at::CYCLES, 3),
        fenced("fas [50],%sr by the supervisor writes and clears S", instruction(FAS, dir(50), reg(SR)))
            .row(at::SR, S)
            .cell(50, word(V))
            .done()
            .then_cell(50, word(1))
            .then(at::SR, V)
            .then_at(11, 2),
        swap("swap [50],%sr in user mode is code 3 before it writes", dir(50))
            .cell(50, word(S))
            .done()
            .then_entered(11, 0, 3)
            .then(at::CYCLES, 1),
        fenced("ld 0,%sr, then a store", instruction(LD, imm(0), reg(SR)))
            .row(at::SR, S)
            .register(at::B, word(7))
            .cell(11, st)
            .run(2, 0, 0, 2)
            .then_entered(12, 0, 5)
            .then(at::CYCLES, 2),
        fenced("rti, then a store", instruction(RTI, NONE, NONE))
            .row(at::SR, S)
            .register(at::B, word(7))
            .cell(100, word(20))
            .cell(101, word(N))
            .cell(20, st)
            .run(2, 0, 0, 2)
            .then_entered(21, N, 5)
            .then(at::CYCLES, 2),
        fenced("the handler writes below the fence", instruction(ST, reg(B), dir(51)))
            .register(at::B, word(7))
            .cell(200, instruction(ST, reg(B), dir(52)))
            .run(2, 0, 0, 2)
            .then_entered(11, 0, 5)
            .then_cell(52, word(7))
            .then_at(201, 3),
        fenced("the handler returns behind the store", instruction(ST, reg(B), dir(51)))
            .register(at::B, word(7))
            .cell(200, instruction(RTI, NONE, NONE))
            .row(at::SR, V)
            .run(2, 0, 0, 2)
            .then_entered(11, V, 5)
            .then(at::SR, V)
            .then_at(11, 2),
        trapped(
            fenced("a stopped store does not poll", instruction(ST, reg(B), dir(51)))
                .register(at::B, word(7))
                .row(at::SR, I)
                .row(at::PENDING, 1),
            I,
        ),
        fenced("one cycle left for the entry", instruction(PUSH, imm(1), NONE))
            .row(at::SP, 400)
            .row(at::CYCLES, MOST - 1)
            .done()
            .then(at::SP, 399)
            .then_entered(11, 0, 5)
            .then(at::CYCLES, MOST),
    ]
}

/// Fences 0, 1 and the count of cells; sp at the edge.
fn edges() -> Vec<Directed> {
    let st = |name: &str, fence: i64, address: i64| {
        at_10(name, instruction(ST, reg(A), dir(address)))
            .row(at::FENCE, fence)
            .register(at::A, word(7))
            .cell(200, nop())
    };
    let made = |case: Directed, address: usize| case.done().then_cell(address, word(7)).then_at(11, 2);
    let push = |name: &str, fence: i64, sp: i64| {
        at_10(name, instruction(PUSH, imm(9), NONE)).row(at::FENCE, fence).row(at::SP, sp).cell(200, nop())
    };
    vec![
        made(st("fence 0, st [0]", 0, 0), 0),
        trapped(st("fence 1, st [0]", 1, 0), 0),
        made(st("fence 1, st [1]", 1, 1), 1),
        made(st("fence 9,999, st [9999]", 9_999, 9_999), 9_999),
        trapped(st("fence 10,000, st [9999]", 10_000, 9_999), 0),
        trapped(st("fence 10,000, st [10000] is outside", 10_000, 10_000), 0),
        trapped(st("fence 10,000, st [10]: its own cell", 10_000, 10), 0),
        trapped(push("fence 1, push at sp 1", 1, 1), 0).then(at::SP, 0),
        push("fence 1, push at sp 2", 1, 2).done().then(at::SP, 1).then_cell(1, word(9)).then_at(11, 1),
        trapped(push("fence 1, push at sp 0 wraps", 1, 0), 0).then(at::SP, 4_294_967_295),
        trapped(push("fence 10,000, push at sp 10,000", 10_000, 10_000), 0).then(at::SP, 9_999),
        trapped(push("fence 10,000, push at sp 10,001 is outside", 10_000, 10_001), 0).then(at::SP, 10_000),
    ]
}

/// Entry, by an exception, the poll or raise, writes cells 100 to 102 under any fence.
fn saved_cells() -> Vec<Directed> {
    let under = |name: &str, cell: Cell| at_10(name, cell).row(at::FENCE, 10_000).cell(200, nop());
    let raise = |name: &str, sr: i64| {
        machine(name)
            .row(at::FENCE, 10_000)
            .row(at::SR, sr)
            .row(at::PC, 77)
            .cell(200, nop())
            .call(Call::Raise(4), Answer::DONE)
            .then_entered(77, sr, 4)
            .then(at::CYCLES, 1)
    };
    let st_100 = |name: &str, fence: i64| {
        at_10(name, instruction(ST, reg(A), dir(100)))
            .row(at::FENCE, fence)
            .register(at::A, word(7))
            .cell(200, nop())
    };
    vec![
        under("trap under a fence of 10,000", instruction(TRAP, NONE, NONE))
            .done()
            .then_entered(11, 0, 4)
            .then(at::CYCLES, 1),
        under("the poll under a fence of 10,000", nop())
            .row(at::SR, I)
            .row(at::PENDING, 1)
            .done()
            .then_entered(11, I, 0)
            .then(at::PENDING, 0)
            .then(at::CYCLES, 2),
        under("a fetch outside under a fence of 10,000", nop())
            .row(at::PC, 10_000)
            .done()
            .then_entered(10_000, 0, 5)
            .then(at::CYCLES, 1),
        trapped(st_100("fence 101, st [100]: the entry writes there", 101), 0),
        st_100("fence 100, st [100]", 100).done().then_cell(100, word(7)).then_at(11, 2),
        raise("raise under a fence with S clear", V),
        raise("raise under a fence with S set", S),
    ]
}

/// What comes before the write, and what is not done behind it.
fn before_the_write() -> Vec<Directed> {
    let fas = |name: &str, y: i64, held: Cell| {
        fenced(name, instruction(FAS, dir(50), reg(y))).cell(50, held).register(at::A, word(7))
    };
    vec![
        trapped(fas("fas [50],%sr in user mode is code 5, not 3", SR, word(S)), 0),
        trapped(fas("fas [50],%pc of no address is code 5, not stop 5", PC, word(-1)), 0),
        trapped(fas("fas [50],%a of an instruction", A, nop()), 0),
        at_10("fas [400],%sr in user mode writes, then code 3", instruction(FAS, dir(FENCE), reg(SR)))
            .row(at::FENCE, FENCE)
            .cell(200, nop())
            .done()
            .then_cell(400, word(1))
            .then_entered(11, 0, 3)
            .then(at::CYCLES, 1),
        trapped(fenced("fas outside stays code 5", instruction(FAS, dir(10_000), reg(A))), 0),
        fenced("fas through no address stays stop 3", instruction(FAS, ind(B), reg(A)))
            .register(at::B, word(-1))
            .stops(3, 0)
            .then(at::PC, 11),
        trapped(
            fenced("swap [%a],%a writes through the new a", instruction(SWAP, ind(A), reg(A)))
                .register(at::A, word(500))
                .cell(500, word(50)),
            0,
        )
        .then_register(at::A, word(50)),
        fenced("swap [%a],%a reads below and writes above", instruction(SWAP, ind(A), reg(A)))
            .register(at::A, word(50))
            .cell(50, word(500))
            .done()
            .then_register(at::A, word(500))
            .then_cell(500, word(50))
            .then_at(11, 2),
        fenced("swap [50],%pc has set pc", instruction(SWAP, dir(50), reg(PC)))
            .cell(50, word(77))
            .done()
            .then_entered(77, 0, 5)
            .then(at::CYCLES, 1),
        fenced("swap [50],%sp has set sp", instruction(SWAP, dir(50), reg(SP)))
            .cell(50, word(77))
            .done()
            .then(at::SP, 77)
            .then_entered(11, 0, 5)
            .then(at::CYCLES, 1),
        fenced("swap [50],%pc of no address is stop 5", instruction(SWAP, dir(50), reg(PC)))
            .cell(50, word(-1))
            .stops(5, 2)
            .then(at::PC, 11),
        fenced("swap %a,%b writes no cell", instruction(SWAP, reg(A), reg(B)))
            .register(at::A, word(1))
            .register(at::B, word(2))
            .done()
            .then_register(at::A, word(2))
            .then_register(at::B, word(1))
            .then_at(11, 1),
        fenced("st of an instruction is stop 4", instruction(ST, reg(A), dir(50)))
            .register(at::A, nop())
            .stops(4, 0)
            .then(at::PC, 11),
        fenced("st through no address is stop 3", instruction(ST, reg(A), ind(B)))
            .register(at::A, word(7))
            .register(at::B, word(-1))
            .stops(3, 0)
            .then(at::PC, 11),
        trapped(
            fenced("call below the fence does not read outside", instruction(CALL, dir(10_000), NONE))
                .row(at::SP, 400),
            0,
        )
        .then(at::SP, 399),
        trapped(
            fenced(
                "call below the fence does not take a target that is none",
                instruction(CALL, imm(-1), NONE),
            )
            .row(at::SP, 400),
            0,
        )
        .then(at::SP, 399),
        trapped(
            fenced("push of an instruction below the fence", instruction(PUSH, reg(A), NONE))
                .register(at::A, nop())
                .row(at::SP, 400),
            0,
        )
        .then(at::SP, 399),
    ]
}

/// Words from empty cells: those taken before the write count.
fn words() -> Vec<Directed> {
    vec![
        trapped(fenced("st %a,[%b], both empty", instruction(ST, reg(A), ind(B))), 0).empty(2),
        trapped(fenced("fas [%b],%sp: the address alone", instruction(FAS, ind(B), reg(SP))), 0).empty(1),
        trapped(fenced("fas [50],%sp: nothing", instruction(FAS, dir(50), reg(SP))), 0),
        trapped(fenced("swap [%b],%a: the address twice", instruction(SWAP, ind(B), reg(A))), 0)
            .empty(2)
            .then_register(at::A, EMPTY),
        trapped(fenced("swap [50],%sp: the cell put into sp", instruction(SWAP, dir(50), reg(SP))), 0)
            .empty(1)
            .then(at::SP, 0),
        trapped(
            fenced("call [%b] below the fence: nothing", instruction(CALL, ind(B), NONE)).row(at::SP, 400),
            0,
        )
        .then(at::SP, 399),
        fenced("st %a,[%b] without handler counts nothing", instruction(ST, reg(A), ind(B)))
            .cell(200, EMPTY)
            .stops(2, 5)
            .then(at::PC, 11),
    ]
}

/// Reads, fetch and returns are not fenced.
fn reads() -> Vec<Directed> {
    let read = |name: &str, cell: Cell| fenced(name, cell).row(at::FENCE, 10_000);
    vec![
        read("ld [50],%a", instruction(LD, dir(50), reg(A)))
            .cell(50, word(8))
            .done()
            .then_register(at::A, word(8))
            .then_at(11, 2),
        read("jmp [50]", instruction(JMP, dir(50), NONE)).cell(50, word(8)).done().then_at(8, 2),
        read("pop %a", instruction(POP, reg(A), NONE))
            .cell(1_000, word(8))
            .done()
            .then_register(at::A, word(8))
            .then(at::SP, 1_001)
            .then_at(11, 1),
        read("rtn", instruction(RTN, NONE, NONE))
            .cell(1_000, word(8))
            .done()
            .then(at::SP, 1_001)
            .then_at(8, 1),
    ]
}

/// The other calls keep the fence, which may be the count of cells.
fn calls() -> Vec<Directed> {
    let machine = |name: &str| machine(name).row(at::FENCE, 10_000);
    let done = Answer::refused(DONE);
    vec![
        machine("deliver keeps the fence")
            .call(Call::Deliver(vec![5]), done)
            .then_queue(0, 5)
            .then(at::QUEUE_COUNT, 1),
        machine("drain keeps the fence")
            .output(&[5, 6], 1)
            .call(Call::Drain(2), Answer { count: 1, ..done })
            .then(at::OUTPUT_COUNT, 0),
        machine("set register keeps the fence").call(Call::SetRegister(SP as u64, 9), done).then(at::SP, 9),
        machine("raise without handler keeps the fence")
            .call(Call::Raise(3), Answer { stop: 2, detail: 3, ..done }),
    ]
}
