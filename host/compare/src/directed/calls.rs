//! Deliver, drain, raise and set register.

use super::*;
use crate::forms::*;

const DONE: Answer = Answer::DONE;

pub fn cases() -> Vec<Directed> {
    let mut cases = delivering();
    cases.extend(draining());
    cases.extend(raising());
    cases.extend(setting());
    cases
}

fn delivering() -> Vec<Directed> {
    let deliver = |bytes: &[u8]| Call::Deliver(bytes.to_vec());
    vec![
        machine("deliver wraps")
            .queue(&[1, 2, 3], 2, 1)
            .call(deliver(&[7, 8]), DONE)
            .then_queue(0, 7)
            .then_queue(1, 8)
            .then(at::QUEUE_COUNT, 3),
        machine("deliver with enable set")
            .queue(&[1, 2, 3], 0, 0)
            .row(at::ENABLE, 1)
            .call(deliver(&[7]), DONE)
            .then_queue(0, 7)
            .then(at::QUEUE_COUNT, 1)
            .then(at::FLAG, 1)
            .then(at::PENDING, 1),
        machine("delivering none does nothing")
            .queue(&[1, 2, 3], 0, 1)
            .row(at::ENABLE, 1)
            .call(deliver(&[]), DONE),
        machine("deliver to a full queue")
            .queue(&[1, 2, 3], 1, 3)
            .row(at::ENABLE, 1)
            .call(deliver(&[7]), Answer::refused(6)),
        machine("one byte too many").queue(&[1, 2, 3], 1, 1).call(deliver(&[7, 8, 9]), Answer::refused(6)),
        machine("the last free places")
            .queue(&[1, 2, 3], 1, 1)
            .call(deliver(&[7, 8]), DONE)
            .then_queue(2, 7)
            .then_queue(0, 8)
            .then(at::QUEUE_COUNT, 3),
        machine("a read byte leaves its place free")
            .cell(0, instruction(IN, dir(111), reg(A)))
            .row(at::SR, S)
            .queue(&[1, 2], 1, 2)
            .run(1, 0, 0, 1)
            .call(deliver(&[9]), DONE)
            .then_register(at::A, word(2))
            .then_queue(1, 9)
            .then(at::QUEUE_START, 0)
            .then_at(1, 2),
    ]
}

fn draining() -> Vec<Directed> {
    vec![
        machine("drain leaves the record's bytes")
            .output(&[7, 8, 9], 2)
            .call(Call::Drain(5), Answer { count: 2, ..DONE })
            .then(at::OUTPUT_COUNT, 0),
        machine("drain into as many places")
            .output(&[7, 8, 9], 3)
            .call(Call::Drain(3), Answer { count: 3, ..DONE })
            .then(at::OUTPUT_COUNT, 0),
        machine("drain nothing").output(&[7, 8, 9], 0).call(Call::Drain(0), DONE),
        machine("drain into too few places").output(&[7, 8, 9], 3).call(Call::Drain(2), Answer::refused(7)),
        machine("out after drain starts from the front")
            .cell(0, instruction(OUT, imm(65), dir(111)))
            .row(at::SR, S)
            .output(&[7, 8], 2)
            .run(1, 6, 0, 0)
            .call(Call::Drain(2), Answer { count: 2, ..DONE })
            .run(1, 0, 0, 1)
            .then_output(0, 65)
            .then(at::OUTPUT_COUNT, 1)
            .then_at(1, 2),
    ]
}

fn raising() -> Vec<Directed> {
    let nop = instruction(NOP, NONE, NONE);
    let mut cases = Vec::new();
    for code in 0..6 {
        let base = |name: &str| {
            machine(&format!("{name} {code}")).row(at::PC, 77).row(at::SR, I | V).row(at::PENDING, 1)
        };
        let raise = Call::Raise(code);
        let stop_2 = Answer { stop: 2, detail: code, ..DONE };
        let stop_7 = Answer { stop: 7, ..DONE };
        cases.push(
            base("raise")
                .cell(200, nop)
                .call(raise.clone(), DONE)
                .then_entered(77, I | V, code as i64)
                .then(at::CYCLES, 1),
        );
        cases.push(base("raise without handler").cell(200, word(1)).call(raise.clone(), stop_2));
        let full = base("raise with full cycles").row(at::CYCLES, MOST);
        cases.push(full.cell(200, nop).call(raise.clone(), stop_7));
        let full = base("raise with full cycles and no handler").row(at::CYCLES, MOST);
        cases.push(full.call(raise, stop_2));
    }
    cases.push(machine("raise 6").cell(200, nop).call(Call::Raise(6), Answer::refused(11)));
    cases
}

fn setting() -> Vec<Directed> {
    let set = |reg: i64, word: i64| Call::SetRegister(reg as u64, word);
    vec![
        machine("set a").call(set(0, i64::MIN), DONE).then_register(at::A, word(i64::MIN)),
        machine("set b over an instruction")
            .register(at::B, instruction(NOP, NONE, NONE))
            .call(set(1, 0), DONE)
            .then_register(at::B, word(0)),
        machine("set pc").call(set(2, 4_294_967_295), DONE).then(at::PC, 4_294_967_295),
        machine("set sp").call(set(3, 10_000), DONE).then(at::SP, 10_000),
        machine("set pc to no address").call(set(2, 4_294_967_296), Answer::refused(10)),
        machine("set sp to no address").call(set(3, -1), Answer::refused(10)),
        machine("set sr").row(at::SR, S).call(set(4, 0), Answer::refused(10)),
        machine("set no register").call(set(5, 0), Answer::refused(10)),
    ]
}
