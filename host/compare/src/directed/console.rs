//! Ports 110 and 111, and the others.

use super::*;
use crate::forms::*;

const BYTES: [u8; 4] = [11, 22, 33, 44];

pub fn cases() -> Vec<Directed> {
    let mut cases = reads();
    cases.extend(writes());
    cases
}

fn input(name: &str, port: i64) -> Directed {
    at_10(name, instruction(IN, dir(port), reg(A))).row(at::SR, S)
}

fn reads() -> Vec<Directed> {
    vec![
        input("status of an idle console", 110).done().then_register(at::A, word(2)).then_at(11, 2),
        input("status with bytes and flag; the pending mark stays", 110)
            .queue(&BYTES, 0, 1)
            .row(at::FLAG, 1)
            .row(at::PENDING, 1)
            .done()
            .then_register(at::A, word(7))
            .then(at::FLAG, 0)
            .then_at(11, 2),
        input("the oldest byte; its place keeps it", 111)
            .queue(&BYTES, 1, 2)
            .done()
            .then_register(at::A, word(22))
            .then(at::QUEUE_START, 2)
            .then(at::QUEUE_COUNT, 1)
            .then_at(11, 2),
        input("the start wraps", 111)
            .queue(&BYTES, 3, 4)
            .done()
            .then_register(at::A, word(44))
            .then(at::QUEUE_START, 0)
            .then(at::QUEUE_COUNT, 3)
            .then_at(11, 2),
        input("a queue of one place", 111)
            .queue(&[9], 0, 1)
            .done()
            .then_register(at::A, word(9))
            .then(at::QUEUE_COUNT, 0)
            .then_at(11, 2),
        input("no byte reads 0 and moves nothing", 111)
            .queue(&BYTES, 3, 0)
            .done()
            .then_register(at::A, word(0))
            .then_at(11, 2),
        input("another port reads 0", 112)
            .queue(&BYTES, 0, 4)
            .register(at::A, word(5))
            .done()
            .then_register(at::A, word(0))
            .then_at(11, 2),
        at_10("in into sp", instruction(IN, dir(111), reg(SP)))
            .row(at::SR, S)
            .queue(&BYTES, 0, 1)
            .done()
            .then(at::SP, 11)
            .then(at::QUEUE_START, 1)
            .then(at::QUEUE_COUNT, 0)
            .then_at(11, 2),
        at_10("in in user mode reads nothing", instruction(IN, dir(111), reg(A)))
            .queue(&BYTES, 0, 1)
            .stops(2, 3)
            .then(at::PC, 11),
    ]
}

fn output(name: &str, number: i64, port: i64) -> Directed {
    at_10(name, instruction(OUT, imm(number), dir(port))).row(at::SR, S)
}

fn writes() -> Vec<Directed> {
    vec![
        output("out keeps the low 8 bits", 511, 111)
            .output(&[7, 7], 1)
            .done()
            .then_output(1, 255)
            .then(at::OUTPUT_COUNT, 2)
            .then_at(11, 2),
        output("out of a negative word", -2, 111)
            .done()
            .then_output(0, 254)
            .then(at::OUTPUT_COUNT, 1)
            .then_at(11, 2),
        output("enable without bytes", 3, 110).done().then(at::ENABLE, 1).then_at(11, 2),
        output("enable with bytes sets flag and mark", 1, 110)
            .queue(&BYTES, 0, 1)
            .done()
            .then(at::ENABLE, 1)
            .then(at::FLAG, 1)
            .then(at::PENDING, 1)
            .then_at(11, 2),
        output("enabled before, too", -1, 110)
            .queue(&BYTES, 0, 1)
            .row(at::ENABLE, 1)
            .done()
            .then(at::FLAG, 1)
            .then(at::PENDING, 1)
            .then_at(11, 2),
        output("an even number disables and leaves the marks", 2, 110)
            .queue(&BYTES, 0, 1)
            .row(at::ENABLE, 1)
            .row(at::FLAG, 1)
            .row(at::PENDING, 1)
            .done()
            .then(at::ENABLE, 0)
            .then_at(11, 2),
        output("another port swallows", 65, 109).done().then_at(11, 2),
        at_10("out in user mode", instruction(OUT, imm(1), dir(110)))
            .queue(&BYTES, 0, 1)
            .stops(2, 3)
            .then(at::PC, 11),
    ]
}
