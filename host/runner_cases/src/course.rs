//! The course cases of document 01 as programs for the runner.

use layout::Cell;
use layout::cell::{EMPTY, word};
use layout::form::{NONE, dir, imm, ind, instruction, reg};
use layout::op::{CALL, DIV, FAS, JMP, LD, OUT, POP, PUSH, RESET, RTI, SHL, SHR, ST, SWAP, TRAP};
use layout::reg::{A, PC, SR};
use layout::sr::SUPERVISOR;

use crate::image::{Image, at_the_edge, judged};

fn reset() -> Cell {
    instruction(RESET, NONE, NONE)
}

/// A program from cell 0 on, in user mode.
fn program(cells: &[Cell]) -> Image {
    Image { start: [0, 0, 0], cells: (0..).zip(cells.iter().copied()).collect() }
}

fn started(start: [i64; 3], cells: &[(i64, Cell)]) -> Image {
    Image { start, cells: cells.to_vec() }
}

/// Each program with what answers for it.
pub fn programs() -> Vec<(Image, fn(&Image) -> String)> {
    let mut all: Vec<(Image, fn(&Image) -> String)> = Vec::new();
    all.extend(inside().into_iter().map(|image| (image, judged as fn(&Image) -> String)));
    all.extend(edges().into_iter().map(|image| (image, at_the_edge as fn(&Image) -> String)));
    all
}

fn inside() -> Vec<Image> {
    let ld = |w| instruction(LD, imm(w), reg(A));
    let shift = |o, n| program(&[ld(-5), instruction(o, imm(n), reg(A)), reset()]);
    let mut all = vec![
        program(&[[202, 5, 0], [20_702, 0, 0]]),
        program(&[[3_802, 0, 0]]),
        program(&[ld(i64::MIN), instruction(DIV, imm(-1), reg(A))]),
        program(&[ld(i64::MIN), instruction(DIV, imm(1), reg(A)), reset()]),
        program(&[ld(-7), instruction(DIV, imm(2), reg(A)), reset()]),
        // budget spent: a loop of one jump
        program(&[instruction(JMP, imm(0), NONE)]),
        // push at sp 0: sp wraps and stays
        program(&[instruction(PUSH, imm(5), NONE)]),
        // swap [%a],%a writes through the new a
        started(
            [10, 0, 0],
            &[(5, word(7)), (10, ld(5)), (11, instruction(SWAP, ind(A), reg(A))), (12, reset())],
        ),
        // fas [5],%sr in user mode: cell 5 is written, code 3
        started([10, 0, 0], &[(10, instruction(FAS, dir(5), reg(SR)))]),
        // the same with a handler that loads the cell
        started(
            [10, 0, 0],
            &[
                (10, instruction(FAS, dir(5), reg(SR))),
                (200, instruction(LD, dir(5), reg(A))),
                (201, reset()),
            ],
        ),
        // call pushes before its operand is read: [7] is the pushed pc
        started([10, 8, 0], &[(10, instruction(CALL, dir(7), NONE)), (11, reset())]),
        // pop into pc of an instruction: sp has moved all the same
        started([10, 20, 0], &[(10, instruction(POP, reg(PC), NONE)), (20, reset())]),
        // a privileged instruction in user mode, with and without handler, and in supervisor mode
        program(&[instruction(OUT, imm(65), dir(111))]),
        started([0, 0, 0], &[(0, instruction(OUT, imm(65), dir(111))), (200, reset())]),
        started([0, 0, SUPERVISOR], &[(0, instruction(OUT, imm(65), dir(111))), (1, reset())]),
        // trap into a handler, which returns
        started(
            [0, 0, 0],
            &[(0, instruction(TRAP, NONE, NONE)), (1, reset()), (200, instruction(RTI, NONE, NONE))],
        ),
        // an empty image: cell 0 is no instruction
        Image::default(),
        // sr may be any word
        started([0, 4_294_967_295, i64::MIN], &[(0, reset())]),
        // a later line over an earlier one
        started([0, 0, 0], &[(0, word(9)), (0, reset()), (2_047, word(-9)), (2_047, EMPTY)]),
    ];
    for o in [SHL, SHR] {
        all.extend([0, 1, 63, 64, -1].map(|n| shift(o, n)));
    }
    all
}

fn edges() -> Vec<Image> {
    let ld = |n| instruction(LD, dir(n), reg(A));
    let st = |n| instruction(ST, reg(A), dir(n));
    vec![
        started([2_047, 0, 0], &[(2_047, reset())]),
        started([2_048, 0, 0], &[(0, reset())]),
        started([9_999, 0, 0], &[]),
        started([10_000, 0, 0], &[]),
        started([4_294_967_295, 0, 0], &[]),
        program(&[ld(2_047), reset()]),
        program(&[ld(2_048)]),
        program(&[ld(10_000)]),
        program(&[st(2_047), reset()]),
        program(&[st(2_048)]),
        program(&[st(10_000)]),
    ]
}
