//! The six loops, as cells. None of them touches the console; the last has the timer on.

use layout::cell::{self, EMPTY, word};
use layout::form::{NONE, dir, idx, imm, ind, instruction, reg};
use layout::limit::CELLS_MOST;
use layout::memory::INTERRUPT_HANDLER;
use layout::op::{ADD, CALL, CMP, JMP, JNE, LD, MUL, POP, PUSH, RTI, RTN, ST, SUB, TRAP, XOR};
use layout::reg::{A, B};
use layout::sr::INTERRUPT_ENABLE;
use layout::{Cell, ROW, Row, at, row};

pub struct Program {
    pub name: &'static str,
    pub cells: Vec<i64>,
    pub row: Row,
}

fn program(name: &'static str, lines: &[(usize, Cell)]) -> Program {
    let mut cells = vec![0; cell::LENGTH * CELLS_MOST];
    for (address, line) in lines {
        cell::put(&mut cells, *address, *line);
    }
    let mut row = [0; ROW];
    row::put_cell(&mut row, at::B, word(300));
    row[at::SP] = 1_000;
    Program { name, cells, row }
}

pub fn all() -> Vec<Program> {
    let again = instruction(JMP, imm(0), NONE);
    vec![
        program(
            "a  add mul xor sub cmp jne",
            &[
                (0, instruction(ADD, imm(3), reg(A))),
                (1, instruction(MUL, imm(5), reg(A))),
                (2, instruction(XOR, reg(B), reg(A))),
                (3, instruction(SUB, imm(7), reg(A))),
                (4, instruction(CMP, imm(0), reg(B))),
                (5, instruction(JNE, imm(0), NONE)),
            ],
        ),
        program("a' add jmp", &[(0, instruction(ADD, imm(1), reg(A))), (1, again)]),
        program(
            "b  ld st direct indirect indexed",
            &[
                (0, instruction(LD, dir(310), reg(A))),
                (1, instruction(ST, reg(A), dir(311))),
                (2, instruction(LD, ind(B), reg(A))),
                (3, instruction(ST, reg(A), idx(B, 12))),
                (4, again),
            ],
        ),
        program(
            "c  push call rtn pop",
            &[
                (0, instruction(PUSH, imm(7), NONE)),
                (1, instruction(CALL, imm(10), NONE)),
                (2, instruction(POP, reg(A), NONE)),
                (3, again),
                (10, instruction(RTN, NONE, NONE)),
            ],
        ),
        program(
            "d  trap rti",
            &[
                (0, instruction(TRAP, NONE, NONE)),
                (1, again),
                (INTERRUPT_HANDLER as usize, instruction(RTI, NONE, NONE)),
            ],
        ),
        preempted(program(
            "e  add jmp, the timer on",
            &[
                (0, instruction(ADD, imm(1), reg(A))),
                (1, again),
                (INTERRUPT_HANDLER as usize, instruction(RTI, NONE, NONE)),
            ],
        )),
    ]
}

/// Interrupted after each hundred cycles.
fn preempted(mut program: Program) -> Program {
    program.row[at::SR] = INTERRUPT_ENABLE;
    program.row[at::TIMER_INTERVAL] = 100;
    program.row[at::TIMER_REMAINING] = 100;
    program
}

impl Program {
    /// The original has no timer: it runs this loop without.
    pub fn is_timed(&self) -> bool {
        self.row[at::TIMER_INTERVAL] > 0
    }
}

/// 10,000 cells of one kind, for the acceptance tests that each call makes once.
pub fn filled(name: &'static str, cell: Cell) -> Program {
    Program { name, cells: cell.repeat(CELLS_MOST), row: [0; ROW] }
}

pub fn kinds() -> [Program; 3] {
    [
        filled("empty", EMPTY),
        filled("words", word(-1)),
        filled("instructions", instruction(ADD, idx(B, 5), reg(A))),
    ]
}
