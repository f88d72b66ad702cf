//! Operations, in the order of the original's `Instruction`.

pub const NAMES: [&str; OPERATIONS as usize] = [
    "add", "and", "call", "cmp", "div", "fas", "in", "jmp", "jeq", "jne", "jle", "jlt", "jge", "jgt", "ld",
    "mul", "neg", "nop", "not", "or", "out", "pop", "push", "reset", "rti", "rtn", "shl", "shr", "st", "sub",
    "swap", "trap", "xor",
];

pub const ADD: i64 = 0;
pub const AND: i64 = 1;
pub const CALL: i64 = 2;
pub const CMP: i64 = 3;
pub const DIV: i64 = 4;
pub const FAS: i64 = 5;
pub const IN: i64 = 6;
pub const JMP: i64 = 7;
pub const JEQ: i64 = 8;
pub const JNE: i64 = 9;
pub const JLE: i64 = 10;
pub const JLT: i64 = 11;
pub const JGE: i64 = 12;
pub const JGT: i64 = 13;
pub const LD: i64 = 14;
pub const MUL: i64 = 15;
pub const NEG: i64 = 16;
pub const NOP: i64 = 17;
pub const NOT: i64 = 18;
pub const OR: i64 = 19;
pub const OUT: i64 = 20;
pub const POP: i64 = 21;
pub const PUSH: i64 = 22;
pub const RESET: i64 = 23;
pub const RTI: i64 = 24;
pub const RTN: i64 = 25;
pub const SHL: i64 = 26;
pub const SHR: i64 = 27;
pub const ST: i64 = 28;
pub const SUB: i64 = 29;
pub const SWAP: i64 = 30;
pub const TRAP: i64 = 31;
pub const XOR: i64 = 32;

pub const OPERATIONS: i64 = 33;

/// Operations on an operand's word and a register's word.
pub const TWO_WORDS: [i64; 10] = [ADD, AND, CMP, DIV, MUL, OR, SHL, SHR, SUB, XOR];
