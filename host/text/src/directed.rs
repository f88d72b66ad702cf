//! Answers written by hand: each refusal at its edges.

use written::assembler::Answer;

use crate::{compare, hold};

fn refused(text: &str, cells: usize, refusal: u64, place: u64) -> (String, usize, Answer) {
    (text.into(), 3 * cells, Answer::refused(refusal, place))
}

fn taken(text: &str, cells: &[[i64; 3]]) -> (String, usize, Answer) {
    (text.into(), 3 * cells.len() + 3, Answer { refusal: 0, place: 0, cells: cells.to_vec() })
}

fn nested(depth: usize) -> String {
    format!(".word {}1{}\n", "(".repeat(depth), ")".repeat(depth))
}

fn name(i: usize) -> String {
    format!("l{}{}", (b'a' + (i / 26) as u8) as char, (b'a' + (i % 26) as u8) as char)
}

/// So many labels, the last of which the first line uses.
fn labelled(count: usize) -> String {
    let mut text = format!("jmp {}\n", name(count - 1));
    for i in 0..count {
        text += &format!("{}: nop\n", name(i));
    }
    text
}

pub fn run() -> usize {
    const NOP: [i64; 3] = [15302, 0, 0];
    let sixteen = "abcdefghijklmnop";
    let cases = [
        taken("", &[]),
        taken("nop\n", &[NOP]),
        taken("add 5, %a\nreset\n", &[[202, 5, 0], [20702, 0, 0]]),
        taken("  x : nop\n".replace(" :", ":").as_str(), &[NOP]),
        taken("add:nop\n", &[NOP]),
        taken(&format!("{sixteen}: .word {sixteen}\n"), &[[1, 0, 0]]),
        taken(".word 3--5\n.word 2*3+4*-5\n.word 10-2-3\n.word (1+2)*3\n", &[[1, 8, 0], [1, -14, 0], [1, 5, 0], [1, 9, 0]]),
        taken(".word b\na: nop\nb: .word a\n", &[[1, 2, 0], NOP, [1, 1, 0]]),
        taken(".word 0000000000000000000000000000000000000000000000000000000000000007\n.word -0\n", &[[1, 7, 0], [1, 0, 0]]),
        taken(".word -9223372036854775808\n.word 9223372036854775807\n", &[[1, i64::MIN, 0], [1, i64::MAX, 0]]),
        taken("jmp -1\nld [%a -0], %b\n", &[[6452, -1, 0], [2 + (14 * 36 + 5 * 6 + 2) * 25 + 1, 0, 0]]),
        taken("ld [4294967295], %a\n", &[[2 + (14 * 36 + 3 * 6 + 2) * 25, 4294967295, 0]]),
        taken(&nested(32), &[[1, 1, 0]]),
        refused(&nested(33), 2, 13, 1),
        refused("nop", 2, 13, 1),
        refused("\n", 2, 13, 1),
        refused("nop\nnop\n", 1, 13, 2),
        refused("nop\n", 0, 13, 1),
        refused("nop\n\tnop\n", 3, 13, 2),
        refused("nop\r\n", 3, 13, 1),
        refused("x : nop\n", 2, 13, 1),
        refused("abcdefghijklmnopq: nop\n", 2, 13, 1),
        refused(".word abcdefghijklmnopq\n", 2, 13, 1),
        refused(".word - 5\n", 2, 13, 1),
        refused(".word -x\n", 2, 13, 1),
        refused(".word -(1)\n", 2, 13, 1),
        refused("jmp5\n", 2, 13, 1),
        refused(".word5\n", 2, 13, 1),
        refused("ld [%a + 5], %b\n", 2, 13, 1),
        refused("ld [%a+ 5], %b\n", 2, 13, 1),
        refused("ld % a, %b\n", 2, 13, 1),
        refused("add 5, 7\n", 2, 13, 1),
        refused("add 5\n", 2, 13, 1),
        refused("nop 5\n", 2, 13, 1),
        refused("Nop\n", 2, 13, 1),
        refused("jmp nowhere\n?\n", 3, 13, 2),
        refused("jmp nowhere\n", 3, 14, 1),
        refused("x: nop\nx: nop\n", 3, 14, 2),
        refused(".word 9223372036854775808\njmp nowhere\n", 3, 14, 2),
        refused(&labelled(257), 300, 14, 258),
        refused(&labelled(300), 400, 14, 258),
        refused(".word 9223372036854775808\n", 3, 15, 1),
        refused("nop\n.word 0-9223372036854775807-2\n", 3, 15, 2),
        refused(".word 0-9223372036854775808\n", 3, 15, 1),
        refused(".word 4294967296*4294967296\n", 3, 15, 1),
        refused("ld [-1], %a\n", 3, 15, 1),
        refused("ld [4294967296], %a\n", 3, 15, 1),
        refused("ld [%a+9223372036854775808], %b\n", 3, 15, 1),
        ("nop\n".into(), 4, Answer::refused(9, 0)),
        ("?\n".into(), 5, Answer::refused(9, 0)),
    ];
    for (text, numbers, due) in &cases {
        assert_eq!(compare(text.as_bytes(), *numbers), *due, "the plain assembler on {text:?}");
        hold(text.as_bytes(), *numbers, due);
    }
    let full = labelled(256);
    assert_eq!(compare(full.as_bytes(), 3 * 257).cells.len(), 257, "256 labels are taken");
    cases.len() + 1
}
