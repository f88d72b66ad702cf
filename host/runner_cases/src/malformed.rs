//! Files that are refused, each with the number and line that are due, and files at the edges that are not. What is due of all of them also comes from
//! `written::file`, which knows document 02 alone.

use layout::refusal::{LABEL, LINE, NUMERIC_LINE, TEXT, VALUE};
use layout::runner::{BYTES, CELLS};
use written::file::{Program, read};

use crate::Case;
use crate::image::{Image, at_the_edge, refused};
use crate::old::FIRST;

const START: &str = "start,0,0,0\n";

/// After a start line in order: the text, the number and the line.
const TEXTS: &[(&str, u64, u64)] = &[
    ("\n", TEXT, 2),
    ("reset", TEXT, 2),
    ("reset\nreset", TEXT, 3),
    ("reset\r\n", TEXT, 2),
    ("\treset\n", TEXT, 2),
    ("reset ; done\n", TEXT, 2),
    ("start,0,0,0\n", TEXT, 2),
    ("Reset\n", TEXT, 2),
    ("add 5 %a\n", TEXT, 2),
    ("add 5,%a,%b\n", TEXT, 2),
    ("reset\0\n", TEXT, 2),
    ("nop\n\0", TEXT, 3),
    // numbers parted by commas: four, of any size
    ("0,0,0,0\n", NUMERIC_LINE, 2),
    ("0,202,5,0\n1,20702,0,0\n", NUMERIC_LINE, 2),
    ("-1,-0,00,-000\n", NUMERIC_LINE, 2),
    ("99999999999999999999999999,1,-99999999999999999999999999,0\n", NUMERIC_LINE, 2),
    ("0,0,0,0", TEXT, 2),
    ("0,0,0\n", TEXT, 2),
    ("0,0,0,\n", TEXT, 2),
    (",0,0,0\n", TEXT, 2),
    ("0,0,0,0,\n", TEXT, 2),
    ("0,0,0,0,0\n", TEXT, 2),
    ("0,0,,0\n", TEXT, 2),
    ("0,0,-,0\n", TEXT, 2),
    ("0,0,--1,0\n", TEXT, 2),
    ("0,0,1-,0\n", TEXT, 2),
    ("+0,0,0,0\n", TEXT, 2),
    ("0,0,0,0 \n", TEXT, 2),
    (" 0,0,0,0\n", TEXT, 2),
    ("0, 0,0,0\n", TEXT, 2),
    ("0,0,0,0\r\n", TEXT, 2),
    ("0,0,0,0\0\n", TEXT, 2),
    ("0,0,0,x\n", TEXT, 2),
    ("x:0,0,0,0\n", TEXT, 2),
    // "of 13 and 18 the lowest line counts"
    ("nop\n0,0,0,0\nwhat\n", NUMERIC_LINE, 3),
    ("what\n0,0,0,0\n", TEXT, 2),
    ("0,0,0,0\nwhat\n", NUMERIC_LINE, 2),
    ("nop\nnop\n0,0,0,0\n0,0,0,0\n", NUMERIC_LINE, 4),
    ("nop\n\0\n0,0,0,0\n", TEXT, 3),
    // then 14, then 15
    ("jmp x\n", LABEL, 2),
    ("jmp x\nwhat\n", TEXT, 3),
    ("jmp x\nnop\n0,0,0,0\n", NUMERIC_LINE, 4),
    ("x: nop\nx: nop\n", LABEL, 3),
    (".word 9223372036854775808\n", VALUE, 2),
    ("nop\nld [-1],%a\n", VALUE, 3),
    (".word 9223372036854775808\nwhat\n", TEXT, 3),
    (".word 9223372036854775808\n0,0,0,0\n", NUMERIC_LINE, 3),
    (".word 9223372036854775808\nnop\njmp x\n", LABEL, 4),
];

/// Files in order.
const IN_ORDER: &[&str] = &[
    "start,0,0,0\n",
    "start,-0,-000,-0\nreset\n",
    "start,0000000000000000000000000000000000000007,1,2\n",
    "start,4294967295,4294967295,9223372036854775807\n",
    "start,0,0,-9223372036854775808\nreset\n",
    "start,1,0,0\nstart: .word -9223372036854775808\n  word:reset\n",
    "start,1,0,0\nx: .word x\nagain: ld [ x + 0 * ( 7 - 3 ) ], %a\nadd 1,%a\nst %a, [0]\njmp end\nnop\nend:reset\n",
];

pub fn cases() -> Vec<Case> {
    let mut all: Vec<Case> = FIRST.iter().map(|text| case(text.as_bytes(), Some((LINE, 1)))).collect();
    all.extend(
        TEXTS.iter().map(|(text, refusal, line)| {
            case((START.to_string() + text).as_bytes(), Some((*refusal, *line)))
        }),
    );
    all.extend(IN_ORDER.iter().map(|text| case(text.as_bytes(), None)));
    all.extend(bytes());
    all.extend(many_lines());
    all.extend(long());
    all
}

/// The refusal that is due, or none.
fn case(file: &[u8], due: Option<(u64, u64)>) -> Case {
    assert_eq!(read(file).err(), due, "{:?}", String::from_utf8_lossy(&file[..file.len().min(200)]));
    by_document(file)
}

/// What document 02 has of a file.
fn by_document(file: &[u8]) -> Case {
    let due = match read(file) {
        Err((refusal, line)) => refused(refusal, line),
        Ok(Program { start, cells }) => at_the_edge(&Image { start, cells: (0..).zip(cells).collect() }),
    };
    Case { input: file.to_vec(), due }
}

/// Every byte in the place of a digit, and every byte after a whole program.
fn bytes() -> Vec<Case> {
    let mut all = Vec::new();
    for byte in 0..=255u8 {
        let mut text = b"start,0,0,0\nx: .word ".to_vec();
        text.extend([byte, b'5', b'\n']);
        all.push(by_document(&text));
        let mut after = b"start,0,0,0\nreset\n".to_vec();
        after.push(byte);
        all.push(case(&after, Some((TEXT, 3))));
    }
    all
}

/// 2,048 lines of text, one more, and a numeric one there.
fn many_lines() -> Vec<Case> {
    let full = START.to_string() + &"nop\n".repeat(CELLS - 1) + "reset\n";
    let past = CELLS as u64 + 2;
    vec![
        case(full.as_bytes(), None),
        case((full.clone() + "nop\n").as_bytes(), Some((TEXT, past))),
        case((full.clone() + "0,0,0,0\n").as_bytes(), Some((NUMERIC_LINE, past))),
        case((full + "what\n0,0,0,0\n").as_bytes(), Some((TEXT, past))),
    ]
}

/// A file of so many bytes: a front, then spaces before an end.
fn padded(front: &str, end: &str, bytes: usize) -> Vec<u8> {
    let spaces = bytes - front.len() - end.len();
    (front.to_string() + &" ".repeat(spaces) + end).into_bytes()
}

/// At the limit and past it.
fn long() -> Vec<Case> {
    let zeros = |bytes: usize| "start,".to_string() + &"0".repeat(bytes - 11) + ",0,0\n";
    vec![
        case(&padded(START, "reset\n", BYTES), None),
        case(&padded(START, "reset\n", BYTES + 1), Some((TEXT, 2))),
        // the byte that passes the limit begins a line
        case(&[padded(START, "reset\n", BYTES), b"\n".to_vec()].concat(), Some((TEXT, 3))),
        case(&[padded(START, "jmp x\n", BYTES), b"n".to_vec()].concat(), Some((TEXT, 3))),
        // "ended within that limit", or not
        case(&padded(&(START.to_string() + "nop\n"), "\n0,0,0,0\n", BYTES), Some((TEXT, 3))),
        case(&padded(&(START.to_string() + "0"), "", BYTES + 1), Some((TEXT, 2))),
        case(&numeric_to(BYTES), Some((NUMERIC_LINE, 2))),
        case(&numeric_to(BYTES + 1), Some((TEXT, 2))),
        // the start line itself
        case(zeros(BYTES).as_bytes(), None),
        case((zeros(BYTES) + "n").as_bytes(), Some((TEXT, 2))),
        case(zeros(BYTES + 1).as_bytes(), Some((LINE, 1))),
    ]
}

/// A numeric line that ends at this byte of the file.
fn numeric_to(bytes: usize) -> Vec<u8> {
    let digits = bytes - START.len() - "0,0,,0\n".len();
    (START.to_string() + "0,0," + &"7".repeat(digits) + ",0\n").into_bytes()
}
