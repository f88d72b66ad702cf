//! Old files: texts that break the form of the old lines, each with the lowest line that does, and texts at its edge that do not.

use layout::Cell;
use layout::refusal::LINE;

use crate::image::{Image, refused};

const START: &str = "start,0,0,0\n";

/// Broken first lines.
pub const FIRST: &[&str] = &[
    "",
    "\n",
    "start",
    "start,0,0,0",
    "start\n",
    "start,\n",
    "start,0,0\n",
    "start,0,0,\n",
    "start,0,0,0,\n",
    "start,0,0,0,0\n",
    "start,0,0,0\r\n",
    " start,0,0,0\n",
    "start ,0,0,0\n",
    "start,0,0,0 \n",
    "start,+0,0,0\n",
    "start,,0,0\n",
    "start,-,0,0\n",
    "start,--0,0,0\n",
    "start,0-,0,0\n",
    "start,-1,0,0\n",
    "start,0,-1,0\n",
    "start,4294967296,0,0\n",
    "start,0,4294967296,0\n",
    "start,0,0,9223372036854775808\n",
    "start,0,0,-9223372036854775809\n",
    "start,0,0,99999999999999999999\n",
    "start,18446744073709551616,0,0\n",
    "Start,0,0,0\n",
    "stbrt,0,0,0\n",
    "starts,0,0,0\n",
    "0,0,0,0\n",
    ",0,0,0\n",
    "start,0,0,0x\n",
    "start,0x0,0,0\n",
    "start,0,0,1e3\n",
    "start;0;0;0\n",
    "\u{feff}start,0,0,0\n",
    "start,0,0,\u{662}\n",
    "start,0,0,0\0\n",
    "\0",
];

/// Broken second lines, after a first that is in order.
const SECOND: &[&str] = &[
    "\n",
    "0",
    "0,0,0,0",
    "0,0,0\n",
    "0,0,0,\n",
    "0,0,0,0,\n",
    "0,0,0,0,0\n",
    ",0,0,0,0\n",
    "0,0,0,0\r\n",
    "\r\n",
    " 0,0,0,0\n",
    "0, 0,0,0\n",
    "0,0,0,0 \n",
    "\t0,0,0,0\n",
    "+0,0,0,0\n",
    "0,+0,0,0\n",
    "-,0,0,0\n",
    "0,-,0,0\n",
    "0,1,--5,0\n",
    "0,1,5-,0\n",
    "0,1,-,0\n",
    "0,1,,0\n",
    "start,0,0,0\n",
    "2048,0,0,0\n",
    "-1,0,0,0\n",
    "4294967296,0,0,0\n",
    "18446744073709551616,0,0,0\n",
    "0,1,9223372036854775808,0\n",
    "0,1,-9223372036854775809,0\n",
    "0,1,92233720368547758070,0\n",
    "0,1,100000000000000000000000000000,0\n",
    "0,0,1,0\n",
    "0,0,0,1\n",
    "0,1,0,1\n",
    "0,2,0,0\n",
    "0,-1,0,0\n",
    "0,29702,0,0\n",
    "0,202,5,1\n",
    "0,207,5,0\n",
    "0,20702,1,0\n",
    "0,9223372036854775807,0,0\n",
    "0,0,0,0a\n",
    "0.0,0,0,0\n",
    "0,0,0,\u{80}\n",
    "0,0,0,0\0\n",
    "\0",
    "#\n",
    "0,1,'5',0\n",
    "0;0;0;0\n",
    "0/0,0,0\n",
    "0:,0,0,0\n",
];

/// In order: leading zeros, -0, the ends of 64 bits and of the addresses.
const IN_ORDER: &[(&str, &[(i64, Cell)], [i64; 3])] = &[
    ("start,0,0,0\n", &[], [0, 0, 0]),
    ("start,-0,-000,-0\n", &[], [0, 0, 0]),
    ("start,0000000000000000000000000000000000000007,1,2\n", &[], [7, 1, 2]),
    ("start,4294967295,4294967295,9223372036854775807\n", &[], [4_294_967_295, 4_294_967_295, i64::MAX]),
    ("start,0,0,-9223372036854775808\n", &[], [0, 0, i64::MIN]),
    ("start,0,0,-00000000000000000000009223372036854775808\n", &[], [0, 0, i64::MIN]),
    ("start,0,0,0\n2047,1,9223372036854775807,0\n", &[(2_047, [1, i64::MAX, 0])], [0, 0, 0]),
    ("start,0,0,0\n-0,1,-9223372036854775808,-0\n", &[(0, [1, i64::MIN, 0])], [0, 0, 0]),
    (
        "start,0,0,0\n0000,00202,-00005,0000\n0001,20702,-0,-00\n",
        &[(0, [202, -5, 0]), (1, [20_702, 0, 0])],
        [0, 0, 0],
    ),
    ("start,0,0,0\n0,1,7,0\n0,20702,0,0\n", &[(0, [20_702, 0, 0])], [0, 0, 0]),
];

/// An old file, and its refusal or its image.
pub type File = (Vec<u8>, Result<Image, String>);

pub fn files() -> Vec<File> {
    let mut all: Vec<File> = FIRST.iter().map(|text| broken(text.as_bytes(), 1)).collect();
    all.extend(SECOND.iter().map(|text| broken((START.to_string() + text).as_bytes(), 2)));
    all.extend(bytes());
    all.extend(later());
    all.extend(IN_ORDER.iter().map(|(text, cells, start)| {
        (text.as_bytes().to_vec(), Ok(Image { start: *start, cells: cells.to_vec() }))
    }));
    all
}

fn broken(input: &[u8], line: u64) -> File {
    (input.to_vec(), Err(refused(LINE, line)))
}

/// Every byte that no line can hold, in the place of a digit, and after a whole image.
fn bytes() -> Vec<File> {
    let mut all = Vec::new();
    for byte in (0..=255u8).filter(|byte| !byte.is_ascii_digit()) {
        let mut text = b"start,0,0,0\n0,20702,0,0\n1,1,".to_vec();
        text.extend([byte, b'5', b',', b'0', b'\n']);
        if byte != b'-' {
            all.push(broken(&text, 3));
        }
        let mut after = b"start,0,0,0\n0,20702,0,0\n".to_vec();
        after.push(byte);
        all.push(broken(&after, 3));
    }
    all
}

/// The lowest broken line counts: the one in front of others, the one before lines in order, the 1,001st.
fn later() -> Vec<File> {
    let many = START.to_string() + &"7,1,7,0\n".repeat(999);
    vec![
        broken(b"start,0,0,0\n0,0,0\n0,0,0\n", 2),
        broken(b"start,0,0,0\n0,2,0,0\n0,0,0,0\n", 2),
        broken(b"stat,0,0,0\n0,2,0,0\n", 1),
        broken(b"start,0,0,0\n0,0,0,0\n\n0,0,0,0\n", 3),
        broken(b"start,0,0,0\n0,0,0,0\nstart,0,0,0\n", 3),
        broken((many.clone() + "2048,0,0,0\n").as_bytes(), 1_001),
        broken((many.clone() + "0,0,0,0").as_bytes(), 1_001),
        broken((many + "0,0,0,0\n0,0,0,0\n\n").as_bytes(), 1_003),
    ]
}
