//! The runner's files (Card 7): a start line, then a program written as text.

use layout::cell::LENGTH;
use layout::refusal::{LINE, NUMERIC_LINE, TEXT};
use layout::runner::{BYTES, CELLS};

use crate::assembler::assemble;

/// What a file that is taken says: pc, sp and sr, and its cells from 0 on.
#[derive(Debug, PartialEq, Eq)]
pub struct Program {
    pub start: [i64; 3],
    pub cells: Vec<[i64; 3]>,
}

/// The program, or the refusal's number and line.
pub fn read(file: &[u8]) -> Result<Program, (u64, u64)> {
    let kept = &file[..file.len().min(BYTES)];
    let end = kept.iter().position(|b| *b == b'\n').ok_or((LINE, 1))?;
    let start = start(&kept[..end]).ok_or((LINE, 1))?;
    let text = &kept[end + 1..];
    // Lines count from the start line; what stands behind the last line end is a line that is not ended.
    let mut lines: Vec<&[u8]> = text.split(|b| *b == b'\n').collect();
    lines.pop();
    let numeric = lines.iter().position(|line| is_numeric(line)).map(|i| i as u64 + 2);
    let told = assemble(text, LENGTH * CELLS);
    let outside = (told.refusal == TEXT).then_some(told.place + 1);
    let passes = (file.len() > BYTES).then_some(lines.len() as u64 + 2);
    let thirteen = outside.into_iter().chain(passes).min();
    match (thirteen, numeric) {
        (Some(line), Some(lower)) if lower <= line => Err((NUMERIC_LINE, lower)),
        (Some(line), _) => Err((TEXT, line)),
        (None, Some(line)) => Err((NUMERIC_LINE, line)),
        _ if told.refusal != 0 => Err((told.refusal, told.place + 1)),
        _ => Ok(Program { start, cells: told.cells }),
    }
}

/// Digits after an optional minus.
fn is_decimal(field: &[u8]) -> bool {
    let digits = field.strip_prefix(b"-").unwrap_or(field);
    !digits.is_empty() && digits.iter().all(u8::is_ascii_digit)
}

/// "a line of four comma-parted decimal numbers, of any size"
fn is_numeric(line: &[u8]) -> bool {
    let fields: Vec<&[u8]> = line.split(|b| *b == b',').collect();
    fields.len() == 4 && fields.iter().all(|field| is_decimal(field))
}

fn start(line: &[u8]) -> Option<[i64; 3]> {
    let fields: Vec<&[u8]> = line.strip_prefix(b"start,")?.split(|b| *b == b',').collect();
    let mut numbers = [0; 3];
    if fields.len() != 3 {
        return None;
    }
    for (number, field) in numbers.iter_mut().zip(fields) {
        *number = is_decimal(field).then(|| std::str::from_utf8(field).ok()?.parse().ok())??;
    }
    let is_address = |n: i64| u32::try_from(n).is_ok();
    (is_address(numbers[0]) && is_address(numbers[1])).then_some(numbers)
}
