//! A cell as text (Card 3).

use draws::forms::{NAMES, split};

const REGISTERS: [&str; 5] = ["a", "b", "pc", "sp", "sr"];

/// "numbers in shortest decimal (index 0 as +0)"
fn operand(mode: i64, register: i64, number: i64) -> String {
    let name = REGISTERS[register as usize];
    match mode {
        1 => format!("{number}"),
        2 => format!("%{name}"),
        3 => format!("[{number}]"),
        4 => format!("[%{name}]"),
        _ => format!("[%{name}{}{}]", if number < 0 { '-' } else { '+' }, number.unsigned_abs()),
    }
}

/// "one line a cell, without labels [...] one space after a comma and after a mnemonic or `.word` with operands, no other"
pub fn line(cell: [i64; 3]) -> String {
    let [tag, first, second] = cell;
    if tag < 2 {
        return format!(".word {first}\n");
    }
    let (form, (r1, r2)) = split(tag);
    let name = NAMES[form.op as usize];
    match (form.m1, form.m2) {
        (0, _) => format!("{name}\n"),
        (m, 0) => format!("{name} {}\n", operand(m, r1, first)),
        (m, n) => format!("{name} {}, {}\n", operand(m, r1, first), operand(n, r2, second)),
    }
}
