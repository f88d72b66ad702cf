//! Texts whose image is known by construction: a tree is drawn with its value and printed in drawn spacings; then bytes are changed.

use draws::forms::NAMES;
use draws::rng::Rng;
use written::assembler::{Answer, is_form};

use crate::{compare, hold};

fn gap(rng: &mut Rng) -> String {
    " ".repeat(if rng.once_in(3) { rng.below(3) } else { 0 })
}

/// An expression's text and value; the level says what needs brackets: 0 a sum, 1 a product, 2 an atom.
fn value(rng: &mut Rng, level: u32, depth: u32, labels: &[(String, i64)]) -> (String, i64) {
    if depth == 0 || rng.once_in(2) {
        if !labels.is_empty() && rng.once_in(3) {
            let (name, place) = &labels[rng.below(labels.len())];
            return (name.clone() + &gap(rng), *place);
        }
        let n = if rng.once_in(4) { rng.draw() as i64 } else { rng.between(-100, 100) };
        let zeros = "0".repeat(if rng.once_in(5) { rng.below(4) } else { 0 });
        let text = if n < 0 { format!("-{zeros}{}", n.unsigned_abs()) } else { format!("{zeros}{n}") };
        return (text + &gap(rng), n);
    }
    let by = rng.pick(b"+-*");
    let product = by == b'*';
    let (x, a) = value(rng, u32::from(product), depth - 1, labels);
    let (y, b) = value(rng, 1 + u32::from(product), depth - 1, labels);
    let joined = match by {
        b'+' => a.checked_add(b),
        b'-' => a.checked_sub(b),
        _ => a.checked_mul(b),
    };
    let Some(n) = joined else { return (format!("{a}{}", gap(rng)), a) };
    let text = format!("{x}{}{}{y}", by as char, gap(rng));
    if level > u32::from(product) { (format!("({}{text}){}", gap(rng), gap(rng)), n) } else { (text, n) }
}

/// An operand's text, register and number.
fn operand(rng: &mut Rng, mode: i64, labels: &[(String, i64)]) -> (String, i64, i64) {
    let r = rng.below(5);
    let name = format!("%{}{}", ["a", "b", "pc", "sp", "sr"][r], gap(rng));
    match mode {
        1 => {
            let (text, n) = value(rng, 0, 3, labels);
            (text, 0, n)
        }
        2 => (name, r as i64, 0),
        3 => {
            let n = rng.between(0, 4_294_967_295);
            (format!("[{}{n}{}]{}", gap(rng), gap(rng), gap(rng)), 0, n)
        }
        4 => (format!("[{}{name}]{}", gap(rng), gap(rng)), r as i64, 0),
        _ => {
            let n = rng.draw() as i64;
            let sign = if n < 0 { '-' } else { '+' };
            (format!("[{}{name}{sign}{}{}]{}", gap(rng), n.unsigned_abs(), gap(rng), gap(rng)), r as i64, n)
        }
    }
}

fn line(rng: &mut Rng, labels: &[(String, i64)]) -> (String, [i64; 3]) {
    if rng.once_in(8) {
        let (text, n) = value(rng, 0, 4, labels);
        return (format!(".word {}{text}", gap(rng)), [1, n, 0]);
    }
    loop {
        let (op, m1, m2) = (rng.below(33) as i64, rng.below(6) as i64, rng.below(6) as i64);
        if !is_form(op, m1, m2) {
            continue;
        }
        let mut text = NAMES[op as usize].to_string();
        let (mut registers, mut numbers) = ([0, 0], [0, 0]);
        for (i, m) in [m1, m2].into_iter().enumerate() {
            if m > 0 {
                let (x, r, n) = operand(rng, m, labels);
                text += &format!("{}{}{x}", if i == 0 { " " } else { "," }, gap(rng));
                (registers[i], numbers[i]) = (r, n);
            }
        }
        if m1 == 0 {
            text += &gap(rng);
        }
        return (text, [2 + ((op * 36 + m1 * 6 + m2) * 25 + registers[0] * 5 + registers[1]), numbers[0], numbers[1]]);
    }
}

/// Texts, lines and changed bytes that were compared.
pub fn run(texts: usize, seed: u64) -> (usize, usize, usize) {
    let mut rng = Rng::new(seed);
    let (mut all, mut changes) = (0, 0);
    for _ in 0..texts {
        let count = 1 + rng.below(8);
        let mut labels = Vec::new();
        for i in 0..count {
            if rng.once_in(2) {
                labels.push((format!("{}{}", "x".repeat(rng.below(15)), (b'a' + i as u8) as char), i as i64));
            }
        }
        let (mut text, mut cells) = (String::new(), Vec::new());
        for i in 0..count {
            let (body, cell) = line(&mut rng, &labels);
            text += &gap(&mut rng);
            if let Some((name, _)) = labels.iter().find(|(_, k)| *k == i as i64) {
                text += &format!("{name}:{}", gap(&mut rng));
            }
            text += &body;
            text += "\n";
            cells.push(cell);
        }
        let room = 3 * (count + rng.below(3));
        let due = Answer { refusal: 0, place: 0, cells };
        hold(text.as_bytes(), room, &due);
        assert_eq!(compare(text.as_bytes(), room), due, "the plain assembler on {text:?}");
        all += count;
        for _ in 0..20 {
            let mut bytes = text.clone().into_bytes();
            let at = rng.below(bytes.len());
            match rng.below(3) {
                0 => bytes[at] = rng.pick(b" abx:%,[]()+-*.0159\n\t\r@"),
                1 => drop(bytes.remove(at)),
                _ => bytes.insert(at, rng.pick(b" abx:%,[]()+-*.0159\n")),
            }
            compare(&bytes, room);
            changes += 1;
        }
    }
    (texts, all, changes)
}
