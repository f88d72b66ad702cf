//! An assembler written from document 02, Card 1, with none of the library's ideas: recursive descent over a line, values in 128 bits.

use std::collections::HashMap;

use draws::forms::NAMES;

#[derive(Clone, Debug, Default, PartialEq, Eq)]
pub struct Answer {
    pub refusal: u64,
    pub place: u64,
    pub cells: Vec<[i64; 3]>,
}

impl Answer {
    pub fn refused(refusal: u64, place: u64) -> Self {
        Self { refusal, place, cells: Vec::new() }
    }
}

#[derive(Clone, Debug)]
enum Value {
    Number(Option<i64>),
    Label(String),
    Join(Box<Value>, u8, Box<Value>),
}

#[derive(Clone, Debug)]
enum Operand {
    Immediate(Value),
    Register(i64),
    Direct(Value),
    Indirect(i64),
    Indexed(i64, Option<i64>),
}

enum Body {
    Word(Value),
    Code(i64, Vec<Operand>),
}

struct Line {
    label: Option<String>,
    body: Body,
}

/// A line's bytes without its end, and where the reading stands. None: outside the grammar.
struct Reader<'a> {
    text: &'a [u8],
    at: usize,
}

impl Reader<'_> {
    fn peek(&self) -> u8 {
        self.text.get(self.at).copied().unwrap_or(b'\n')
    }

    fn spaces(&mut self) {
        while self.peek() == b' ' {
            self.at += 1;
        }
    }

    fn take(&mut self, b: u8) -> Option<()> {
        (self.peek() == b).then(|| self.at += 1)
    }

    fn run(&mut self, test: fn(&u8) -> bool) -> String {
        let from = self.at;
        while self.at < self.text.len() && test(&self.text[self.at]) {
            self.at += 1;
        }
        String::from_utf8(self.text[from..self.at].to_vec()).unwrap()
    }

    fn letters(&mut self) -> String {
        self.run(u8::is_ascii_lowercase)
    }

    /// Digits, after a sign that was taken.
    fn number(&mut self, minus: bool) -> Option<Option<i64>> {
        let digits = self.run(u8::is_ascii_digit);
        if digits.is_empty() {
            return None;
        }
        let digits = digits.trim_start_matches('0');
        if digits.len() > 30 {
            return Some(None);
        }
        let size: i128 = if digits.is_empty() { 0 } else { digits.parse().unwrap() };
        Some(i64::try_from(if minus { -size } else { size }).ok())
    }

    fn sum(&mut self, depth: u32) -> Option<Value> {
        let mut value = self.product(depth)?;
        while matches!(self.peek(), b'+' | b'-') {
            let by = self.peek();
            self.at += 1;
            self.spaces();
            value = Value::Join(Box::new(value), by, Box::new(self.product(depth)?));
        }
        Some(value)
    }

    fn product(&mut self, depth: u32) -> Option<Value> {
        let mut value = self.atom(depth)?;
        while self.peek() == b'*' {
            self.at += 1;
            self.spaces();
            value = Value::Join(Box::new(value), b'*', Box::new(self.atom(depth)?));
        }
        Some(value)
    }

    fn atom(&mut self, depth: u32) -> Option<Value> {
        let value = match self.peek() {
            b'0'..=b'9' => Value::Number(self.number(false)?),
            b'-' => {
                self.at += 1;
                Value::Number(self.number(true)?)
            }
            b'a'..=b'z' => {
                let name = self.letters();
                if name.len() > 16 {
                    return None;
                }
                Value::Label(name)
            }
            b'(' => {
                if depth == 32 {
                    return None;
                }
                self.at += 1;
                self.spaces();
                let value = self.sum(depth + 1)?;
                self.take(b')')?;
                value
            }
            _ => return None,
        };
        self.spaces();
        Some(value)
    }

    fn register(&mut self) -> Option<i64> {
        self.take(b'%')?;
        let name = self.letters();
        let found = ["a", "b", "pc", "sp", "sr"].iter().position(|r| *r == name)?;
        self.spaces();
        Some(found as i64)
    }

    fn operand(&mut self) -> Option<Operand> {
        if self.peek() == b'%' {
            return Some(Operand::Register(self.register()?));
        }
        if self.take(b'[').is_none() {
            return Some(Operand::Immediate(self.sum(0)?));
        }
        self.spaces();
        let operand = if self.peek() == b'%' {
            let r = self.register()?;
            let sign = self.peek();
            if sign == b'+' || sign == b'-' {
                self.at += 1;
                let index = self.number(sign == b'-')?;
                self.spaces();
                Operand::Indexed(r, index)
            } else {
                Operand::Indirect(r)
            }
        } else {
            Operand::Direct(self.sum(0)?)
        };
        self.take(b']')?;
        self.spaces();
        Some(operand)
    }

    fn body(&mut self) -> Option<Body> {
        if self.take(b'.').is_some() {
            if self.letters() != "word" {
                return None;
            }
            self.take(b' ')?;
            self.spaces();
            return Some(Body::Word(self.sum(0)?));
        }
        let name = self.letters();
        let op = NAMES.iter().position(|n| *n == name)? as i64;
        if is_form(op, 0, 0) {
            self.spaces();
            return Some(Body::Code(op, Vec::new()));
        }
        self.take(b' ')?;
        self.spaces();
        let mut operands = vec![self.operand()?];
        if self.take(b',').is_some() {
            self.spaces();
            operands.push(self.operand()?);
        }
        let modes: Vec<i64> = operands.iter().map(mode).collect();
        is_form(op, modes[0], modes.get(1).copied().unwrap_or(0)).then_some(Body::Code(op, operands))
    }

    fn line(&mut self) -> Option<Line> {
        self.spaces();
        let from = self.at;
        let name = self.letters();
        let label = if !name.is_empty() && self.take(b':').is_some() {
            if name.len() > 16 {
                return None;
            }
            self.spaces();
            Some(name)
        } else {
            self.at = from;
            None
        };
        let body = self.body()?;
        (self.at == self.text.len()).then_some(Line { label, body })
    }
}

fn mode(x: &Operand) -> i64 {
    match x {
        Operand::Immediate(_) => 1,
        Operand::Register(_) => 2,
        Operand::Direct(_) => 3,
        Operand::Indirect(_) => 4,
        Operand::Indexed(..) => 5,
    }
}

/// `Instruction`'s operand types.
pub fn is_form(op: i64, m1: i64, m2: i64) -> bool {
    let (first, second): (&[i64], &[i64]) = match NAMES[op as usize] {
        "add" | "and" | "cmp" | "div" | "ld" | "mul" | "or" | "shl" | "shr" | "sub" | "xor" => {
            (&[1, 2, 3, 4, 5], &[2])
        }
        "call" | "jmp" | "jeq" | "jne" | "jle" | "jlt" | "jge" | "jgt" => (&[1, 2, 3, 4, 5], &[0]),
        "fas" | "in" => (&[3, 4, 5], &[2]),
        "neg" | "not" | "pop" => (&[2], &[0]),
        "out" => (&[1, 2], &[3, 4, 5]),
        "push" => (&[1, 2], &[0]),
        "st" => (&[2], &[3, 4, 5]),
        "swap" => (&[2, 3, 4, 5], &[2]),
        _ => (&[0], &[0]),
    };
    first.contains(&m1) && second.contains(&m2)
}

/// Whether a value names a label that no line sets, and what it is worth (None: outside 64 bits).
fn value(v: &Value, labels: &HashMap<String, i64>) -> (bool, Option<i64>) {
    match v {
        Value::Number(n) => (false, *n),
        Value::Label(n) => (!labels.contains_key(n), labels.get(n).copied().or(Some(0))),
        Value::Join(x, by, y) => {
            let ((a, x), (b, y)) = (value(x, labels), value(y, labels));
            let joined = x.zip(y).and_then(|(x, y)| {
                let (x, y) = (i128::from(x), i128::from(y));
                i64::try_from(match by {
                    b'+' => x + y,
                    b'-' => x - y,
                    _ => x * y,
                })
                .ok()
            });
            (a || b, joined)
        }
    }
}

/// Mode, register and number of an operand; the first says whether a label is missing.
fn made(x: &Operand, labels: &HashMap<String, i64>) -> (bool, Option<[i64; 3]>) {
    match x {
        Operand::Immediate(v) => {
            let (missing, n) = value(v, labels);
            (missing, n.map(|n| [1, 0, n]))
        }
        Operand::Register(r) => (false, Some([2, *r, 0])),
        Operand::Direct(v) => {
            let (missing, n) = value(v, labels);
            (missing, n.filter(|n| (0..=4_294_967_295).contains(n)).map(|n| [3, 0, n]))
        }
        Operand::Indirect(r) => (false, Some([4, *r, 0])),
        Operand::Indexed(r, n) => (false, n.map(|n| [5, *r, n])),
    }
}

fn cell(body: &Body, labels: &HashMap<String, i64>) -> (bool, Option<[i64; 3]>) {
    match body {
        Body::Word(v) => {
            let (missing, n) = value(v, labels);
            (missing, n.map(|n| [1, n, 0]))
        }
        Body::Code(op, operands) => {
            let mut all = vec![(false, Some([0, 0, 0])); 2];
            for (i, x) in operands.iter().enumerate() {
                all[i] = made(x, labels);
            }
            let missing = all[0].0 || all[1].0;
            let code = all[0]
                .1
                .zip(all[1].1)
                .map(|(x, y)| [2 + ((op * 36 + x[0] * 6 + y[0]) * 25 + x[1] * 5 + y[1]), x[2], y[2]]);
            (missing, code)
        }
    }
}

/// What becomes of a text that is lent an image of so many numbers.
pub fn assemble(text: &[u8], numbers: usize) -> Answer {
    if numbers % 3 != 0 {
        return Answer::refused(9, 0);
    }
    let mut parts: Vec<&[u8]> = text.split(|b| *b == b'\n').collect();
    let open = parts.pop().is_some_and(|last| !last.is_empty());
    let mut lines = Vec::new();
    for (i, part) in parts.iter().enumerate() {
        match (Reader { text: part, at: 0 }).line() {
            Some(line) if i < numbers / 3 => lines.push(line),
            _ => return Answer::refused(13, i as u64 + 1),
        }
    }
    if open {
        return Answer::refused(13, parts.len() as u64 + 1);
    }
    let mut labels = HashMap::new();
    for (i, line) in lines.iter().enumerate() {
        if let Some(name) = &line.label {
            labels.entry(name.clone()).or_insert(i as i64);
        }
    }
    let mut set = 0;
    for (i, line) in lines.iter().enumerate() {
        let mut wrong = cell(&line.body, &labels).0;
        if let Some(name) = &line.label {
            wrong |= set == 256 || labels[name] != i as i64;
            set += 1;
        }
        if wrong {
            return Answer::refused(14, i as u64 + 1);
        }
    }
    let cells: Vec<_> = lines.iter().map(|line| cell(&line.body, &labels).1).collect();
    match cells.iter().position(Option::is_none) {
        Some(i) => Answer::refused(15, i as u64 + 1),
        None => Answer { refusal: 0, place: 0, cells: cells.into_iter().flatten().collect() },
    }
}
