//! Replays the recorded list on a machine.

use layout::Cell;

use crate::case::{Answer, Call};
use crate::lent::{CELLS, Lent, Machine};

/// How many cases and calls the list held, or the first line that is not met.
pub fn replay(text: &str, machine: &mut dyn Machine) -> Result<(usize, usize), String> {
    let mut replay = Replay::new(machine);
    for (i, line) in text.lines().enumerate() {
        let numbers = numbers(line).ok_or(format!("line {}: not five numbers", i + 1))?;
        replay.line(numbers).map_err(|why| format!("line {}: {why}", i + 1))?;
    }
    if !replay.ended {
        return Err("the list has no last line".into());
    }
    Ok((replay.cases, replay.calls))
}

fn numbers(line: &str) -> Option<[i64; 5]> {
    let numbers: Vec<i64> = line.split(',').map(|n| n.parse().ok()).collect::<Option<_>>()?;
    numbers.try_into().ok()
}

struct Replay<'m> {
    machine: &'m mut dyn Machine,
    /// The machine as the calls left it.
    lent: Lent,
    /// The machine as the list says it is.
    expected: Lent,
    delivered: Vec<u8>,
    /// The words that the next run is to take from empty cells.
    empty: u64,
    buffer: Vec<u8>,
    expected_buffer: Vec<u8>,
    answered: Option<(Answer, Answer)>,
    cases: usize,
    calls: usize,
    ended: bool,
}

impl<'m> Replay<'m> {
    fn new(machine: &'m mut dyn Machine) -> Self {
        Self {
            machine,
            lent: Lent::zero(CELLS, 1, 0),
            expected: Lent::zero(CELLS, 1, 0),
            delivered: Vec::new(),
            empty: 0,
            buffer: Vec::new(),
            expected_buffer: Vec::new(),
            answered: None,
            cases: 0,
            calls: 0,
            ended: false,
        }
    }

    fn line(&mut self, [kind, a, b, c, d]: [i64; 5]) -> Result<(), String> {
        if self.ended {
            return Err("a line after the last".into());
        }
        if self.answered.is_some() && !(20..=29).contains(&kind) {
            return Err("a call is left without its closing line".into());
        }
        if self.empty > 0 && kind != 10 {
            return Err("no run after a count of empty cells".into());
        }
        match kind {
            0 if a == 1 && b == CELLS as i64 => {}
            1 => self.open(number(a)?, number(b)?, number(c)?)?,
            2..=5 => {
                set(&mut self.lent, kind, a, [b, c, d])?;
                set(&mut self.expected, kind, a, [b, c, d])?;
            }
            6 => self.delivered.push(byte(b)?),
            7 => self.empty = number(a)? as u64,
            10 => {
                let empty = std::mem::take(&mut self.empty);
                self.call(Call::Run(a as u64), Answer { empty, ..answer(0, b, c, d) });
            }
            11 => {
                let bytes = std::mem::take(&mut self.delivered);
                if number(a)? != bytes.len() {
                    return Err("not so many bytes to deliver".into());
                }
                self.call(Call::Deliver(bytes), answer(b, 0, 0, 0));
            }
            12 => self.call(Call::Drain(number(a)?), answer(b, 0, 0, c)),
            13 => self.call(Call::Raise(number(a)? as u64), answer(b, c, d, 0)),
            14 => self.call(Call::SetRegister(number(a)? as u64, b), answer(c, 0, 0, 0)),
            20..=23 => set(&mut self.expected, kind - 18, a, [b, c, d])?,
            24 => put(&mut self.expected_buffer, a, byte(b)?)?,
            29 => self.compare()?,
            99 => self.end(number(a)?)?,
            _ => return Err("no such line".into()),
        }
        Ok(())
    }

    fn open(&mut self, number: usize, queue: usize, output: usize) -> Result<(), String> {
        self.cases += 1;
        if number != self.cases {
            return Err(format!("case {number} where {} is due", self.cases));
        }
        self.lent = Lent::zero(CELLS, queue, output);
        self.expected = self.lent.clone();
        Ok(())
    }

    fn call(&mut self, call: Call, expected: Answer) {
        let (answer, buffer) = call.make(self.machine, &mut self.lent);
        self.expected_buffer = vec![0; buffer.len()];
        self.buffer = buffer;
        self.answered = Some((answer, expected));
        self.calls += 1;
    }

    fn compare(&mut self) -> Result<(), String> {
        let case = self.cases;
        let Some((answer, expected)) = self.answered.take() else {
            return Err(format!("case {case}: no call to compare"));
        };
        if answer != expected {
            return Err(format!("case {case}: answered {answer:?}, recorded {expected:?}"));
        }
        let same = [
            ("row", self.lent.row == self.expected.row),
            ("cells", self.lent.cells == self.expected.cells),
            ("queue", self.lent.queue == self.expected.queue),
            ("output", self.lent.output == self.expected.output),
            ("buffer", self.buffer == self.expected_buffer),
        ];
        match same.iter().find(|(_, same)| !same) {
            Some((what, _)) => Err(format!("case {case}: {what} differ from the recorded ones")),
            None => Ok(()),
        }
    }

    fn end(&mut self, cases: usize) -> Result<(), String> {
        self.ended = true;
        if cases == self.cases {
            Ok(())
        } else {
            Err(format!("{} cases, and the last line says {cases}", self.cases))
        }
    }
}

/// A cell, a number of the row, or a byte of queue or output, by the kinds 2 to 5.
fn set(lent: &mut Lent, kind: i64, place: i64, cell: Cell) -> Result<(), String> {
    match kind {
        2 if number(place)? < CELLS => lent.put_cell(number(place)?, cell),
        2 => return Err("no such cell".into()),
        3 => put(&mut lent.row, place - 1, cell[0])?,
        4 => put(&mut lent.queue, place, byte(cell[0])?)?,
        _ => put(&mut lent.output, place, byte(cell[0])?)?,
    }
    Ok(())
}

fn put<T>(buffer: &mut [T], place: i64, value: T) -> Result<(), String> {
    *buffer.get_mut(number(place)?).ok_or("no such place")? = value;
    Ok(())
}

fn number(number: i64) -> Result<usize, String> {
    usize::try_from(number).map_err(|_| "a negative number".into())
}

fn byte(number: i64) -> Result<u8, String> {
    u8::try_from(number).map_err(|_| "no byte".into())
}

fn answer(refusal: i64, stop: i64, detail: i64, count: i64) -> Answer {
    let [refusal, stop, detail, count] = [refusal, stop, detail, count].map(|n| n as u64);
    Answer { refusal, stop, detail, count, empty: 0 }
}
