//! The exercise load of document 02, in plain Rust.

use crate::forms::{DIR, Form, IDX, IMM, IND, REG, all};

/// "state times 6364136223846793005 plus 1442695040888963407 modulo 2^64 gives the next state, whose upper 32 bits are
/// the draw"
struct Draws(u64);

impl Draws {
    fn next(&mut self) -> u64 {
        let product = u128::from(self.0) * 6_364_136_223_846_793_005 + 1_442_695_040_888_963_407;
        self.0 = (product % (1 << 64)) as u64;
        self.0 / (1 << 32)
    }
}

/// Fills an image of whole cells. "Three draws make a cell".
pub fn fill(image: &mut [i64], seed: u64) {
    let (forms, mut draws) = (all(), Draws(seed));
    for cell in image.chunks_exact_mut(3) {
        let form = forms[(draws.next() % 124) as usize];
        let registers = draws.next();
        let number = (draws.next() % 16_384) as i64;
        cell.copy_from_slice(&made(form, registers, number));
    }
}

/// "r1 by modulo 5 and r2 by the quotient modulo 5, 0 where unused"; the number "is every number that the form holds"
fn made(form: Form, registers: u64, number: i64) -> [i64; 3] {
    let register = |mode, register| if matches!(mode, REG | IND | IDX) { register as i64 } else { 0 };
    let held = |mode| if matches!(mode, IMM | DIR | IDX) { number } else { 0 };
    let tag = form.tag(register(form.m1, registers % 5), register(form.m2, registers / 5 % 5));
    [tag, held(form.m1), held(form.m2)]
}
