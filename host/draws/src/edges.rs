//! Numbers at which something changes, and draws from them.

use layout::Cell;
use layout::cell::{self, EMPTY};

use crate::forms::{DIR, Form, IDX, IMM, IND, REG, REGISTERS, all};
use crate::rng::Rng;

pub const WORDS: [i64; 60] = [
    0,
    1,
    -1,
    2,
    -2,
    3,
    7,
    8,
    62,
    63,
    64,
    65,
    -63,
    -64,
    99,
    100,
    101,
    102,
    109,
    110,
    111,
    112,
    127,
    128,
    199,
    200,
    201,
    255,
    256,
    257,
    511,
    512,
    768,
    1_023,
    9_998,
    9_999,
    10_000,
    10_001,
    -9_999,
    65_536,
    2_147_483_647,
    2_147_483_648,
    -2_147_483_648,
    3_037_000_499,
    3_037_000_500,
    4_294_967_294,
    4_294_967_295,
    4_294_967_296,
    4_294_967_297,
    -4_294_967_296,
    4_611_686_018_427_387_904,
    -4_611_686_018_427_387_904,
    6_148_914_691_236_517_205,
    -6_148_914_691_236_517_206,
    9_223_372_036_854_775_806,
    i64::MAX,
    i64::MIN,
    -9_223_372_036_854_775_807,
    -512,
    -257,
];

/// Addresses in and just outside the cells.
pub const PLACES: [i64; 14] = [0, 1, 99, 100, 101, 102, 110, 111, 199, 200, 201, 9_998, 9_999, 10_000];

pub fn word(rng: &mut Rng) -> i64 {
    match rng.below(8) {
        0..=3 => rng.pick(&WORDS),
        4..=5 => rng.between(-3, 300),
        6 => rng.between(0, 10_010),
        _ => rng.draw() as i64,
    }
}

/// An address; three times in four below 10,000.
pub fn address(rng: &mut Rng) -> i64 {
    match rng.below(16) {
        0..=3 => rng.pick(&PLACES),
        4..=12 => rng.between(0, 9_999),
        13 => rng.pick(&[10_000, 10_001, 4_294_967_294, 4_294_967_295]),
        14 => rng.between(10_000, 4_294_967_295),
        _ => rng.between(105, 114),
    }
}

pub fn cell(rng: &mut Rng) -> Cell {
    match rng.below(9) {
        0 => EMPTY,
        1..=3 => cell::word(word(rng)),
        4..=5 => cell::word(address(rng)),
        6 => cell::word(rng.between(-2, 66)),
        _ => instruction(rng),
    }
}

/// A sound instruction of any form.
pub fn instruction(rng: &mut Rng) -> Cell {
    let form = rng.pick(all_forms());
    let (r1, n1) = operand(rng, form.m1);
    let (r2, n2) = operand(rng, form.m2);
    [form.tag(r1, r2), n1, n2]
}

fn operand(rng: &mut Rng, mode: i64) -> (i64, i64) {
    match mode {
        IMM => (0, word(rng)),
        REG | IND => (rng.between(0, REGISTERS - 1), 0),
        DIR => (0, address(rng)),
        IDX => (rng.between(0, REGISTERS - 1), word(rng)),
        _ => (0, 0),
    }
}

fn all_forms() -> &'static [Form] {
    static FORMS: std::sync::OnceLock<Vec<Form>> = std::sync::OnceLock::new();
    FORMS.get_or_init(all)
}

/// A status word: each named bit by half, and once in four other bits as well.
pub fn status(rng: &mut Rng) -> i64 {
    let named = (rng.draw() & 0x30F) as i64;
    let other = if rng.once_in(4) { word(rng) & !0x30F } else { 0 };
    named | other
}
