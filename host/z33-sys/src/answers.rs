//! The structs of include/z33.h. `refusal` is 0 where the call was done; where it was refused, `place` says where and every other field is 0,
//! but for the seat of a refused bench.

#![allow(non_camel_case_types, reason = "the names are the header's")]

/// A call done or refused.
#[repr(C)]
#[derive(Clone, Copy, Debug, Default, PartialEq, Eq)]
pub struct z33_done {
    /// 0, or the refusal's number.
    pub refusal: u64,
    /// Where what was refused is, or 0.
    pub place: u64,
}

/// What a run answers.
#[repr(C)]
#[derive(Clone, Copy, Debug, Default, PartialEq, Eq)]
pub struct z33_ran {
    /// 0, or the refusal's number.
    pub refusal: u64,
    /// Where what was refused is, or 0.
    pub place: u64,
    /// Why the run ended.
    pub stop: u64,
    /// The exception's code of stop 2, the register of stop 5, or 0.
    pub detail: u64,
    /// How many steps were completed.
    pub steps: u64,
    /// How many words these steps took from empty cells.
    pub empty: u64,
}

/// What a drain answers.
#[repr(C)]
#[derive(Clone, Copy, Debug, Default, PartialEq, Eq)]
pub struct z33_drained {
    /// 0, or the refusal's number.
    pub refusal: u64,
    /// Where what was refused is, or 0.
    pub place: u64,
    /// How many bytes are at the front of the buffer.
    pub count: u64,
}

/// How much a call wrote.
#[repr(C)]
#[derive(Clone, Copy, Debug, Default, PartialEq, Eq)]
pub struct z33_counted {
    /// 0, or the refusal's number.
    pub refusal: u64,
    /// Where what was refused is, or 0.
    pub place: u64,
    /// How many cells were made, or bytes of text written.
    pub count: u64,
}

/// A cell that was read.
#[repr(C)]
#[derive(Clone, Copy, Debug, Default, PartialEq, Eq)]
pub struct z33_cell {
    /// 0, or the refusal's number.
    pub refusal: u64,
    /// Where what was refused is, or 0.
    pub place: u64,
    /// 0 for empty, 1 for a word, more for an instruction.
    pub tag: i64,
    /// The word, or the first operand's number.
    pub first: i64,
    /// The second operand's number.
    pub second: i64,
}

/// What raise answers.
#[repr(C)]
#[derive(Clone, Copy, Debug, Default, PartialEq, Eq)]
pub struct z33_raised {
    /// 0, or the refusal's number.
    pub refusal: u64,
    /// Where what was refused is, or 0.
    pub place: u64,
    /// 0 where the exception was entered, or else 2 or 7.
    pub stop: u64,
    /// The code of stop 2, or 0.
    pub detail: u64,
}

/// What a bench answers.
#[repr(C)]
#[derive(Clone, Copy, Debug, Default, PartialEq, Eq)]
pub struct z33_benched {
    /// 0, or the refusal's number.
    pub refusal: u64,
    /// Where in the seat's part what was refused is, or 0.
    pub place: u64,
    /// The seat, from 1, that was refused, or 0.
    pub seat: u64,
    /// What is left of the total.
    pub left: u64,
}

/// A seat's record in a bench list.
#[repr(C)]
#[derive(Clone, Copy, Debug, Default, PartialEq, Eq)]
pub struct z33_seat {
    /// How many steps it may take in all.
    pub limit: u64,
    /// How many it has taken.
    pub used: u64,
    /// Why its last turn ended.
    pub stop: u32,
}

const _: () = {
    assert!(size_of::<z33_done>() == 16 && size_of::<z33_ran>() == 48 && size_of::<z33_drained>() == 24);
    assert!(size_of::<z33_counted>() == 24 && size_of::<z33_cell>() == 40 && size_of::<z33_raised>() == 32);
    assert!(size_of::<z33_benched>() == 32 && size_of::<z33_seat>() == 24);
};
