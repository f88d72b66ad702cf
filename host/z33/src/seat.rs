use std::mem::offset_of;

use z33_sys::z33_seat;

/// A seat's record in a bench list. Any numbers are taken.
#[repr(C)]
#[derive(Clone, Copy, Debug, Default, PartialEq, Eq, Hash)]
pub struct Seat {
    /// How many steps it may take in all.
    pub limit: u64,
    /// How many it has taken.
    pub used: u64,
    /// The number of the stop that ended its last turn.
    pub stop: u32,
}

impl Seat {
    /// A seat that has taken no step yet.
    pub fn new(limit: u64) -> Self {
        Seat { limit, ..Seat::default() }
    }

    /// The record of one that was stored in 32 bits, every number equal.
    pub fn take_over(limit: u32, used: u32, stop: u32) -> Self {
        let z33_seat { limit, used, stop } = unsafe { z33_sys::z33_take_over(limit, used, stop) };
        Seat { limit, used, stop }
    }

    /// Whether it has turns while the total lasts: its last stop is 0 and its limit not reached.
    pub fn can_go_on(&self) -> bool {
        self.stop == 0 && self.used < self.limit
    }
}

/// A list of these is lent as one of C's.
const _: () = {
    assert!(size_of::<Seat>() == size_of::<z33_seat>() && align_of::<Seat>() == align_of::<z33_seat>());
    assert!(
        offset_of!(Seat, limit) == offset_of!(z33_seat, limit)
            && offset_of!(Seat, used) == offset_of!(z33_seat, used)
    );
    assert!(offset_of!(Seat, stop) == offset_of!(z33_seat, stop));
};
