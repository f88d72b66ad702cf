//! The timer on ports 120 and 121 (document 02, Card 14).

use layout::memory::{TIMER_INTERVAL_PORT, TIMER_REMAINING_PORT};

#[derive(Clone, Copy)]
pub struct Timer {
    /// 0: off.
    pub interval: u64,
    pub remaining: u64,
    pub mark: bool,
    /// This step wrote port 120.
    pub written: bool,
}

impl Timer {
    /// What its two ports read.
    pub fn read(&self, port: u32) -> Option<i64> {
        match port {
            TIMER_INTERVAL_PORT => Some(self.interval as i64),
            TIMER_REMAINING_PORT => Some(self.remaining as i64),
            _ => None,
        }
    }

    /// A number below 1 turns it off as 0; a mark already set is kept. Port 121 swallows writes.
    pub fn write(&mut self, port: u32, word: i64) {
        if port == TIMER_INTERVAL_PORT {
            self.interval = word.max(0) as u64;
            self.remaining = self.interval;
            self.written = true;
        }
    }

    /// Takes cycles off what remains; where that leaves 0 or less, the mark is set and the interval starts afresh.
    pub fn pass(&mut self, cycles: u64) {
        if self.interval == 0 || self.written {
            return;
        }
        if self.remaining > cycles {
            self.remaining -= cycles;
        } else {
            self.mark = true;
            self.remaining = self.interval;
        }
    }
}
