//! The serial console on ports 110 and 111, over lent bytes.

use layout::memory::{
    SERIAL_DATA_PORT, SERIAL_STATUS_PORT, STATUS_INPUT_READY, STATUS_INTERRUPT, STATUS_OUTPUT_READY,
};

pub struct Console<'a> {
    pub enable: bool,
    pub flag: bool,
    pub pending: bool,
    pub queue: &'a mut [u8],
    pub start: usize,
    pub count: usize,
    pub output: &'a mut [u8],
    pub written: usize,
}

impl Console<'_> {
    pub fn read(&mut self, port: u32) -> i64 {
        match port {
            SERIAL_STATUS_PORT => self.status(),
            SERIAL_DATA_PORT => self.data(),
            _ => 0,
        }
    }

    fn status(&mut self) -> i64 {
        let status = STATUS_OUTPUT_READY
            + STATUS_INPUT_READY * i64::from(self.count > 0)
            + STATUS_INTERRUPT * i64::from(self.flag);
        self.flag = false;
        status
    }

    fn data(&mut self) -> i64 {
        if self.count == 0 {
            return 0;
        }
        let byte = self.queue[self.start];
        self.start = if self.start + 1 == self.queue.len() { 0 } else { self.start + 1 };
        self.count -= 1;
        byte.into()
    }

    /// Whether a write would go past the output record.
    pub fn is_full(&self, port: u32) -> bool {
        port == SERIAL_DATA_PORT && self.written == self.output.len()
    }

    pub fn write(&mut self, port: u32, word: i64) {
        match port {
            SERIAL_STATUS_PORT => self.control(word),
            SERIAL_DATA_PORT => {
                self.output[self.written] = word.to_le_bytes()[0];
                self.written += 1;
            }
            _ => {}
        }
    }

    fn control(&mut self, word: i64) {
        self.enable = word % 2 != 0;
        if self.enable && self.count > 0 {
            self.raise();
        }
    }

    /// Where there is room for the bytes.
    pub fn deliver(&mut self, bytes: &[u8]) {
        for byte in bytes {
            let place = (self.start + self.count) % self.queue.len();
            self.queue[place] = *byte;
            self.count += 1;
        }
        if self.enable && !bytes.is_empty() {
            self.raise();
        }
    }

    fn raise(&mut self) {
        self.flag = true;
        self.pending = true;
    }
}
