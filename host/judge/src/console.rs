//! The serial console's private state, built and read through its public operations.

use layout::memory::{SERIAL_DATA_PORT as DATA, SERIAL_STATUS_PORT as STATUS, STATUS_INTERRUPT};

use crate::runtime::{Device, SerialConsole};

#[derive(Clone, Copy, Debug, PartialEq, Eq)]
pub(crate) struct Marks {
    pub enable: bool,
    pub flag: bool,
    pub pending: bool,
}

/// A console with these unread bytes and marks, and no output.
pub(crate) fn build(unread: &[u8], marks: Marks) -> SerialConsole {
    let mut console = SerialConsole::default();
    console.push_input(unread);
    if marks != (Marks { enable: false, flag: false, pending: false }) {
        mark(&mut console, unread.is_empty(), marks);
    }
    console
}

/// Enabling with a byte queued sets all three marks; then those not wanted are cleared.
fn mark(console: &mut SerialConsole, needs_byte: bool, marks: Marks) {
    if needs_byte {
        console.push_input(&[0]);
    }
    console.write(STATUS, 1);
    if needs_byte {
        console.read(DATA);
    }
    if !marks.flag {
        console.read(STATUS);
    }
    if !marks.pending {
        console.poll_interrupt();
    }
    if !marks.enable {
        console.write(STATUS, 0);
    }
}

/// The unread bytes and marks, read from a copy.
pub(crate) fn probe(console: &SerialConsole) -> (Vec<u8>, Marks) {
    let mut copy = console.clone();
    let pending = copy.poll_interrupt();
    let flag = copy.read(STATUS) & STATUS_INTERRUPT != 0;
    let mut unread = Vec::new();
    while copy.input_ready() {
        unread.push(u8::try_from(copy.read(DATA)).expect("the data port reads a byte"));
    }
    copy.push_input(&[0]);
    let enable = copy.poll_interrupt();
    (unread, Marks { enable, flag, pending })
}
