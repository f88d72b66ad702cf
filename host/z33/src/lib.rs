//! The Z33, a processor made for teaching, as it is proved in this repository: up to 10,000 cells, five registers, 33 instructions,
//! exceptions through cell 200, a serial console and a timer. docs/MANUAL.md describes the machine and the numbers of its instructions.
//!
//! [`Machine`] owns its memory and is what most programs want; with a [`Journal`] it can step back; [`Bench`] runs up to sixteen in turns;
//! [`lent`] has the calls over buffers of one's own.
//!
//! ```
//! use z33::{Cell, Machine, Register, Stop};
//!
//! # fn main() -> Result<(), z33::Refusal> {
//! // 2,048 cells, a queue of 256 bytes, an output record of 4,096.
//! let mut machine = Machine::new(2048, 256, 4096)?;
//!
//! // in [111],%a; out %a,[111]; reset
//! let image = [
//!     Cell::Instruction { tag: 5902, first: 111, second: 0 },
//!     Cell::Instruction { tag: 18377, first: 0, second: 111 },
//!     Cell::Instruction { tag: 20702, first: 0, second: 0 },
//! ];
//! machine.load(0, &image)?;
//!
//! // A new machine is in user mode, where in and out are not allowed: a kernel boots with S set.
//! machine.set_register(Register::Sr, z33::SUPERVISOR)?;
//! machine.deliver(b"k")?;
//!
//! let ran = machine.run(100_000)?;
//! assert_eq!(ran.stop, Stop::Reset);
//! assert_eq!(ran.to_string(), "reset after 2 steps");
//! assert_eq!(machine.register(Register::A), Cell::Word(i64::from(b'k')));
//! assert_eq!(machine.drain(), b"k");
//!
//! // Refusals say what was wrong.
//! assert_eq!(machine.cell(2048).unwrap_err().to_string(), "the address is outside the cells");
//! # Ok(())
//! # }
//! ```

#![deny(missing_docs)]

mod bench;
mod cell;
mod exception;
mod journal;
pub mod lent;
mod machine;
mod refusal;
mod register;
mod seat;
mod stop;
mod timer;

pub use bench::{Bench, Part};
pub use cell::Cell;
pub use exception::Exception;
pub use journal::Journal;
pub use layout::ROW as ROW_LENGTH;
pub use layout::sr::{INTERRUPT_ENABLE, NEGATIVE, OVERFLOW, SUPERVISOR, ZERO};
pub use machine::Machine;
pub use refusal::{Refusal, SeatRefusal};
pub use register::Register;
pub use seat::Seat;
pub use stop::{Ran, Stop};
pub use timer::Timer;
