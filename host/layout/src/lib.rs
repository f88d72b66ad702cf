//! The papers' numbers, each named once for everything in this workspace: the row's places, cells and tags, a journal's places, operations,
//! modes and registers, limits, addresses with a meaning, stops, refusals and exception codes. The names are those of ../include/z33.h.

pub mod cell;
pub mod code;
pub mod form;
pub mod journal;
pub mod limit;
pub mod memory;
pub mod mode;
pub mod op;
pub mod refusal;
pub mod reg;
pub mod row;
pub mod runner;
pub mod sr;
pub mod stop;

pub use cell::Cell;
pub use form::Form;
pub use row::{ROW, Row, at};
