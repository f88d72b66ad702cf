//! Programs written as text, from document 02 alone: an assembler (Card 1), a lister (Card 3) and the runner's files (Card 7).

pub mod assembler;
pub mod file;
pub mod lister;
