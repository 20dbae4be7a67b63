//! Generated texts, and what must hold of each.

pub mod check;
pub mod edges;
pub mod generate;
pub mod library;
pub mod program;

mod decoded;
mod words;
