//! Document 01 as a plain program, written from the paper alone: the third witness beside the Rust and the proved
//! reader. Slow and simple on purpose.

pub mod dump;
pub mod fields;
pub mod network;
pub mod numbers;
pub mod reading;
pub mod rules;
pub mod sections;
pub mod tables;

/// "Numbers of the answers".
pub type Refusal = u8;
pub const MISSING: Refusal = 1;
pub const MALFORMED: Refusal = 2;
pub const USED: Refusal = 3;
pub const NOT_FOUND: Refusal = 4;
pub const WRONG_KIND: Refusal = 5;
pub const X_FALLS: Refusal = 6;
pub const UNKNOWN_WORD: Refusal = 7;
pub const NO_CONDITION: Refusal = 8;
pub const NO_ACTION: Refusal = 9;
pub const NO_ID: Refusal = 10;
pub const TOO_LONG: Refusal = 20;
pub const NOT_ASCII: Refusal = 21;
pub const BEYOND_REACH: Refusal = 22;
pub const NO_ROOM: Refusal = 23;

/// The answers that are ours and not the Rust's: such a text is outside the domain of equality.
pub fn ours(answer: Refusal) -> bool {
    answer >= TOO_LONG
}
