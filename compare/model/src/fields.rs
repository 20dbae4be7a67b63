//! "Lines and groups": whitespace, cutting and fields.

use crate::numbers::number;
use crate::{MALFORMED, MISSING, Refusal};

pub fn is_space(b: u8) -> bool {
    matches!(b, 9..=13 | 32)
}

pub fn trim(mut line: &[u8]) -> &[u8] {
    while let [first, rest @ ..] = line
        && is_space(*first)
    {
        line = rest;
    }
    while let [rest @ .., last] = line
        && is_space(*last)
    {
        line = rest;
    }
    line
}

/// The line up to its first `;`.
pub fn uncommented(line: &[u8]) -> &[u8] {
    line.split(|&b| b == b';').next().unwrap_or(line)
}

/// The fields of a line that are not yet taken.
pub struct Fields<'a>(Vec<&'a [u8]>);

impl<'a> Fields<'a> {
    pub fn of(line: &'a [u8]) -> Self {
        let mut fields: Vec<_> = line.split(|&b| is_space(b)).filter(|field| !field.is_empty()).collect();
        fields.reverse();
        Fields(fields)
    }

    pub fn optional(&mut self) -> Option<&'a [u8]> {
        self.0.pop()
    }

    pub fn required(&mut self) -> Result<&'a [u8], Refusal> {
        self.optional().ok_or(MISSING)
    }

    pub fn number(&mut self) -> Result<f64, Refusal> {
        number(self.required()?)
    }

    /// A number whose absence or malformed text stands for a value. Beyond reach is refused even there.
    pub fn number_or(&mut self, value: f64) -> Result<f64, Refusal> {
        self.optional().map_or(Ok(value), |field| swallowed(field, value))
    }
}

pub fn swallowed(field: &[u8], value: f64) -> Result<f64, Refusal> {
    match number(field) {
        Err(MALFORMED) => Ok(value),
        answer => answer,
    }
}
