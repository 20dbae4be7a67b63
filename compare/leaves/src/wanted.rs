//! What the Rust says. Only 22, which the Rust does not know, is document 01's as the model has it.

use model::numbers;
use model::{BEYOND_REACH, MALFORMED};

pub type Answer<T> = Result<T, u64>;

fn beyond<T>(model: &Result<T, u8>) -> bool {
    matches!(model, Err(BEYOND_REACH))
}

pub fn number(s: &str) -> Answer<f64> {
    let rust = s.parse::<f64>();
    if beyond(&numbers::number(s.as_bytes())) {
        assert!(rust.is_ok(), "the model takes a malformed number for one beyond reach: {s:?}");
        return Err(BEYOND_REACH.into());
    }
    rust.map_err(|_| MALFORMED.into())
}

pub fn count(s: &str) -> Answer<u64> {
    s.parse::<usize>().map(|n| n as u64).map_err(|_| MALFORMED.into())
}

pub fn time(s: &str, unit: &str) -> Answer<u64> {
    let unit = (!unit.is_empty()).then_some(unit);
    if beyond(&numbers::time(s.as_bytes(), unit.map(str::as_bytes))) {
        return Err(BEYOND_REACH.into());
    }
    let rust = oracle::parse_time_str(s, unit);
    rust.map(|n| n as u64).map_err(|error| oracle::number(&error).into())
}
