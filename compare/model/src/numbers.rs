//! "Numbers and times".

use crate::{BEYOND_REACH, MALFORMED, Refusal, UNKNOWN_WORD};

pub const WHOLE_REACH: u64 = 9_007_199_254_740_992;
const POWER_REACH: i64 = 22;
const COLON_REACH: u64 = 1_000_000_000;

/// A number: a sign, then a word or a decimal.
pub fn number(s: &[u8]) -> Result<f64, Refusal> {
    let (negative, rest) = match s {
        [b'-', rest @ ..] => (true, rest),
        [b'+', rest @ ..] => (false, rest),
        _ => (false, s),
    };
    let size = match rest.to_ascii_lowercase().as_slice() {
        b"inf" | b"infinity" => f64::INFINITY,
        b"nan" => f64::NAN,
        _ => decimal(rest)?,
    };
    Ok(if negative { -size } else { size })
}

fn decimal(s: &[u8]) -> Result<f64, Refusal> {
    let (mantissa, power) = match cut_at(s, |b| b == b'e' || b == b'E') {
        Some((mantissa, power)) => (mantissa, exponent(power)?),
        None => (s, 0),
    };
    let (whole, fraction) = cut_at(mantissa, |b| b == b'.').unwrap_or((mantissa, b""));
    let digits = [whole, fraction].concat();
    if !all_digits(&digits) {
        return Err(MALFORMED);
    }
    let w = whole_number(&digits, WHOLE_REACH + 1);
    let e = power - fraction.len() as i64;
    if w == 0 {
        Ok(0.0)
    } else if w > WHOLE_REACH || e.abs() > POWER_REACH {
        Err(BEYOND_REACH)
    } else {
        Ok(nearest(w, e))
    }
}

fn exponent(s: &[u8]) -> Result<i64, Refusal> {
    let (negative, digits) = match s {
        [b'-', rest @ ..] => (true, rest),
        [b'+', rest @ ..] => (false, rest),
        _ => (false, s),
    };
    if !all_digits(digits) {
        return Err(MALFORMED);
    }
    // far more than any count of digits after a point
    let size = whole_number(digits, 1 << 60) as i64;
    Ok(if negative { -size } else { size })
}

/// The double nearest to w times ten to the power e, ties to even, worked out over whole numbers.
fn nearest(w: u64, e: i64) -> f64 {
    if e >= 0 {
        // below 2^127; a whole number turns into the nearest double
        (w as u128 * 10u128.pow(e as u32)) as f64
    } else {
        // w / 10^k = (w * 2^shift / 5^k) / 2^(shift + k), the quotient having more than 75 bits,
        // so that a last bit set for a remainder decides every tie
        let k = -e as u32;
        let shift = (w as u128).leading_zeros();
        let scaled = (w as u128) << shift;
        let five = 5u128.pow(k);
        let quotient = scaled / five | u128::from(scaled % five != 0);
        quotient as f64 / 2f64.powi((shift + k) as i32)
    }
}

/// A count: an optional plus, digits, below 2^64.
pub fn count(s: &[u8]) -> Result<u64, Refusal> {
    let digits = s.strip_prefix(b"+").unwrap_or(s);
    let limit = 1 << 64;
    if all_digits(digits) && whole_number_wide(digits, limit) < limit {
        Ok(whole_number_wide(digits, limit) as u64)
    } else {
        Err(MALFORMED)
    }
}

/// A time and the unit or suffix after it, in seconds.
pub fn time(s: &[u8], unit: Option<&[u8]>) -> Result<u64, Refusal> {
    let raised = unit.map(|u| u.to_ascii_uppercase());
    if s.contains(&b':') {
        colon_time(s, raised.as_deref())
    } else {
        unit_time(number(s)?, raised.as_deref().unwrap_or(b"HOURS"))
    }
}

fn colon_time(s: &[u8], suffix: Option<&[u8]>) -> Result<u64, Refusal> {
    let mut parts = s.split(|&b| b == b':').map(|part| match count(part)? {
        n if n > COLON_REACH => Err(BEYOND_REACH),
        n => Ok(n),
    });
    let hours = parts.next().unwrap_or(Err(MALFORMED))?;
    let minutes = parts.next().unwrap_or(Err(MALFORMED))?;
    let hours = match suffix {
        Some(b"AM") => hours % 12,
        Some(b"PM") => hours % 12 + 12,
        _ => hours,
    };
    Ok(hours * 3600 + minutes * 60)
}

fn unit_time(value: f64, unit: &[u8]) -> Result<u64, Refusal> {
    let unit = match unit {
        b"HOURS" => unit,
        [singular @ .., b'S'] => singular,
        _ => unit,
    };
    // `as` cuts: NaN and negatives give 0, 2^64 and above the greatest
    Ok(match unit {
        b"HOUR" | b"HOURS" => (value * 3600.0) as u64,
        b"MINUTE" | b"MIN" => (value * 60.0) as u64,
        b"SECOND" | b"SEC" => value as u64,
        b"DAY" => (value * 86_400.0) as u64,
        b"AM" => value as u64 % 12 * 3600,
        b"PM" => (value as u64 % 12 + 12) * 3600,
        _ => return Err(UNKNOWN_WORD),
    })
}

fn cut_at(s: &[u8], at: impl Fn(u8) -> bool) -> Option<(&[u8], &[u8])> {
    let place = s.iter().position(|&b| at(b))?;
    Some((&s[..place], &s[place + 1..]))
}

fn all_digits(s: &[u8]) -> bool {
    !s.is_empty() && s.iter().all(u8::is_ascii_digit)
}

/// The whole number that the digits write, or `limit` where it is greater.
fn whole_number_wide(digits: &[u8], limit: u128) -> u128 {
    digits.iter().fold(0, |n, &d| limit.min(n * 10 + u128::from(d - b'0')))
}

fn whole_number(digits: &[u8], limit: u64) -> u64 {
    whole_number_wide(digits, limit.into()) as u64
}
