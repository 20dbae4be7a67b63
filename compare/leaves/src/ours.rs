//! The proved leaves, as libleaves.a exports them.

unsafe extern "C" {
    fn leaf_number(p: *const u8, n: usize, out: *mut f64) -> u64;
    fn leaf_count(p: *const u8, n: usize, out: *mut u64) -> u64;
    fn leaf_time(t: *const u8, tn: usize, u: *const u8, un: usize, out: *mut u64) -> u64;
}

fn answer<T>(number: u64, value: T) -> Result<T, u64> {
    if number == 0 { Ok(value) } else { Err(number) }
}

pub fn number(s: &str) -> Result<f64, u64> {
    let mut out = 0.0;
    let number = unsafe { leaf_number(s.as_ptr(), s.len(), &mut out) };
    answer(number, out)
}

pub fn count(s: &str) -> Result<u64, u64> {
    let mut out = 0;
    let number = unsafe { leaf_count(s.as_ptr(), s.len(), &mut out) };
    answer(number, out)
}

/// No unit is an empty one.
pub fn time(s: &str, unit: &str) -> Result<u64, u64> {
    let mut out = 0;
    let number = unsafe { leaf_time(s.as_ptr(), s.len(), unit.as_ptr(), unit.len(), &mut out) };
    answer(number, out)
}
