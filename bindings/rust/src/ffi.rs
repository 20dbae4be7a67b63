//! The two functions of the library, over slices. They are safe: slices carry their lengths, `&mut` slices do not
//! overlap, and the library is proved to stay within both for every text and every length. A table smaller than its room
//! is answered with 28, and nothing is written.

unsafe extern "C" {
    fn inp_read_strict(
        text: *const u8,
        text_length: usize,
        words: *mut u64,
        words_length: usize,
        numbers: *mut f64,
        numbers_length: usize,
        line: *mut u64,
    ) -> u64;

    fn inp_read_survey(
        text: *const u8,
        text_length: usize,
        words: *mut u64,
        words_length: usize,
        numbers: *mut f64,
        numbers_length: usize,
        classes: *mut u8,
        classes_length: usize,
        reasons: *mut u8,
        reasons_length: usize,
        counts: *mut u64,
        counts_length: usize,
    ) -> u64;
}

/// 0 or the number of the first refusal; `line` is then the line of the refused piece, else 0.
pub fn read_strict(text: &[u8], words: &mut [u64], numbers: &mut [f64], line: &mut u64) -> u64 {
    // SAFETY: each pointer comes with the length of its own slice, and no two of them overlap.
    unsafe {
        inp_read_strict(
            text.as_ptr(),
            text.len(),
            words.as_mut_ptr(),
            words.len(),
            numbers.as_mut_ptr(),
            numbers.len(),
            line,
        )
    }
}

/// 0, or 20, 21 or 28.
pub fn read_survey(
    text: &[u8],
    words: &mut [u64],
    numbers: &mut [f64],
    classes: &mut [u8],
    reasons: &mut [u8],
    counts: &mut [u64],
) -> u64 {
    // SAFETY: as above.
    unsafe {
        inp_read_survey(
            text.as_ptr(),
            text.len(),
            words.as_mut_ptr(),
            words.len(),
            numbers.as_mut_ptr(),
            numbers.len(),
            classes.as_mut_ptr(),
            classes.len(),
            reasons.as_mut_ptr(),
            reasons.len(),
            counts.as_mut_ptr(),
            counts.len(),
        )
    }
}
