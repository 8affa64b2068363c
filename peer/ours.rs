//! The proved library, as the crate `exported` offers it. Called from one thread.

#[repr(C)]
#[derive(Clone, Copy, Debug, PartialEq, Eq)]
pub struct Told {
    /// 0 accepted, same or taken; 1 different or not taken; 2 refused.
    pub verdict: u8,
    /// The fault's number; 0 where nothing is refused.
    pub number: u8,
    /// The fault's first number; or the length of the rows; or the tally.
    pub first: usize,
    /// The fault's second number; or the length of the input that is shown.
    pub second: usize,
}

unsafe extern "C" {
    fn exported_list(bytes: *const u8, length: usize, out: *mut [u8; 256]) -> usize;
    fn exported_check(bytes: *const u8, length: usize) -> Told;
    fn exported_run(
        bytes: *const u8,
        length: usize,
        word: *const u8,
        word_length: usize,
        input: *const u8,
        input_length: usize,
    ) -> Told;
    fn exported_compare(
        bytes: *const u8,
        length: usize,
        one: *const u8,
        one_length: usize,
        two: *const u8,
        two_length: usize,
        input: *mut u8,
        input_length: usize,
        rows: *mut u8,
        rows_length: usize,
    ) -> Told;
}

/// The length of the listing, which stands at the start of the buffer.
pub fn list(bytes: &[u8], out: &mut [u8; 256]) -> usize {
    unsafe { exported_list(bytes.as_ptr(), bytes.len(), out) }
}

pub fn check(bytes: &[u8]) -> Told {
    unsafe { exported_check(bytes.as_ptr(), bytes.len()) }
}

pub fn run(bytes: &[u8], word: &[u8], input: &[u8]) -> Told {
    unsafe { exported_run(bytes.as_ptr(), bytes.len(), word.as_ptr(), word.len(), input.as_ptr(), input.len()) }
}

pub fn compare(bytes: &[u8], one: &[u8], two: &[u8], input: &mut [u8], rows: &mut [u8]) -> Told {
    unsafe {
        exported_compare(
            bytes.as_ptr(),
            bytes.len(),
            one.as_ptr(),
            one.len(),
            two.as_ptr(),
            two.len(),
            input.as_mut_ptr(),
            input.len(),
            rows.as_mut_ptr(),
            rows.len(),
        )
    }
}
