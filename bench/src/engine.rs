//! The engine, by the functions that the static library exports (hosts/rolgevin.h).

#[link(name = "hosts", kind = "static")]
extern "C" {
    fn rolgevin_check(sheet: *const u32, sheet_len: usize, place: *mut u32, place_len: usize) -> u32;
    fn rolgevin_run(
        sheet: *const u32,
        sheet_len: usize,
        rogues: u32,
        bits: u32,
        calls: *const u32,
        calls_len: usize,
        answers: *mut u32,
        answers_len: usize,
    ) -> u32;
}

/// The refusal's number, or 0.
pub fn check(sheet: &[u32]) -> u32 {
    let mut place = [0];
    // SAFETY: each pointer comes from a slice and is passed with that slice's length.
    unsafe { rolgevin_check(sheet.as_ptr(), sheet.len(), place.as_mut_ptr(), place.len()) }
}

/// Runs a floor; the refusal's number of the sheet or of open, or 0.
pub fn run(sheet: &[u32], rogues: u32, bits: u32, calls: &[u32], answers: &mut [u32]) -> u32 {
    // SAFETY: as above.
    unsafe {
        rolgevin_run(
            sheet.as_ptr(),
            sheet.len(),
            rogues,
            bits,
            calls.as_ptr(),
            calls.len(),
            answers.as_mut_ptr(),
            answers.len(),
        )
    }
}
