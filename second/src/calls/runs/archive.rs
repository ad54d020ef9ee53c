//! The archive's run.

#[cfg_attr(not(test), link(name = "sheets", kind = "static"))]
extern "C" {
    /// Reads the sheet and the stimulus, fills the output and the next slice;
    /// gives code * 2^32 + place.
    fn sheet_run(
        sheet: *const u8,
        sheet_length: usize,
        stimulus: *const u8,
        stimulus_length: usize,
        outputs: *mut u8,
        output_length: usize,
        next: *mut u8,
        next_length: usize,
    ) -> u64;
}

/// The packed answer of the archive's run.
pub fn run(sheet: &[u8], stimulus: &[u8], outputs: &mut [u8], next: &mut [u8]) -> u64 {
    // The slices are valid for their lengths and do not overlap.
    unsafe {
        sheet_run(
            sheet.as_ptr(),
            sheet.len(),
            stimulus.as_ptr(),
            stimulus.len(),
            outputs.as_mut_ptr(),
            outputs.len(),
            next.as_mut_ptr(),
            next.len(),
        )
    }
}
