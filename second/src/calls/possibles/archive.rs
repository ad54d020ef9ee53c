//! The archive's count of what remains possible.

#[cfg_attr(not(test), link(name = "sheets", kind = "static"))]
extern "C" {
    /// Reads the sheet and one cycle of input, fills the output slice; gives
    /// code * 2^32 + place.
    fn sheet_possible(
        sheet: *const u8,
        sheet_length: usize,
        stimulus: *const u8,
        stimulus_length: usize,
        outputs: *mut u8,
        output_length: usize,
    ) -> u64;
}

/// The packed answer of the archive's call.
pub fn possible(sheet: &[u8], stimulus: &[u8], outputs: &mut [u8]) -> u64 {
    // The slices are valid for their lengths and do not overlap.
    unsafe {
        sheet_possible(
            sheet.as_ptr(),
            sheet.len(),
            stimulus.as_ptr(),
            stimulus.len(),
            outputs.as_mut_ptr(),
            outputs.len(),
        )
    }
}
