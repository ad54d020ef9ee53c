//! The archive's call for fired alternatives.

#[cfg_attr(not(test), link(name = "sheets", kind = "static"))]
extern "C" {
    /// Reads the sheet and one cycle of input, fills the slice of words, which
    /// is aligned; gives code * 2^32 + place.
    fn sheet_fired(
        sheet: *const u8,
        sheet_length: usize,
        stimulus: *const u8,
        stimulus_length: usize,
        fired: *mut u16,
        fired_length: usize,
    ) -> u64;
}

/// The packed answer of the archive's call. The bytes are those of whole words,
/// and aligned to 2.
pub fn fired(sheet: &[u8], stimulus: &[u8], fired: &mut [u8]) -> u64 {
    assert!(fired.as_ptr().cast::<u16>().is_aligned() && fired.len().is_multiple_of(2));
    // The slices are valid for their lengths and do not overlap.
    unsafe {
        sheet_fired(
            sheet.as_ptr(),
            sheet.len(),
            stimulus.as_ptr(),
            stimulus.len(),
            fired.as_mut_ptr().cast::<u16>(),
            fired.len() / 2,
        )
    }
}
