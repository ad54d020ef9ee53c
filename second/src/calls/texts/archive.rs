//! The archive's translation.

#[cfg_attr(not(test), link(name = "sheets", kind = "static"))]
extern "C" {
    /// Reads the text, fills the slice for the sheet; gives code * 2^32 + place.
    fn sheet_translate(
        text: *const u8,
        text_length: usize,
        sheet: *mut u8,
        sheet_length: usize,
    ) -> u64;
}

/// The packed answer of the archive's translation.
pub fn translate(text: &[u8], sheet: &mut [u8]) -> u64 {
    // The slices are valid for their lengths and do not overlap.
    unsafe { sheet_translate(text.as_ptr(), text.len(), sheet.as_mut_ptr(), sheet.len()) }
}
