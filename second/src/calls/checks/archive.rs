//! The archive's check.

#[cfg_attr(not(test), link(name = "sheets", kind = "static"))]
extern "C" {
    /// Reads the sheet; gives code * 2^32 + place.
    fn sheet_check(sheet: *const u8, sheet_length: usize) -> u64;
}

/// The packed answer of the archive's check.
pub fn check(sheet: &[u8]) -> u64 {
    // The slice is valid for its length and is only read.
    unsafe { sheet_check(sheet.as_ptr(), sheet.len()) }
}
