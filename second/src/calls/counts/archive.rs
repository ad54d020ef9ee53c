//! The archive's count.

use super::counting::Counters;

/// What it gives, by value. On a refusal every counter is 0.
#[repr(C)]
#[derive(Clone, Copy)]
pub struct Counted {
    /// code * 2^32 + place.
    pub result: u64,
    pub counters: Counters,
}

#[cfg_attr(not(test), link(name = "sheets", kind = "static"))]
extern "C" {
    /// Reads the sheet.
    fn sheet_count(sheet: *const u8, sheet_length: usize, leaf: usize) -> Counted;
}

/// What the archive's count gives.
pub fn count(sheet: &[u8], leaf: usize) -> Counted {
    // The slice is valid for its length.
    unsafe { sheet_count(sheet.as_ptr(), sheet.len(), leaf) }
}
