//! The archive's carrying.

#[cfg_attr(not(test), link(name = "sheets", kind = "static"))]
extern "C" {
    /// Reads both sheets, fills the next slice; gives code * 2^32 + place.
    fn sheet_carry(
        old: *const u8,
        old_length: usize,
        new: *const u8,
        new_length: usize,
        next: *mut u8,
        next_length: usize,
    ) -> u64;
}

/// The packed answer of the archive's carrying.
pub fn carry(old: &[u8], new: &[u8], next: &mut [u8]) -> u64 {
    // The slices are valid for their lengths and do not overlap.
    unsafe {
        sheet_carry(old.as_ptr(), old.len(), new.as_ptr(), new.len(), next.as_mut_ptr(), next.len())
    }
}
