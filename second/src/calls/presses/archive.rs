//! The archive's press.

/// What it gives, by value. On a refusal, and where no change is found, the
/// last three are 0.
#[repr(C)]
#[derive(Clone, Copy, PartialEq, Eq, Debug)]
pub struct Pressed {
    /// code * 2^32 + place.
    pub result: u64,
    /// Whether a change is found: 1 or 0.
    pub found: u64,
    /// The input leaf to change, and the constructor to change it to.
    pub leaf: u64,
    pub constructor: u64,
}

#[cfg_attr(not(test), link(name = "sheets", kind = "static"))]
extern "C" {
    /// Reads the sheet and one cycle of input.
    fn sheet_press(
        sheet: *const u8,
        sheet_length: usize,
        stimulus: *const u8,
        stimulus_length: usize,
        leaf: usize,
    ) -> Pressed;
}

/// What the archive's press gives.
pub fn press(sheet: &[u8], stimulus: &[u8], leaf: usize) -> Pressed {
    // The slices are valid for their lengths.
    unsafe { sheet_press(sheet.as_ptr(), sheet.len(), stimulus.as_ptr(), stimulus.len(), leaf) }
}
