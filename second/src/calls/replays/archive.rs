//! The archive's replay.

/// What it gives, by value. On a refusal the last three are 0.
#[repr(C)]
#[derive(Clone, Copy, PartialEq, Eq, Debug)]
pub struct Replayed {
    /// code * 2^32 + place.
    pub result: u64,
    /// Whether the record differs from the run's outputs: 1 or 0.
    pub differs: u64,
    /// The first cycle that differs, and its lowest leaf that does; where none
    /// does, how many cycles were done, and 0.
    pub cycle: u64,
    pub leaf: u64,
}

#[cfg_attr(not(test), link(name = "sheets", kind = "static"))]
extern "C" {
    /// Reads the sheet, the stimulus and the record; fills the next slice where
    /// the record agrees.
    fn sheet_replay(
        sheet: *const u8,
        sheet_length: usize,
        stimulus: *const u8,
        stimulus_length: usize,
        recorded: *const u8,
        recorded_length: usize,
        next: *mut u8,
        next_length: usize,
    ) -> Replayed;
}

/// What the archive's replay gives.
pub fn replay(sheet: &[u8], stimulus: &[u8], recorded: &[u8], next: &mut [u8]) -> Replayed {
    // The slices are valid for their lengths and do not overlap.
    unsafe {
        sheet_replay(
            sheet.as_ptr(),
            sheet.len(),
            stimulus.as_ptr(),
            stimulus.len(),
            recorded.as_ptr(),
            recorded.len(),
            next.as_mut_ptr(),
            next.len(),
        )
    }
}
