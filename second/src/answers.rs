//! The answer of every call: a code of docs/SHEETS.md, "Codes", and its place.

/// No fault.
pub const ACCEPTED: u8 = 0;

// The sheet is refused by the check; in carrying, the old one.
pub const WRONG_LENGTH: u8 = 1;
pub const WRONG_HEADER: u8 = 2;
pub const WRONG_RECORD: u8 = 3;
pub const WRONG_NAMING: u8 = 4;
pub const WRONG_TYPE: u8 = 5;
pub const TOO_DEEP: u8 = 6;
pub const ILL_TYPED: u8 = 7;

// The sheet is accepted, and the call on it refused.
pub const WRONG_STIMULUS: u8 = 8;
pub const WRONG_INPUT: u8 = 9;
pub const WRONG_OUTPUT_LENGTH: u8 = 10;
pub const WRONG_NEXT_LENGTH: u8 = 11;

/// A file that the program cannot open.
pub const NO_FILE: u8 = 12;

// A text is not translated.
pub const WRONG_TEXT: u8 = 13;
pub const WRONG_NAME: u8 = 14;
pub const NO_ROOM: u8 = 15;

/// The slice for fired alternatives is not one word a record.
pub const WRONG_WORDS: u8 = 16;

// The old sheet is accepted, and carrying refused.
pub const NEW_SHEET_REFUSED: u8 = 18;
pub const LABEL_TWICE: u8 = 19;

/// There is no such output leaf.
pub const NO_OUTPUT_LEAF: u8 = 21;

#[derive(Clone, Copy, PartialEq, Eq, Debug)]
pub struct Answer {
    pub code: u8,
    pub place: u32,
}

impl Answer {
    /// The answer of a call that nothing refuses.
    pub fn accepted(place: u32) -> Answer {
        Answer { code: ACCEPTED, place }
    }

    /// The answer as one number: code * 2^32 + place.
    pub fn packed(self) -> u64 {
        (u64::from(self.code) << 32) + u64::from(self.place)
    }

    /// Whether a number packs an answer that nothing refuses.
    pub fn accepts(packed: u64) -> bool {
        packed >> 32 == u64::from(ACCEPTED)
    }

    /// The answer that a number packs.
    pub fn unpacked(packed: u64) -> Answer {
        Answer { code: (packed >> 32) as u8, place: packed as u32 }
    }
}
