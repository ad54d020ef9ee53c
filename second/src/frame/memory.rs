//! Memory to lend to the archive: a slice can end or begin at a page that
//! can't be touched, or stand between bytes that must keep their value.

use std::ffi::c_void;
use std::hint::black_box;

use crate::random::Random;

extern "C" {
    fn mmap(
        at: *mut c_void,
        length: usize,
        access: i32,
        flags: i32,
        file: i32,
        from: i64,
    ) -> *mut c_void;
    fn mprotect(at: *mut c_void, length: usize, access: i32) -> i32;
    fn munmap(at: *mut c_void, length: usize) -> i32;
}

const NO_ACCESS: i32 = 0;
const READ_AND_WRITE: i32 = 3;
const PRIVATE_WITHOUT_FILE: i32 = 0x22;
/// A multiple of every page's size.
const PAGES: usize = 65_536;

/// Bytes on either side of a lent slice, as far as there is room.
const AROUND: usize = 48;
const KEPT: u8 = 0xA5;

/// Where a slice stands in its area.
#[derive(Clone, Copy, PartialEq, Eq, Debug)]
pub enum Placement {
    /// The byte after the last can't be touched.
    End,
    /// The byte before the first can't be touched.
    Start,
    /// So many bytes after an aligned place.
    Within(usize),
}

pub const PLACEMENTS: [&str; 3] =
    ["before a closed page", "after a closed page", "between kept bytes"];

impl Placement {
    /// The placement for each turn: at the end in one half of them.
    pub fn of_turn(turn: u64) -> Placement {
        match turn % 4 {
            0 | 2 => Placement::End,
            1 => Placement::Start,
            _ => Placement::Within((turn / 4 % 16) as usize),
        }
    }

    /// The same for a slice of items of so many bytes, which are aligned.
    pub fn aligned(self, item: usize) -> Placement {
        match self {
            Placement::Within(offset) => Placement::Within(offset / item * item),
            other => other,
        }
    }

    /// Where the slices stand, in words.
    pub fn name(self) -> &'static str {
        match self {
            Placement::End => PLACEMENTS[0],
            Placement::Start => PLACEMENTS[1],
            Placement::Within(_) => PLACEMENTS[2],
        }
    }
}

/// Room between pages that can't be touched, with one slice in it.
pub struct Area {
    mapped: *mut c_void,
    room: usize,
    at: usize,
    length: usize,
}

impl Area {
    pub fn new(room: usize) -> Area {
        let room = room.next_multiple_of(PAGES);
        let whole = room + 2 * PAGES;
        // A new mapping, of which only the middle can be read and written.
        unsafe {
            let mapped = mmap(std::ptr::null_mut(), whole, NO_ACCESS, PRIVATE_WITHOUT_FILE, -1, 0);
            assert!(mapped as isize != -1, "no memory");
            let opened = mprotect(mapped.byte_add(PAGES), room, READ_AND_WRITE);
            assert!(opened == 0, "the memory can't be opened");
            Area { mapped, room, at: 0, length: 0 }
        }
    }

    /// All bytes that can be touched.
    fn bytes(&mut self) -> &mut [u8] {
        // The middle of the mapping belongs to this area alone.
        unsafe {
            std::slice::from_raw_parts_mut(self.mapped.byte_add(PAGES).cast::<u8>(), self.room)
        }
    }

    /// Puts a slice into the area, and bytes to be kept around it.
    pub fn put(&mut self, slice: &[u8], placement: Placement) {
        let free = self.room - slice.len();
        self.at = match placement {
            Placement::End => free,
            Placement::Start => 0,
            Placement::Within(offset) => (free / 2).next_multiple_of(64).min(free - 16) + offset,
        };
        self.length = slice.len();
        let (low, at, length, high) = self.places();
        let bytes = self.bytes();
        bytes[low..at].fill(KEPT);
        bytes[at..at + length].copy_from_slice(slice);
        bytes[at + length..high].fill(KEPT);
    }

    /// The slice's place and length between the bytes to be kept.
    fn places(&self) -> (usize, usize, usize, usize) {
        let high = (self.at + self.length + AROUND).min(self.room);
        (self.at.saturating_sub(AROUND), self.at, self.length, high)
    }

    pub fn slice(&mut self) -> &mut [u8] {
        let (at, length) = (self.at, self.length);
        &mut self.bytes()[at..at + length]
    }

    /// Whether the bytes around the slice have their value.
    pub fn kept_around(&mut self) -> bool {
        let (low, at, length, high) = self.places();
        let bytes = black_box(self.bytes());
        bytes[low..at].iter().chain(&bytes[at + length..high]).all(|&byte| byte == KEPT)
    }
}

impl Drop for Area {
    fn drop(&mut self) {
        // The mapping was made by `new` with this length.
        unsafe {
            munmap(self.mapped, self.room + 2 * PAGES);
        }
    }
}

/// Bytes for a lent slice to hold beforehand.
pub fn filling(length: usize, fill: &mut Random) -> Vec<u8> {
    let mut bytes = vec![0; length];
    for eight in bytes.chunks_mut(8) {
        let drawn = fill.draw().to_le_bytes();
        eight.copy_from_slice(&drawn[..eight.len()]);
    }
    bytes
}
