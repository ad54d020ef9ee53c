//! Lends slices to the archive: those that it reads and those that it fills,
//! each call's placed otherwise.

use std::hint::black_box;

use super::memory::{filling, Area, Placement};
use crate::random::Random;

/// What a call answers and leaves in the slices that it was lent to fill.
#[derive(Clone)]
pub struct Left {
    pub packed: u64,
    pub slices: Vec<Vec<u8>>,
}

/// What came of a call of the archive.
pub struct Lending {
    pub placement: Placement,
    /// What the slices to fill held before.
    pub before: Vec<Vec<u8>>,
    pub left: Left,
    /// Whether the call altered what it may not.
    pub altered: bool,
}

pub struct Lender {
    areas: Vec<Area>,
    /// For the bytes that lent slices are filled with beforehand.
    pub fill: Random,
    turn: u64,
}

impl Lender {
    /// With an area of so many bytes for each slice of a call.
    pub fn new(rooms: &[usize], fill: Random) -> Lender {
        Lender { areas: rooms.iter().map(|room| Area::new(*room)).collect(), fill, turn: 0 }
    }

    /// Lends the slices to read and those to fill, of so many bytes, of which
    /// an item has `item`. The archive is handed both in this order.
    pub fn lend(
        &mut self,
        read: &[&[u8]],
        lengths: &[usize],
        item: usize,
        archive: impl FnOnce(&mut [&mut [u8]]) -> u64,
    ) -> Lending {
        let placement = Placement::of_turn(self.turn).aligned(item);
        self.turn += 1;
        let before: Vec<Vec<u8>> =
            lengths.iter().map(|length| filling(*length, &mut self.fill)).collect();
        let all = read.iter().copied().chain(before.iter().map(Vec::as_slice));
        assert!(self.areas.len() == read.len() + before.len(), "an area for each slice");
        for (area, slice) in self.areas.iter_mut().zip(all) {
            area.put(slice, placement);
        }
        let mut slices: Vec<&mut [u8]> = self.areas.iter_mut().map(Area::slice).collect();
        let packed = archive(&mut slices);
        let (lent, filled) = slices.split_at(read.len());
        let kept = lent.iter().zip(read).all(|(lent, read)| black_box(&**lent) == *read);
        let slices = filled.iter().map(|slice| black_box(&**slice).to_vec()).collect();
        let around = self.areas.iter_mut().all(Area::kept_around);
        Lending { placement, before, left: Left { packed, slices }, altered: !kept || !around }
    }
}
