//! `sheet_fired`: compares the second implementation with the one in the
//! archive.

pub mod archive;
pub mod firing;
mod kind;
pub mod mistakes;

#[cfg(test)]
mod tests;

use crate::frame::entry::{Call, Entry};
use crate::one_cycle::compare::OneCycle;

pub const CALL: Call =
    Call { comparisons: &[Entry::of::<OneCycle<kind::Firings>>()], commands: &[] };
